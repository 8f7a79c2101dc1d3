package main

import (
	"context"
	"time"

	"github.com/coreos/go-systemd/daemon"

	"rbac-node/internal/endpoints"
	"rbac-node/internal/front"
	"rbac-node/internal/logs"
)

// endTimeout is how long requests may take to end when the program ends.
const endTimeout = 10 * time.Second

// An answerer is an office that runs until a context ends.
type answerer interface {
	endpoints.Office
	Run(ctx context.Context) error
	IsAlive(ctx context.Context) bool
}

// answer answers clients until the context ends or something fails, which may also be reported by failed. Requests that came before
// are answered in any case, and so are those of other servers, which shutdown ends.
func answer(ctx context.Context, f *front.Front, office answerer, failed chan error, log *logs.Logger,
	shutdown func(context.Context)) error {
	// The office continues after the signal, until the earlier requests are answered.
	life, end := context.WithCancel(context.Background())
	defer end()
	ended := make(chan error, 1)
	go func() {
		err := office.Run(life)
		end()
		ended <- err
	}()
	f.Serve(life, reportingTo(failed), office)
	go f.ReloadOnSignal(life)
	go watchdog(life, office.IsAlive)
	var err error
	select {
	case <-ctx.Done():
	case <-life.Done():
	case err = <-failed:
	}
	_, _ = daemon.SdNotify(false, daemon.SdNotifyStopping)
	within, cancel := context.WithTimeout(context.Background(), endTimeout)
	defer cancel()
	f.Shutdown(within)
	shutdown(within)
	end()
	if failure := <-ended; err == nil {
		err = failure
	}
	log.Info("ended")
	return err
}

// reportingTo returns what starts work in a goroutine, and reports its failure.
func reportingTo(failed chan<- error) func(func() error) {
	return func(work func() error) {
		go func() {
			if err := work(); err != nil {
				select {
				case failed <- err:
				default: // Another failure has been reported.
				}
			}
		}()
	}
}

// watchdog reports to systemd, if it wants to know, that the process is ready, and then, again and again, that it is alive. If the reports
// stop, systemd starts it again. If a report fails, systemd notices.
func watchdog(ctx context.Context, isAlive func(context.Context) bool) {
	_, _ = daemon.SdNotify(false, daemon.SdNotifyReady)
	patience, err := daemon.SdWatchdogEnabled(false)
	if err != nil || patience == 0 {
		return
	}
	interval := patience / 4
	ticker := time.NewTicker(interval)
	defer ticker.Stop()
	for {
		within, cancel := context.WithTimeout(ctx, interval)
		if isAlive(within) {
			_, _ = daemon.SdNotify(false, daemon.SdNotifyWatchdog)
		}
		cancel()
		select {
		case <-ticker.C:
		case <-ctx.Done():
			return
		}
	}
}
