package front

import (
	"context"
	"time"

	"rbac-node/internal/api"
	"rbac-node/internal/callers"
)

// settling is how long it may take until all requests are done that earlier callers have sent.
const settling = 2 * time.Minute

// ReloadOnSignal reads the files of the callers again whenever SIGHUP comes, until the context ends. The certificate of the front
// is read for each connection.
func (f *Front) ReloadOnSignal(ctx context.Context) {
	for {
		select {
		case <-f.Hangups:
		case <-ctx.Done():
			return
		}
		if f.guard == nil {
			f.Log.Info("there are no callers to read")
			continue
		}
		f.reload(ctx)
	}
}

// reload puts the callers of the files in force. If one of the files is refused, those before stay.
func (f *Front) reload(ctx context.Context) {
	set, err := callers.Load(ctx, f.Callers)
	if err != nil {
		f.refusedAt.CompareAndSwap(0, time.Now().UnixNano())
		f.Log.Error("the callers are refused, and those before stay in force", "why", err)
		return
	}
	f.refusedAt.Store(0)
	within, cancel := context.WithTimeout(ctx, settling)
	defer cancel()
	if err := f.guard.Replace(within, set, f.ask); err != nil {
		f.Log.Warn("the callers are in force, but requests of the earlier ones may still be done", "why", err)
		return
	}
	f.Log.Info("the callers are in force", "callers", set.Count())
}

// ask asks the office for something that changes nothing. All that was asked before has then been done.
func (f *Front) ask(ctx context.Context) error {
	call, err := api.NewCall("ssdRoleSets")
	if err != nil {
		return err
	}
	if err := f.office.Settle(ctx); err != nil {
		return err
	}
	_, err = f.office.Do(ctx, api.NewBatch(api.Question, call))
	return err
}
