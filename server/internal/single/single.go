// Package single keeps one office on one machine, without etcd. It feeds commands to `rbac replay FILE`, so the file is the truth: an
// answer comes after its command is in the file. An office in this process, by librbac, does each command that the replay has accepted
// before its answer leaves, and answers all questions. If the two answer a command differently, both begin with the file again.
package single

import (
	"context"
	"errors"
	"fmt"
	"os"
	"path/filepath"
	"strings"
	"time"

	"github.com/prometheus/client_golang/prometheus"
	"golang.org/x/sync/semaphore"

	"rbac-node/internal/api"
	"rbac-node/internal/disk"
	"rbac-node/internal/faults"
	"rbac-node/internal/feed"
	"rbac-node/internal/logs"
	"rbac-node/internal/office"
	"rbac-node/internal/record"
)

// MostReads is after how many reads of its input a replay is started anew at a quiet moment.
const MostReads = 900_000_000

// Options are what an office needs.
type Options struct {
	File, Program string
	// AnswerTimeout is how long a request waits for its answer, and HangTimeout how long a replay may answer nothing.
	AnswerTimeout, HangTimeout time.Duration
	Reads                      int64
	Log                        *logs.Logger
	Metrics                    prometheus.Registerer
	// IsOpen says that everybody who can connect may do everything.
	IsOpen bool
	// SessionAge is after how much time a session ends, and SessionIdle after how much in which it isn't named. Zero is never.
	SessionAge, SessionIdle time.Duration
	// Locked is called when the office belongs to this front, and is there. Say is called with what the start does from then on.
	Locked func() error
	Say    func(stage string)
	// Recording says how the record is kept. It is nil if nothing is recorded.
	Recording *record.Options
}

// An Office is the office of a file.
type Office struct {
	Options
	order
	feed      *feed.Feed
	lock      *os.File
	record    recorder
	rereading *rereading
}

// Open opens the office of a file, and makes it if there is no file.
func Open(ctx context.Context, options Options) (*Office, error) {
	lock, err := office.Lock(ctx, options.File+".lock")
	if err != nil {
		return nil, err
	}
	o := &Office{Options: options, order: order{gate: semaphore.NewWeighted(wholeGate)}, lock: lock, record: noRecord{}}
	o.rereading = newRereading(options.Metrics)
	if err := o.open(ctx); err != nil {
		_ = o.record.Close(false) // What has failed before says more.
		_ = lock.Close()
		return nil, err
	}
	return o, nil
}

// open opens the record and the office. The office is locked.
func (o *Office) open(ctx context.Context) error {
	if err := office.CheckRestored(o.File); err != nil {
		return err
	}
	if err := o.checkRecord(); err != nil {
		return err
	}
	if err := makeIfMissing(ctx, o.Program, o.File); err != nil {
		return err
	}
	if err := o.count(); err != nil {
		return err
	}
	o.Say("the record is opened")
	if err := o.Locked(); err != nil {
		return err
	}
	if err := o.openRecord(ctx); err != nil {
		return err
	}
	options := feed.Options{
		Name: "office", Before: o.before, While: o.while, Observer: o, Keeper: o.record,
		// The replay inherits the lock. So whoever gets it knows that no replay of an earlier front writes the file any more.
		Start: func() (*office.Replay, error) {
			if faults.Has(faults.Unlocked) {
				return office.Start(o.Program, o.File, o.HangTimeout)
			}
			return office.Start(o.Program, o.File, o.HangTimeout, o.lock)
		},
		Reads: o.Reads, Log: o.Log, Metrics: o.Metrics,
	}
	var err error
	if o.feed, err = feed.Open(ctx, options); err != nil {
		return fmt.Errorf("the office %s doesn't open: %w", o.File, err)
	}
	if o.unread != nil {
		ended, end := context.WithCancel(context.Background())
		end()
		_ = o.feed.Run(ended) // Nothing has been asked.
		return fmt.Errorf("the office %s can't be read: %w", o.File, o.unread)
	}
	return nil
}

// makeIfMissing makes an office unless there is something at the path. After a crash there is a whole office or nothing.
func makeIfMissing(ctx context.Context, program, path string) error {
	if _, err := os.Lstat(path); !errors.Is(err, os.ErrNotExist) {
		return err
	}
	making := path + ".making"
	office.RemoveCopy(making)
	err := office.Run(ctx, program, "init", making)
	if err == nil {
		err = office.RefuseLog(making)
	}
	if err == nil {
		err = os.Rename(making, path)
	}
	if err != nil {
		return fmt.Errorf("make an office: %w", err)
	}
	return disk.Sync(filepath.Dir(path))
}

// Run answers until the context ends, and then those that have asked before.
func (o *Office) Run(ctx context.Context) error {
	defer o.lock.Close()
	if o.SessionAge+o.SessionIdle > 0 {
		go o.state.Expire(ctx, o.SessionAge, o.SessionIdle, func() int { return 0 }, func(ctx context.Context, call *api.Call) {
			_, _ = o.Do(ctx, api.NewBatch(api.Question, call)) // It is tried again.
		})
	}
	go o.compareOften(ctx)
	err := o.feed.Run(ctx)
	o.state.Forget()
	if closing := o.record.Close(err == nil); err == nil {
		err = closing
	}
	return err
}

// IsAlive reports whether the goroutine that feeds the replay goes on, before the context ends.
func (o *Office) IsAlive(ctx context.Context) bool { return o.feed.IsAlive(ctx) }

// Health returns the condition of the office.
func (o *Office) Health() api.Health {
	h := api.Health{Why: o.feed.Why(), Open: o.IsOpen}
	switch isKnown := o.state.IsKnown(); {
	case !isKnown && o.rereading.has():
		h.Why = strings.TrimSuffix("the office in this process isn't that of its file, which is read again: "+h.Why, ": ")
	case !isKnown && h.Why == "":
		h.Why = "the office is read from its file again"
	}
	h.Ready, h.Record = h.Why == "", o.record.Why()
	return h
}

// IsReady reports whether the office answers questions, which needs no replay.
func (o *Office) IsReady() bool { return o.state.IsKnown() }
