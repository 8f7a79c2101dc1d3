package rbacreplica

import (
	"context"
	"encoding/json"
	"errors"
	"fmt"
	"math/rand"
	"strings"
	"time"

	"rbac/clients/go/rbacclient"
)

const (
	// longestWatch is for how long a watch is followed: until then the clocks of two machines differ by a few milliseconds at most.
	longestWatch = 10 * time.Minute
	// firstPause is that before the front is asked again after a second failure. Each further one is twice as long.
	firstPause, longestPause = 50 * time.Millisecond, time.Second
	// refusedPause is that after the front has refused to be followed: each attempt costs it a snapshot.
	refusedPause = 5 * time.Second
	// young is for how long the roles of a session that began without some may still be on their way; at most mostYoung such sessions
	// are kept.
	young, mostYoung = 2 * time.Second, 4_096
)

// aboutSessions are the beginnings of the commands that the revision of the policy doesn't count.
var aboutSessions = []string{`{"fn":"createSession"`, `{"fn":"deleteSession"`, `{"fn":"addActiveRole"`, `{"fn":"dropActiveRole"`}

// errDiverged says that the copy isn't that of the front any more, or may not be.
var errDiverged = errors.New("the copy isn't that of the front")

// diverged returns such an error.
func diverged(format string, words ...interface{}) error {
	return fmt.Errorf("%w: %s", errDiverged, fmt.Sprintf(format, words...))
}

// isNoRight reports whether the front refuses to be followed at all.
func isNoRight(reason rbacclient.Reason) bool {
	return reason == rbacclient.Unauthenticated || reason == rbacclient.Forbidden
}

// run follows the front until the replica is closed.
func (r *Replica) run(ctx context.Context) {
	defer close(r.ended)
	for place := 0; r.pause(ctx); {
		err := r.load(ctx, place)
		if err == nil {
			err = r.follow(ctx, place)
		}
		if err != nil && ctx.Err() == nil && r.troubled(err) > 1 {
			// The numbers of another address may be of another order: there the copy is made anew.
			place = (place + 1) % r.config.Client.Places()
		}
	}
}

// pause waits after failed attempts, longer after each, and reports whether there is to be another one.
func (r *Replica) pause(ctx context.Context) bool {
	r.mu.Lock()
	failures, isRefused := r.failures, r.trouble != nil && isNoRight(r.trouble.Reason)
	r.mu.Unlock()
	var pause time.Duration
	switch {
	case isRefused:
		pause = refusedPause
	case failures >= 7:
		pause = longestPause
	case failures >= 2:
		pause = firstPause << (failures - 2)
	}
	if pause > 0 {
		pause = pause/2 + time.Duration(rand.Int63n(int64(pause/2)))
	}
	select {
	case <-time.After(pause):
		return ctx.Err() == nil
	case <-ctx.Done():
		return false
	}
}

// troubled notes why the front isn't followed, and returns how often it failed. The copy decides until it is too old, if nothing is
// wrong with it.
func (r *Replica) troubled(err error) int {
	var own *rbacclient.Error
	if !errors.As(err, &own) {
		own = &rbacclient.Error{Reason: rbacclient.Unexpected, Err: err}
	}
	r.mu.Lock()
	defer r.mu.Unlock()
	if end, isDue := r.cutOff.Due(time.Now(), own.Reason); isDue {
		r.isTold = true
		r.config.Log.Printf("the replica is cut off: %v%s", own, end)
	}
	if isNoRight(own.Reason) || own.Code == rbacclient.Outdated || errors.Is(err, errDiverged) {
		// The office may have been restored: nobody decides by what was before, and revisions of before count for nothing.
		r.config.Client.ForgetRevision()
		r.forget()
		r.hasChanged()
	}
	r.trouble = own
	r.failures++
	return r.failures
}

// drop forgets the copy.
func (r *Replica) drop(err *rbacclient.Error) {
	r.mu.Lock()
	defer r.mu.Unlock()
	r.forget()
	r.trouble = err
	r.hasChanged()
}

// forget forgets the copy. The caller holds the lock.
func (r *Replica) forget() {
	if r.office != nil {
		r.office.Close()
	}
	r.office, r.fresh = nil, moment{}
	r.number, r.revision, r.last = 0, 0, 0
}

// load makes the copy by a snapshot of the front, unless there is one from this address. It doesn't decide before the front lets it be
// followed.
func (r *Replica) load(ctx context.Context, place int) error {
	r.mu.Lock()
	isThere := r.office != nil && r.place == place
	r.mu.Unlock()
	if isThere {
		return nil
	}
	snapshot, err := r.config.Client.Snapshot(ctx, place)
	if err != nil {
		return err
	}
	office, err := officeOf(snapshot.Lines)
	if err != nil {
		return fmt.Errorf("the snapshot: %v", err) // Nothing is wrong with the copy that there is.
	}
	r.mu.Lock()
	defer r.mu.Unlock()
	if r.office != nil {
		r.office.Close()
	}
	r.office, r.number, r.revision, r.place = office, snapshot.Number, snapshot.Revision, place
	r.last = snapshot.Revision
	r.asked, r.young = snapshot.Asked, nil
	for _, line := range snapshot.Lines {
		r.noteSession(line)
	}
	r.hasChanged()
	return nil
}

// follow does what the front accepts, until the watch ends.
func (r *Replica) follow(ctx context.Context, place int) error {
	watch, err := r.config.Client.Watch(ctx, place, r.Status().Number, r.config.Silence)
	if err != nil {
		return err
	}
	defer watch.Close()
	r.mu.Lock()
	r.freshens(r.asked)
	r.mu.Unlock()
	for {
		event, err := watch.Next()
		if err != nil {
			return err
		}
		if event.Line != nil {
			if err := r.accepted(event); err != nil {
				return err
			}
			continue
		}
		if err := r.newest(event); err != nil {
			return err
		}
		// A front that doesn't tell the time is asked again: what it says first is no older than the request.
		if time.Since(watch.Asked) > longestWatch || r.Status().Age > r.config.Oldest/2 {
			return nil
		}
	}
}

// newest notes what the newest number was.
func (r *Replica) newest(event rbacclient.Event) error {
	r.mu.Lock()
	defer r.mu.Unlock()
	at := event.Moment
	if now := time.Now(); at.After(now) {
		at = now
	}
	switch {
	case event.Number < r.number:
		return diverged("the newest number is %d, and the copy has %d", event.Number, r.number)
	case event.HasRevision && event.Revision != r.revision && event.Revision != r.last:
		// The front has the same commands: one of them may have been left out.
		return diverged("the policy has revision %d, and the copy %d", event.Revision, r.revision)
	default:
		if event.HasRevision {
			r.revision = event.Revision
		}
		// All commands up to that number were sent. On several machines those that were refused have numbers too.
		r.number = event.Number
		r.isFresh(at)
	}
	return nil
}

// isFresh notes that the copy had all that was accepted at a moment. The caller holds the lock.
func (r *Replica) isFresh(at time.Time) {
	if r.isTold {
		r.isTold = false
		r.config.Log.Printf("the replica follows the front")
	}
	r.trouble, r.failures = nil, 0
	r.freshens(at)
}

// freshens notes the same of a copy that isn't known to be followed yet. The caller holds the lock.
func (r *Replica) freshens(at time.Time) {
	if r.fresh.isNever() || at.After(r.fresh.at) {
		r.fresh = momentOf(at)
	}
	r.hasChanged()
}

// accepted does a command that the front has accepted.
func (r *Replica) accepted(event rbacclient.Event) error {
	r.mu.Lock()
	defer r.mu.Unlock()
	if event.Number <= r.number {
		return diverged("the front has sent number %d after %d", event.Number, r.number)
	}
	if err := do(r.office, event.Line); err != nil {
		r.forget() // Nobody may decide by what is left.
		return err
	}
	r.number = event.Number
	if !isAboutSession(event.Line) {
		r.revision++
		r.last = event.Number
	}
	r.noteSession(event.Line)
	r.hasChanged()
	return nil
}

// noteSession notes a session that begins without roles: the front makes it so, and activates one role after the other. The caller
// holds the lock.
func (r *Replica) noteSession(text []byte) {
	var line snapshotLine
	if !isAboutSession(text) || json.Unmarshal(text, &line) != nil || line.Fn != "createSession" || line.Roles != nil && len(*line.Roles) > 0 {
		return
	}
	if r.young == nil || len(r.young) >= mostYoung {
		r.young = map[string]time.Time{}
	}
	r.young[line.Session] = time.Now()
}

// isAboutSession reports whether a line is about one session.
func isAboutSession(line []byte) bool {
	for _, beginning := range aboutSessions {
		if strings.HasPrefix(string(line), beginning) {
			return true
		}
	}
	return false
}

// A moment is a time by the two clocks of a machine: one of them stands while the machine sleeps, and somebody may set the other one.
type moment struct {
	at, wall time.Time
}

func momentOf(at time.Time) moment {
	return moment{at, at.Round(0)}
}

func (m moment) isNever() bool {
	return m.at.IsZero()
}

// age returns how long ago the moment was, at most, or Never.
func (m moment) age(now time.Time) time.Duration {
	if m.isNever() {
		return Never
	}
	age := now.Sub(m.at)
	if byWall := now.Round(0).Sub(m.wall); byWall > age {
		return byWall
	}
	return age
}
