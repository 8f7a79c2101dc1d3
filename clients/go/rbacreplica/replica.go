// Package rbacreplica has a replica: a copy of an office in this process, which follows the front and decides by itself.
//
// It needs the library librbac, as the package rbacoffice does (docs/howto/embed.md). The caller of its client needs the rights snapshot
// and watch, so it gets the whole policy. docs/howto/integrate.md, section 7, says when to use it.
package rbacreplica

import (
	"context"
	"errors"
	"fmt"
	"log"
	"sync"
	"time"

	"rbac/clients/go/rbacclient"
	"rbac/clients/go/rbacoffice"
)

// Otherwise is what a replica does if its copy is too old, hasn't the wanted revision, or doesn't know the session.
type Otherwise int

const (
	Ask  Otherwise = iota // ask the front
	Wait                  // wait for the copy up to a limit, and deny then
	Deny                  // deny at once
)

// Config is what a replica is made from. Client is required.
type Config struct {
	// Client asks the front. Its caller needs the rights snapshot and watch. It stays open when the replica is closed.
	Client *rbacclient.Client
	// Oldest is how old a copy may be that decides. The default is 5 seconds.
	Oldest time.Duration
	// Otherwise is what is done if the copy may not decide. Limit is for how long Wait waits: 2 seconds if it is 0.
	Otherwise Otherwise
	Limit     time.Duration
	// Silence is after how long without a word of the front the copy counts as cut off. The default is 5 seconds.
	Silence time.Duration
	// Log gets lines about decisions that the office hasn't made, and if the replica is cut off: one for each change of the reason, and
	// otherwise one a second, which counts the others. The default is the standard logger.
	Log *log.Logger
}

// Decision is that of a replica: it also says by which state of the office it was made. Its zero value denies.
type Decision struct {
	rbacclient.Decision
	// Age is how long before the decision, at most, the copy had all that was accepted. With Number 0 it is how long the front took.
	Age time.Duration
	// Number is that of the last command in the copy, or 0 if the front was asked.
	Number uint64
}

// Status is how a copy is. Err is why it isn't followed at the moment, if it isn't.
type Status struct {
	Number, Revision uint64
	Age              time.Duration
	Err              error
}

// Never is the age if there is no copy.
const Never = time.Duration(1<<63 - 1)

// errNothing and errClosed are why there is no copy at the beginning and at the end.
var (
	errNothing = &rbacclient.Error{Reason: rbacclient.Unavailable, Err: errors.New("nothing was loaded yet")}
	errClosed  = &rbacclient.Error{Reason: rbacclient.Unavailable, Err: errors.New("the replica is closed")}
)

// Replica decides by its own copy of an office. Goroutines may share it.
type Replica struct {
	config Config
	stop   context.CancelFunc
	ended  chan struct{}
	names  digests
	tally  rbacclient.Tally

	mu       sync.Mutex
	office   *rbacoffice.Office // nil if there is no copy
	number   uint64
	revision uint64
	last     uint64    // what the revision is over several machines: the number of the last command that it counts
	place    int       // the address that the copy is from
	asked    time.Time // when the front was asked for the copy
	fresh    moment
	young    map[string]time.Time // when sessions came that may not have all of their roles yet
	trouble  *rbacclient.Error
	cutOff   rbacclient.LogLines
	isTold   bool // whether the log has a line that it is cut off, and none after it
	failures int
	changed  chan struct{} // closed at the next change, if somebody waits for it
}

// Open makes a replica, which begins to follow the front. Ready waits until it decides.
func Open(config Config) (*Replica, error) {
	if config.Client == nil {
		return nil, errors.New("rbacreplica: there is no client")
	}
	for _, one := range []struct {
		value *time.Duration
		usual time.Duration
	}{{&config.Oldest, 5 * time.Second}, {&config.Limit, 2 * time.Second}, {&config.Silence, 5 * time.Second}} {
		if *one.value <= 0 {
			*one.value = one.usual
		}
	}
	if config.Log == nil {
		config.Log = log.Default()
	}
	ctx, stop := context.WithCancel(context.Background())
	r := &Replica{config: config, stop: stop, ended: make(chan struct{}), trouble: errNothing}
	go r.run(ctx)
	return r, nil
}

// Close ends the replica. It denies then.
func (r *Replica) Close() {
	r.stop()
	<-r.ended
	r.drop(errClosed)
}

// Ready waits until the copy may decide.
func (r *Replica) Ready(ctx context.Context) error {
	for {
		r.mu.Lock()
		behind := r.behind(time.Now(), 0)
		changed := r.nextChange()
		r.mu.Unlock()
		if behind == nil {
			return nil
		}
		select {
		case <-changed:
		case <-ctx.Done():
			return fmt.Errorf("rbacreplica: %s: %w", behind.Detail, ctx.Err())
		}
	}
}

// Status returns how the copy is at the moment.
func (r *Replica) Status() Status {
	r.mu.Lock()
	defer r.mu.Unlock()
	status := Status{Number: r.number, Revision: r.revision, Age: r.fresh.age(time.Now())}
	if r.trouble != nil {
		status.Err = r.trouble
	}
	return status
}

// Counts returns how many decisions there were, by their reasons.
func (r *Replica) Counts() map[rbacclient.Reason]uint64 { return r.tally.Counts() }

// Check says whether the session may do the operation on the object, why, and by which state.
func (r *Replica) Check(ctx context.Context, session, operation, object string) Decision {
	return r.CheckAt(ctx, 0, session, operation, object)
}

// CheckAt is Check by a copy that has at least this revision of the policy, such as PolicyRevision of a client after a command.
func (r *Replica) CheckAt(ctx context.Context, revision uint64, session, operation, object string) Decision {
	return r.judge(ctx, &question{revision, false, r.names.of(session), operation, object}, func() rbacclient.Decision {
		return rbacclient.DecisionOf(r.config.Client.CheckAccess(ctx, session, operation, object))
	})
}

// DecideByUser says whether the user may do the operation on the object in some session, for a guard of applications without sessions.
func (r *Replica) DecideByUser(ctx context.Context, user, operation, object string) rbacclient.Decision {
	return r.DecideByUserAt(ctx, 0, user, operation, object).Decision
}

// DecideByUserAt is DecideByUser by a copy that has at least this revision of the policy. It also says by which state.
func (r *Replica) DecideByUserAt(ctx context.Context, revision uint64, user, operation, object string) Decision {
	return r.judge(ctx, &question{revision, true, user, operation, object}, func() rbacclient.Decision {
		return rbacclient.DecisionOf(r.config.Client.AskByUser(ctx, user, operation, object))
	})
}

// question is what the copy decides: about a session by its digest, or about a user.
type question struct {
	revision                uint64 // that the copy has to have, at least
	isByUser                bool
	name, operation, object string
}

// judge returns the decision of the copy, or what is decided if it may not. ask asks the front.
func (r *Replica) judge(ctx context.Context, q *question, ask func() rbacclient.Decision) Decision {
	decision, isFinal := r.decide(q)
	switch {
	case isFinal:
	case r.config.Otherwise == Wait:
		decision = r.later(ctx, q)
	case r.config.Otherwise == Ask:
		asked := time.Now()
		decision = Decision{Decision: ask()}
		decision.Age = time.Since(asked)
	}
	// What the caller has cancelled says nothing about the office.
	if decision.IsDecided() || !errors.Is(ctx.Err(), context.Canceled) {
		r.tally.Keep(r.config.Log, decision.Decision, q.operation, q.object)
	}
	return decision
}

// Decide is Check without its age and number, for a guard or a session of rbacclient.
func (r *Replica) Decide(ctx context.Context, session, operation, object string) rbacclient.Decision {
	return r.Check(ctx, session, operation, object).Decision
}

// May reports whether to let the session do the operation on the object.
func (r *Replica) May(ctx context.Context, session, operation, object string) bool {
	return r.Check(ctx, session, operation, object).Allowed()
}

// decide returns the decision of the copy, and whether nothing else is to be tried.
func (r *Replica) decide(q *question) (Decision, bool) {
	r.mu.Lock()
	defer r.mu.Unlock()
	now := time.Now()
	if behind := r.behind(now, q.revision); behind != nil {
		return *behind, r.trouble == errClosed || r.trouble != nil && isNoRight(r.trouble.Reason)
	}
	check := r.office.Check
	if q.isByUser {
		check = r.office.CheckUser
	}
	isAllowed, err := check(q.name, q.operation, q.object)
	decision := Decision{Decision: decisionOf(isAllowed, err), Age: r.fresh.age(now), Number: r.number}
	if decision.Reason == rbacclient.EndedSession {
		return decision, false
	}
	// A session that has just come may get its roles only now.
	if came, isYoung := r.young[q.name]; isYoung && !q.isByUser && decision.Reason == rbacclient.Denied && now.Sub(came) < young {
		return decision, false
	}
	return decision, true
}

// decisionOf returns the decision of the library.
func decisionOf(isAllowed bool, err error) rbacclient.Decision {
	var refused *rbacoffice.RefusedError
	if errors.As(err, &refused) {
		err = rbacclient.RefusedError(refused.Code, refused.Name)
	}
	return rbacclient.DecisionOf(isAllowed, err)
}

// behind returns the decision if the copy may not decide. The caller holds the lock.
func (r *Replica) behind(now time.Time, revision uint64) *Decision {
	age := r.fresh.age(now)
	decision := &Decision{Age: age, Number: r.number}
	decision.Reason = rbacclient.Unavailable
	switch {
	case r.office == nil || age > r.config.Oldest:
		decision.Detail = "there is no copy"
		if r.office != nil {
			decision.Detail = fmt.Sprintf("the copy is %v old", age)
		}
		if r.trouble != nil {
			decision.Detail += ": " + r.trouble.Error()
			if r.trouble.Reason != rbacclient.Refused {
				decision.Reason = r.trouble.Reason
			}
		}
	case r.revision < revision:
		decision.Detail = fmt.Sprintf("the copy has revision %d and not yet %d", r.revision, revision)
	default:
		return nil
	}
	return decision
}

// later returns the decision as soon as the copy may make it, or when the time is over.
func (r *Replica) later(ctx context.Context, q *question) Decision {
	timer := time.NewTimer(r.config.Limit)
	defer timer.Stop()
	for {
		r.mu.Lock()
		changed := r.nextChange()
		r.mu.Unlock()
		decision, isFinal := r.decide(q)
		if isFinal {
			return decision
		}
		select {
		case <-changed:
		case <-timer.C:
			return decision
		case <-ctx.Done():
			return decision
		}
	}
}

// nextChange returns what is closed at the next change of the copy. The caller holds the lock.
func (r *Replica) nextChange() <-chan struct{} {
	if r.changed == nil {
		r.changed = make(chan struct{})
	}
	return r.changed
}

// hasChanged lets those go on who wait for a change. The caller holds the lock.
func (r *Replica) hasChanged() {
	if r.changed != nil {
		close(r.changed)
		r.changed = nil
	}
}
