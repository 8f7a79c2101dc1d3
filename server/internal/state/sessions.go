package state

import (
	"context"
	"sort"
	"strings"
	"sync/atomic"
	"time"

	"rbac/clients/go/rbacoffice"

	"rbac-node/internal/api"
)

// A session has the times of one. began and used are how long the state had been there when it was made and when it was last named.
type session struct {
	user, digest string
	since        time.Time
	began        time.Duration
	used         atomic.Int64
}

func (s *State) newSession(name, user string) *session {
	one := &session{user: strings.Clone(user), digest: DigestOf(name), since: s.clock.Now(), began: s.clock.Elapsed()}
	one.used.Store(int64(one.began))
	return one
}

// beginSessions puts the sessions of some rows in place of those before. The ones that were there before keep their times.
func (s *State) beginSessions(rows []rbacoffice.Row) {
	before := s.sessions
	s.sessions = map[string]*session{}
	for _, row := range rows {
		if row.Table != rbacoffice.Sessions {
			continue
		}
		one := before[row.Names[0]]
		if one == nil || one.user != row.Names[1] {
			one = s.newSession(row.Names[0], row.Names[1])
		}
		s.sessions[row.Names[0]] = one
	}
}

// endSessions forgets the sessions that the office doesn't have any more. The state is locked.
func (s *State) endSessions() error {
	v := &View{state: s}
	if len(s.sessions) == 0 || v.count(rbacoffice.Sessions) == len(s.sessions) {
		return v.err
	}
	isThere := map[string]bool{}
	for _, row := range v.all(rbacoffice.Sessions) {
		isThere[row[0]] = true
	}
	for name := range s.sessions {
		if !isThere[name] {
			delete(s.sessions, name)
		}
	}
	return v.err
}

// Touch says that the sessions are used now that questions name.
func (s *State) Touch(calls []*api.Call) {
	s.mutex.RLock()
	defer s.mutex.RUnlock()
	for _, call := range calls {
		if call.Kind == api.Question {
			s.touch(call)
		}
	}
}

// touch says that the sessions are used now that calls name.
func (s *State) touch(calls ...*api.Call) {
	now := int64(s.clock.Elapsed())
	for _, call := range calls {
		if one := s.sessions[call.Session]; one != nil {
			one.used.Store(now)
		}
	}
}

// A Session is what is known of one session at a moment. Whoever knows its name can use it; its digest may be shown.
type Session struct {
	Name, Digest, User string
	// Active has the activated roles in their order.
	Active []string
	// Since is when it was made, or when the front began if that was later. Used is when it was last named.
	Since, Used time.Time
}

func (one *session) session(name string, active []string) Session {
	used := one.since.Add(time.Duration(one.used.Load()) - one.began)
	return Session{name, one.digest, one.user, active, one.since, used}
}

// Session returns a session by its name.
func (v *View) Session(name string) (found Session, has bool) {
	one := v.state.sessions[name]
	if one == nil {
		return found, false
	}
	return one.session(name, v.of(rbacoffice.ActivatedRoles, name)), true
}

// Sessions returns all sessions in the order of their digests.
func (v *View) Sessions() []Session {
	active, found := map[string][]string{}, make([]Session, 0, len(v.state.sessions))
	v.scan(rbacoffice.ActivatedRoles, 0, func(row Row) bool {
		active[row[0]] = append(active[row[0]], row[1])
		return true
	})
	for name, one := range v.state.sessions {
		found = append(found, one.session(name, active[name]))
	}
	sort.Slice(found, func(i, j int) bool { return found[i].Digest < found[j].Digest })
	return found
}

// ByDigest returns a session by its digest, without its roles.
func (s *State) ByDigest(digest string) (found Session, has bool) {
	s.mutex.RLock()
	defer s.mutex.RUnlock()
	for name, one := range s.sessions {
		if one.digest == digest {
			return one.session(name, nil), true
		}
	}
	return found, false
}

// Expired returns the sessions that are older than an age, or have been idle for longer, without their roles. Neither is judged if it is
// zero. The times are those of a clock that only runs forward, whatever time somebody gives the machine.
func (s *State) Expired(age, idle time.Duration) (found []Session) {
	s.mutex.RLock()
	defer s.mutex.RUnlock()
	elapsed := s.clock.Elapsed()
	for name, one := range s.sessions {
		if age > 0 && elapsed-one.began > age || idle > 0 && elapsed-time.Duration(one.used.Load()) > idle {
			found = append(found, one.session(name, nil))
		}
	}
	return found
}

const (
	// frontCaller is the caller of what the front asks for by itself.
	frontCaller = "front"
	// An expiry is looked for after this part of the shortest time, but not more often and not less often than these.
	expiryPart            = 10
	mostOften, leastOften = 100 * time.Millisecond, 10 * time.Second
)

// Expire asks for the end of sessions that are older than an age or have been idle for too long, until the context ends. Zero is never.
// If several nodes do so, each has a rank of its own, and leaves two intervals to each one before it. What fails is tried again.
func (s *State) Expire(ctx context.Context, age, idle time.Duration, rank func() int, end func(context.Context, *api.Call)) {
	interval := expiryInterval(age, idle)
	ticker := time.NewTicker(interval)
	defer ticker.Stop()
	for {
		select {
		case <-ticker.C:
		case <-ctx.Done():
			return
		}
		late := 2 * interval * time.Duration(rank())
		for _, session := range s.Expired(later(age, late), later(idle, late)) {
			call, err := api.NewCall("deleteSession", "user", session.User, "session", session.Name)
			if err != nil {
				continue // A session that exists has a short name.
			}
			call.Caller = frontCaller
			end(ctx, call)
		}
	}
}

// later returns a time that is longer, unless it is never.
func later(one, late time.Duration) time.Duration {
	if one > 0 {
		one += late
	}
	return one
}

// expiryInterval returns how often it is looked for sessions that have to end.
func expiryInterval(age, idle time.Duration) time.Duration {
	shortest := age
	if shortest <= 0 || idle > 0 && idle < shortest {
		shortest = idle
	}
	switch interval := shortest / expiryPart; {
	case interval < mostOften:
		return mostOften
	case interval > leastOften:
		return leastOften
	default:
		return interval
	}
}
