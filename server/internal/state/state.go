// Package state has the office in this process, by librbac. It begins with the rows of the office's file, and does each command that
// the program has accepted, or that the log of several machines has, in the one order. So it answers the questions of the office, and
// lists what no function of the office lists. Beside it are kept the numbers of the order, the newest commands for those who watch, and
// the times of sessions.
//
// Which sets a command on users, sessions or inheritances would violate librbac says. What it concludes itself is who holds their
// members (Conflicts), what a command on a set would violate, and what sets forbid a role, for explanations and reports (Graph).
package state

import (
	"bytes"
	"fmt"
	"strings"
	"sync"
	"sync/atomic"
	"time"

	"rbac/clients/go/rbacoffice"

	"rbac-node/internal/api"
	"rbac-node/internal/faults"
)

// A State is what is in an office after the last command whose answer was read.
type State struct {
	// reading is held while rows are read, or questions answered that may take long, and mutex while a single short one is. Both are
	// locked while the office changes: so a decision doesn't wait for a command that waits for one who reads.
	reading, mutex sync.RWMutex
	// office is nil while it isn't known what is in the office. hasLocks is false for one of version 1, which has other limits than librbac.
	office             *rbacoffice.Office
	hasLocks, hasBegun bool
	// graph is that of now, or nil.
	graph atomic.Pointer[Graph]
	// sessions has the times of all sessions by their names.
	sessions map[string]*session
	numbers  Numbers
	// events has the accepted commands after the number forgotten, in their order, and eventBytes how many bytes their lines have.
	events     []Event
	eventBytes int
	forgotten  int64
	changed    chan struct{}
	clock      Clock
}

// A Clock has the time of the machine, which somebody may change, and how long the state has been there, which only grows.
type Clock struct {
	Now     func() time.Time
	Elapsed func() time.Duration
}

// New returns a state that doesn't know what is in the office, and whose numbers begin with these.
func New(first Numbers) *State {
	start := time.Now()
	clock := Clock{time.Now, func() time.Duration { return time.Since(start) }}
	return &State{numbers: first, forgotten: first.All, changed: make(chan struct{}), clock: clock, sessions: map[string]*session{}}
}

// lock keeps everybody else away, and unlock lets them in.
func (s *State) lock() {
	s.reading.Lock()
	s.mutex.Lock()
}

func (s *State) unlock() {
	s.mutex.Unlock()
	s.reading.Unlock()
}

// put puts an office in place of the one before, or none. The state is locked.
func (s *State) put(office *rbacoffice.Office) {
	if s.office != nil {
		s.office.Close()
	}
	s.office = office
	s.graph.Store(nil)
}

// Begin makes the office of rows. The one of before goes on if that fails, and sessions that were there before keep their times. Numbers
// are left out unless it is the first: commands may have been done whose answers nobody has read.
func (s *State) Begin(rows []rbacoffice.Row, hasLocks bool) error {
	office, err := rbacoffice.Load(rows, 0)
	if err != nil {
		return err
	}
	s.lock()
	defer s.unlock()
	if s.hasBegun {
		s.skip()
	}
	s.hasBegun = true
	s.put(office)
	s.hasLocks = hasLocks
	s.beginSessions(rows)
	s.forget()
	return nil
}

// Forget frees the office. Nothing more is answered until it is loaded again.
func (s *State) Forget() {
	s.lock()
	defer s.unlock()
	s.put(nil)
}

// IsKnown reports whether it is known what is in the office.
func (s *State) IsKnown() bool {
	s.mutex.RLock()
	defer s.mutex.RUnlock()
	return s.office != nil
}

// HasLocks reports whether the office has a table of locks. One of version 1 has none.
func (s *State) HasLocks() bool {
	s.mutex.RLock()
	defer s.mutex.RUnlock()
	return s.hasLocks
}

// Numbers returns how far the order of commands has come.
func (s *State) Numbers() Numbers {
	s.mutex.RLock()
	defer s.mutex.RUnlock()
	return s.numbers
}

// isAboutSession reports whether a command is about one session.
func isAboutSession(function string) bool {
	switch function {
	case "createSession", "deleteSession", "addActiveRole", "dropActiveRole":
		return true
	}
	return false
}

// Answered follows a unit of calls with their answers, and counts the accepted ones. It answers those calls itself that ask whether a
// user may do something, or takes their answer away if the office isn't known. After an error it isn't known any more, since it isn't that
// of the program.
func (s *State) Answered(calls []*api.Call, answers [][]byte) (numbers Numbers, err error) {
	s.lock()
	defer s.unlock()
	before := s.numbers.All
	for i, call := range calls {
		if call.Function == api.DecideByUser {
			s.mutex.Unlock() // Other decisions go on.
			answers[i], _ = s.answer(call)
			s.mutex.Lock()
		}
		if call.Kind != api.Command || !api.IsAccepted(answers[i]) {
			continue
		}
		s.numbers.All++
		if !isAboutSession(call.Function) {
			s.numbers.Policy++
		}
		if failed := s.accept(call, answers[i]); failed != nil {
			err = failed
		}
	}
	if s.numbers.All != before {
		s.wake()
	}
	return s.numbers, err
}

// Advance says that there are no commands up to some numbers.
func (s *State) Advance(numbers Numbers) {
	s.lock()
	defer s.unlock()
	s.numbers = numbers
	s.wake()
}

// accept does an accepted command, which has the number of now, and compares the answer with that of the program. The state is locked.
func (s *State) accept(call *api.Call, answer []byte) error {
	defer s.keep(call)
	if s.office == nil {
		return nil
	}
	own, err := s.do(call)
	if faults.Has(faults.AnswersOtherwise) && strings.HasPrefix(call.User, "odd") {
		own = nil
	}
	if err == nil && !bytes.Equal(own, answer) {
		err = fmt.Errorf("librbac answers %s to %s, and the program %s", own, call.Function, answer)
	}
	if err != nil {
		s.put(nil)
	}
	return err
}

// do does a command, and follows the sessions that it makes or ends. The state is locked.
func (s *State) do(call *api.Call) ([]byte, error) {
	answer, err := s.office.Answer(call.Line)
	if err != nil {
		return nil, fmt.Errorf("librbac: %w", err)
	}
	if !api.IsAccepted(answer) {
		return answer, nil
	}
	switch name := call.Session; call.Function {
	case "createSession":
		// What the call names may be a part of a text that is much longer, and would stay with it.
		s.sessions[strings.Clone(name)] = s.newSession(name, call.User)
	case "deleteSession":
		delete(s.sessions, name)
	case "addActiveRole", "dropActiveRole":
		s.touch(call)
	default:
		s.graph.Store(nil)
		err = s.endSessions()
	}
	return answer, err
}

// A Change does what an entry of the log has, while nobody else has the office.
type Change struct{ state *State }

// Change calls a function that does what the entry of a revision has, after which commands have this number: nobody sees a part of it.
// After an error it isn't known any more what is in the office.
func (s *State) Change(revision, number int64, do func(c Change) error) error {
	s.lock()
	defer s.unlock()
	if s.office == nil {
		return api.Unavailable
	}
	if err := do(Change{s}); err != nil {
		s.put(nil)
		return err
	}
	s.numbers.Revision, s.numbers.All = revision, number
	s.wake()
	return nil
}

// Policy is the revision of the policy after what was done.
func (c Change) Policy() int64 { return c.state.numbers.Policy }

// Do does a command, which has a number, or answers a question, and returns the answer.
func (c Change) Do(call *api.Call, number int64) ([]byte, error) {
	if call.Kind == api.Question {
		return c.state.answer(call)
	}
	answer, err := c.state.do(call)
	if err != nil {
		return nil, err
	}
	c.state.numbers = c.state.numbers.After(number, call, api.IsAccepted(answer))
	if api.IsAccepted(answer) {
		c.state.keep(call)
	}
	return answer, nil
}

// Try does commands in an office that follows no program, and returns the answers.
func (s *State) Try(calls []*api.Call) (answers [][]byte, err error) {
	s.lock()
	defer s.unlock()
	if s.office == nil {
		return nil, api.Unavailable
	}
	answers = make([][]byte, len(calls))
	for i, call := range calls {
		if answers[i], err = s.do(call); err != nil {
			return nil, err
		}
	}
	return answers, nil
}

func (s *State) wake() {
	close(s.changed)
	s.changed = make(chan struct{})
}
