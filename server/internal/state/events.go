package state

import (
	"sort"

	"rbac-node/internal/api"
)

const (
	// mostEvents is how many accepted commands are kept for those who watch, and mostEventBytes how many bytes their lines have.
	mostEvents, mostEventBytes = 10_000, 8 << 20
	// mostSpare is how many bytes a line that is kept may waste.
	mostSpare = 1024
)

// An Event is an accepted command: its number, and its line, in which a session has its digest for a name.
type Event struct {
	Number int64
	Line   []byte
}

func (s *State) keep(call *api.Call) {
	line := call.Line
	if isAboutSession(call.Function) {
		line, _ = call.LineWith("session", DigestOf(call.Session)) // An accepted one is short.
	}
	if cap(line) > len(line)+mostSpare {
		line = append(make([]byte, 0, len(line)), line...)
	}
	s.events = append(s.events, Event{s.numbers.All, line})
	if s.eventBytes += cap(line); len(s.events) > mostEvents || s.eventBytes > mostEventBytes {
		s.forgetOldest()
	}
}

// forgetOldest forgets the oldest tenth of the commands that are kept, and as many more as make a tenth of the bytes free.
func (s *State) forgetOldest() {
	count := 0
	for count < len(s.events)/10 || count < len(s.events)-1 && s.eventBytes > mostEventBytes/10*9 {
		s.eventBytes -= cap(s.events[count].Line)
		count++
	}
	if count > 0 {
		s.forgotten = s.events[count-1].Number
		s.events = append(make([]Event, 0, mostEvents+1), s.events[count:]...) // The lines of the others can be collected.
	}
}

func (s *State) forget() {
	s.events, s.eventBytes, s.forgotten = nil, 0, s.numbers.All
	s.wake()
}

// Skip leaves out numbers, since it isn't known which commands were accepted. So nobody takes a state of before for that of now.
func (s *State) Skip() {
	s.lock()
	defer s.unlock()
	s.skip()
}

func (s *State) skip() {
	s.numbers.All += gap
	s.numbers.Policy += gap
	s.forget()
}

// gap is more than how many commands may be on their way at once.
const gap = 1 << 20

// Watched is what somebody who watches gets next.
type Watched struct {
	Events []Event
	// Newest is the number of now, and Policy the revision of the policy.
	Newest, Policy int64
	// Changed is closed when there are more.
	Changed <-chan struct{}
}

// After returns the commands after a number, at most this many. It returns false if they aren't all known.
func (s *State) After(number int64, most int) (Watched, bool) {
	s.mutex.RLock()
	defer s.mutex.RUnlock()
	found := Watched{Newest: s.numbers.All, Policy: s.numbers.Policy, Changed: s.changed}
	if number > s.numbers.All || number < s.forgotten {
		return found, false
	}
	rest := s.events[sort.Search(len(s.events), func(i int) bool { return s.events[i].Number > number }):]
	if len(rest) > most {
		rest = rest[:most]
	}
	found.Events = append(found.Events, rest...)
	return found, true
}
