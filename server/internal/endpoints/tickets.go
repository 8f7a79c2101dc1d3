package endpoints

import (
	"crypto/rand"
	"encoding/hex"
	"net/http"
	"sync"
	"time"

	"rbac-node/internal/api"
	"rbac-node/internal/callers"
	"rbac-node/internal/state"
)

const (
	// ticketAge is for how long a ticket is of use.
	ticketAge = time.Minute
	// mostTickets is how many tickets there are at once, and mostOfOne how many of them one caller has. Each may hold an office that
	// no other one holds, of some megabytes.
	mostTickets, mostOfOne = 16, 4
	ticketBytes            = 32
)

// A ticket lets whoever has it read one report once. It is of use while the caller who asked for it has the right to reports.
type ticket struct {
	query  reportQuery
	office *state.Frozen
	// request is the one of the caller, by whose identity the right is judged again. visit is nil if there are no callers.
	request *http.Request
	visit   *callers.Visit
	made    time.Time
}

// Tickets are those that have not been used.
type tickets struct {
	mutex  sync.Mutex
	byName map[string]*ticket
	// frozen is the office of the last ticket, which serves the next one too if nothing was done meanwhile.
	frozen *state.Frozen
	now    func() time.Time
}

func newTickets() *tickets { return &tickets{byName: map[string]*ticket{}, now: time.Now} }

// freeze returns what is in the office now.
func (t *tickets) freeze(s *state.State) (*state.Frozen, error) {
	t.mutex.Lock()
	defer t.mutex.Unlock()
	if t.frozen == nil || t.frozen.Numbers != s.Numbers() {
		frozen, err := s.FreezeWithJuniors()
		if err != nil {
			return nil, err
		}
		t.frozen = frozen
	}
	return t.frozen, nil
}

// hasRoom reports whether a ticket of a caller could be kept now.
func (t *tickets) hasRoom(owner string) bool {
	t.mutex.Lock()
	defer t.mutex.Unlock()
	t.expire()
	_, count := t.oldestOf(owner)
	return len(t.byName) < mostTickets || count == mostOfOne
}

// add keeps a ticket, and returns its name. If its caller has too many, the oldest is no longer of use.
func (t *tickets) add(one *ticket) (name string, err error) {
	random := make([]byte, ticketBytes)
	if _, err := rand.Read(random); err != nil {
		return "", err
	}
	name = hex.EncodeToString(random)
	t.mutex.Lock()
	defer t.mutex.Unlock()
	t.expire()
	if oldest, count := t.oldestOf(one.visit.Name()); count == mostOfOne {
		delete(t.byName, oldest)
	}
	if len(t.byName) == mostTickets {
		return "", api.TooManyRequests
	}
	one.made = t.now()
	t.byName[name] = one
	return name, nil
}

// oldestOf returns the oldest ticket of a caller, and how many it has.
func (t *tickets) oldestOf(owner string) (oldest string, count int) {
	for name, one := range t.byName {
		if one.visit.Name() != owner {
			continue
		}
		count++
		if oldest == "" || one.made.Before(t.byName[oldest].made) {
			oldest = name
		}
	}
	return oldest, count
}

// expire forgets the tickets that are too old, and with the last one the office.
func (t *tickets) expire() {
	for name, one := range t.byName {
		if t.now().Sub(one.made) >= ticketAge {
			delete(t.byName, name)
		}
	}
	if len(t.byName) == 0 {
		t.frozen = nil
	}
}

// has reports whether a ticket is of use.
func (t *tickets) has(name string) bool {
	t.mutex.Lock()
	defer t.mutex.Unlock()
	t.expire()
	return t.byName[name] != nil
}

// take returns a ticket, which is of no use any more, or nil.
func (t *tickets) take(name string) *ticket {
	t.mutex.Lock()
	defer t.mutex.Unlock()
	t.expire()
	one := t.byName[name]
	delete(t.byName, name)
	return one
}
