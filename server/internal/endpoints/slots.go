package endpoints

import (
	"context"
	"sync"
	"time"

	"rbac-node/internal/api"
	"rbac-node/internal/state"
)

const (
	// mostLarge is how many requests for large answers there may be at once, and mostLargeOfOne how many of one caller. So many may have
	// large bodies, too.
	mostLarge, mostLargeOfOne = 64, 16
	// mostMaking is how many large answers are made at once, each for another caller, and makingTimeout how long one waits for its turn.
	// mostSnapshots is how many snapshots are made for one caller or written to it at once, since they are the largest.
	mostMaking, makingTimeout, mostSnapshots = 2, 10 * time.Second, 2
)

// Slots bound how many large answers or bodies there are at once, so that those who ask for them hold up nobody else.
type slots struct {
	places, making chan struct{}
	mutex          sync.Mutex
	of             map[string]*share
}

// A share is what one caller has of the slots, and users how many of its requests have a part of it or wait for one.
type share struct {
	places, making, snapshots chan struct{}
	users                     int
}

func newSlots() *slots {
	return &slots{places: make(chan struct{}, mostLarge), making: make(chan struct{}, mostMaking), of: map[string]*share{}}
}

// join returns the share of a caller, until it is quit.
func (s *slots) join(caller string) *share {
	s.mutex.Lock()
	defer s.mutex.Unlock()
	own := s.of[caller]
	if own == nil {
		own = &share{
			places: make(chan struct{}, mostLargeOfOne), making: make(chan struct{}, 1), snapshots: make(chan struct{}, mostSnapshots),
		}
		s.of[caller] = own
	}
	own.users++
	return own
}

func (s *slots) quit(caller string) {
	s.mutex.Lock()
	defer s.mutex.Unlock()
	own := s.of[caller]
	if own.users--; own.users == 0 {
		delete(s.of, caller)
	}
}

// A slot is what a request has of the slots, from before its answer is made until it is written.
type slot struct {
	*share
	slots      *slots
	caller     string
	isSnapshot bool
}

// over is a context that has ended: with it nobody waits.
var over = func() context.Context {
	ctx, end := context.WithCancel(context.Background())
	end()
	return ctx
}()

// acquire takes a place if there is one before a context ends.
func acquire(ctx context.Context, places chan struct{}) bool {
	select {
	case places <- struct{}{}:
		return true
	default:
	}
	select {
	case places <- struct{}{}:
		return true
	case <-ctx.Done():
		return false
	}
}

// enter takes a slot for a caller. There is one unless the caller or all callers have too many, and go on having them for some time or
// until the context ends.
func (s *slots) enter(ctx context.Context, caller string) (*slot, error) {
	within, cancel := context.WithTimeout(ctx, makingTimeout)
	defer cancel()
	own := s.join(caller)
	if !acquire(within, own.places) {
		s.quit(caller)
		return nil, api.TooManyRequests
	}
	if !acquire(within, s.places) {
		<-own.places
		s.quit(caller)
		return nil, api.TooManyRequests
	}
	return &slot{share: own, slots: s, caller: caller}, nil
}

// leave gives the slot back. There may be none.
func (s *slot) leave() {
	if s == nil {
		return
	}
	if s.isSnapshot {
		<-s.snapshots
	}
	<-s.places
	<-s.slots.places
	s.slots.quit(s.caller)
}

// snapshot waits until few enough snapshots of the caller are made or written.
func (s *slot) snapshot(ctx context.Context) error {
	within, cancel := context.WithTimeout(ctx, makingTimeout)
	defer cancel()
	if s.isSnapshot = acquire(within, s.snapshots); !s.isSnapshot {
		return api.TooManyRequests
	}
	return nil
}

// make calls a function that makes a large answer, or a part of it, when nothing else is made for the caller, and not too much for others.
func (s *slot) make(ctx context.Context, do func() error) error {
	within, cancel := context.WithTimeout(ctx, makingTimeout)
	defer cancel()
	if !acquire(within, s.making) {
		return api.TooManyRequests
	}
	defer func() { <-s.making }()
	if !acquire(within, s.slots.making) {
		return api.TooManyRequests
	}
	defer func() { <-s.slots.making }()
	return do()
}

// enter takes a slot for a request, unless it has one. It is left when the request is answered.
func (e *Endpoints) enter(ctx context.Context, r *request) (err error) {
	if r.slot == nil {
		r.slot, err = e.slots.enter(ctx, r.visit.Name())
	}
	return err
}

// readLarge reads the body of a request about many things, and calls a function that reads what it says. A body that is longer than one
// about a single thing takes a slot, until leave is called.
func (e *Endpoints) readLarge(r *request, parse func(body []byte) error) (leave func(), err error) {
	var place *slot
	if r.ContentLength > api.MaxBodyBytes {
		if place, err = e.bodies.enter(over, r.visit.Name()); err != nil {
			return place.leave, err
		}
	}
	body, err := api.ReadBody(r.Request, api.MaxBatchBytes)
	switch {
	case err != nil:
	case place != nil:
		err = place.make(r.ctx, func() error { return parse(body) })
	default:
		err = parse(body)
	}
	return place.leave, err
}

// A snapshotted office is the text of the last snapshot, which serves whoever asks before something is done.
type snapshotted struct {
	mutex   sync.Mutex
	text    []byte
	numbers state.Numbers
}

// of returns the snapshot of an office as it is now.
func (s *snapshotted) of(office *state.State) ([]byte, state.Numbers, error) {
	s.mutex.Lock()
	defer s.mutex.Unlock()
	if s.text == nil || s.numbers != office.Numbers() {
		frozen, err := office.Freeze()
		if err != nil {
			return nil, state.Numbers{}, err
		}
		text, err := frozen.Lines()
		if err != nil {
			return nil, state.Numbers{}, err
		}
		s.text, s.numbers = text, frozen.Numbers
	}
	return s.text, s.numbers, nil
}
