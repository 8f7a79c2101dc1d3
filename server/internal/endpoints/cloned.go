package endpoints

import (
	"context"
	"runtime/debug"
	"time"

	"rbac-node/internal/api"
	"rbac-node/internal/state"
)

// cloneAge is for how long a clone is kept that nobody asks.
const cloneAge = time.Minute

// A cloned office is asked what takes librbac so long that the office itself can't wait for it. Whoever takes turn has the clone, which serves
// until something is done in the office, or nobody asks any more.
type cloned struct{ turn chan *clone }

type clone struct {
	state   *state.State
	numbers state.Numbers
	aging   *time.Timer
}

func newCloned() cloned {
	c := cloned{make(chan *clone, 1)}
	c.turn <- &clone{}
	return c
}

// conflicts returns the separation of duty sets that a command would violate. librbac can't be interrupted: if the context ends before it
// answers, the clone is only asked again when it has.
func (c cloned) conflicts(ctx context.Context, office *state.State, call *api.Call) ([]state.Conflict, error) {
	var own *clone
	select {
	case own = <-c.turn:
	case <-ctx.Done():
		return nil, api.Unavailable
	}
	type answer struct {
		found []state.Conflict
		err   error
	}
	answered := make(chan answer, 1)
	go func() {
		defer func() { c.turn <- own }()
		a := answer{err: own.follow(office)}
		if a.err == nil {
			a.found, a.err = own.state.Conflicts(call)
			own.aging = time.AfterFunc(cloneAge, c.age)
		}
		answered <- a
	}()
	select {
	case a := <-answered:
		return a.found, a.err
	case <-ctx.Done():
		return nil, api.Unavailable
	}
}

// age frees the clone, unless it is being asked.
func (c cloned) age() {
	select {
	case own := <-c.turn:
		own.forget()
		c.turn <- own
	default:
	}
}

// follow makes the clone anew if the office isn't what it was.
func (own *clone) follow(office *state.State) (err error) {
	if own.aging != nil {
		own.aging.Stop()
	}
	if own.state != nil && own.numbers == office.Numbers() {
		return nil
	}
	own.forget()
	if own.state, err = office.Clone(); err == nil {
		own.numbers = own.state.Numbers()
	}
	debug.FreeOSMemory() // At the limits the rows take more than the clone.
	return err
}

func (own *clone) forget() {
	if own.state != nil {
		own.state.Forget()
		own.state = nil
	}
}
