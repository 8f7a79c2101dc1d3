package endpoints

import (
	"context"
	"errors"
	"testing"
	"time"

	"rbac-node/internal/api"
	"rbac-node/internal/state"
)

// Who watches by local questions waits for a node that is behind the one before. What nothing has given is refused.
func TestReach(t *testing.T) {
	ahead := func(kind api.Kind, number int64, timeout time.Duration) (*state.State, error) {
		s := state.New(state.Numbers{All: 5, Policy: 5})
		ctx, cancel := context.WithTimeout(context.Background(), timeout)
		defer cancel()
		time.AfterFunc(50*time.Millisecond, func() { s.Advance(state.Numbers{All: 7, Policy: 5}) })
		return s, reach(&request{ctx: ctx, kind: kind}, s, number)
	}
	for _, one := range []struct {
		name    string
		kind    api.Kind
		number  int64
		timeout time.Duration
		err     error
	}{
		{"it has the number", api.Question, 5, time.Minute, nil},
		{"it gets the number", api.Local, 7, time.Minute, nil},
		{"it doesn't in time", api.Local, 8, 100 * time.Millisecond, outdated},
		{"the answer of a question is never behind", api.Question, 7, time.Minute, outdated},
	} {
		t.Run(one.name, func(t *testing.T) {
			if _, err := ahead(one.kind, one.number, one.timeout); !errors.Is(err, one.err) {
				t.Errorf("%v", err)
			}
		})
	}
}
