package endpoints

import (
	"context"
	"fmt"
	"reflect"
	"testing"

	"rbac-node/internal/api"
	"rbac-node/internal/state"
)

func lineOf(t *testing.T, line string, values ...any) *api.Call {
	t.Helper()
	call, err := api.ParseLine([]byte(fmt.Sprintf(line, values...)))
	if err != nil {
		t.Fatal(err)
	}
	return call
}

// A clone answers what the office would, after each change of it, and is freed when it is old.
func TestCloned(t *testing.T) {
	s := state.New(state.Numbers{})
	if err := s.Begin(nil, true); err != nil {
		t.Fatal(err)
	}
	defer s.Forget()
	do := func(line string, values ...any) {
		t.Helper()
		call := lineOf(t, line, values...)
		if _, err := s.Answered([]*api.Call{call}, [][]byte{[]byte(`{"ok":true}`)}); err != nil {
			t.Fatal(err)
		}
	}
	do(`{"fn":"addRole","role":"clerk"}`)
	do(`{"fn":"addRole","role":"teller"}`)
	do(`{"fn":"createSsdSet","set":"audit","roles":["clerk","teller"],"cardinality":2}`)
	do(`{"fn":"createDsdSet","set":"cash","roles":["clerk","teller"],"cardinality":2}`)
	c, asked, met := newCloned(), []*api.Call{
		lineOf(t, `{"fn":"addInheritance","asc":"clerk","desc":"teller"}`), lineOf(t, `{"fn":"assignUser","user":"u1","role":"teller"}`),
		lineOf(t, `{"fn":"addActiveRole","user":"u0","session":"s0","role":"teller"}`),
	}, 0
	for i := 0; i < 3; i++ {
		do(`{"fn":"addUser","user":"u%d"}`, i)
		do(`{"fn":"assignUser","user":"u%d","role":"clerk"}`, i)
		do(`{"fn":"createSession","user":"u%d","roles":["clerk"],"session":"s%d"}`, i, i)
		for _, call := range asked {
			wanted, err := s.Conflicts(call)
			if err != nil {
				t.Fatal(err)
			}
			found, err := c.conflicts(context.Background(), s, call)
			if err != nil || !reflect.DeepEqual(found, wanted) {
				t.Errorf("%s: %v, %v and not %v", call.Line, err, found, wanted)
			}
			met += len(found)
		}
	}
	if met == 0 {
		t.Error("there is no conflict")
	}
	own := <-c.turn
	if _, err := c.conflicts(over, s, asked[0]); err != error(api.Unavailable) {
		t.Errorf("while somebody else has it: %v", err)
	}
	if c.turn <- own; own.state == nil {
		t.Error("it isn't kept")
	}
	if c.age(); own.state != nil {
		t.Error("it is kept for ever")
	}
}
