package node

import (
	"context"
	"errors"
	"net/http"
	"reflect"
	"testing"

	"rbac-node/internal/api"
	"rbac-node/internal/ledger"
	"rbac-node/internal/recorded"
)

// A keptRecord has what was added to it, behind the entry with which it began.
type keptRecord struct {
	recorded.Follower
	added []recorded.Command
}

func (*keptRecord) HasBegun() bool             { return true }
func (*keptRecord) Room()                      {}
func (*keptRecord) Failed() <-chan struct{}    { return nil }
func (*keptRecord) Admit(call *api.Call) error { return nil }
func (r *keptRecord) Add(c recorded.Command) int64 {
	r.added = append(r.added, c)
	return int64(len(r.added)) + 1
}

const ended = recorded.ReviewPrefix + `"review":"Q4","sha256":"","kept":1,"removed":0,"open":0}`

func endOfReview() *api.Call {
	call := api.NewEntry(api.Review, []byte(ended))
	call.Caller, call.Reason = "token:boss", "ticket 7"
	return call
}

// The end of a review is in the log once, and is recorded by the node that was asked as by one that reads the log. It has a number there,
// changes nothing, and is no command for those who watch.
func TestNote(t *testing.T) {
	n, log := newNode(t)
	own := &keptRecord{}
	n.options.Record = own
	change(log, func() { log.state.Lives = []ledger.Life{n.life} })
	running(t, n.feed, n.appendCommands)
	if _, err := n.Do(context.Background(), of(api.Command, `{"fn":"addUser","user":"a"}`)); err != nil {
		t.Fatal(err)
	}
	before := n.state.Numbers()
	number, err := n.Note(context.Background(), endOfReview())
	if err != nil || number != 3 || len(own.added) != 2 {
		t.Fatalf("the number is %d, %v: %v", number, err, own.added)
	}
	if one := own.added[1]; string(one.Call.Line) != ended || one.Caller != "token:boss" || one.Reason != "ticket 7" || string(one.Answer) != recorded.Accepted {
		t.Errorf("%+v", one)
	}
	after := n.state.Numbers()
	if after.All != before.All+1 || after.Policy != before.Policy || after.Revision != before.Revision+1 {
		t.Errorf("the numbers are %+v and were %+v", after, before)
	}
	if found, known := n.state.After(before.All, 10); !known || len(found.Events) != 0 {
		t.Errorf("watched: %v, %v", found.Events, known)
	}
	other, _ := newNode(t)
	read := &keptRecord{}
	other.options.Record = read
	other.beginning = n.beginning
	other.apply(ledger.Entry{Place: ledger.Place{Revision: 1}, Units: []ledger.Unit{{Lines: users("a")}}})
	unit := ledger.Unit{Caller: "token:boss", Reason: "ticket 7", At: own.added[1].At, Bounds: true, Lines: [][]byte{[]byte(ended)}}
	other.apply(ledger.Entry{Place: ledger.Place{Revision: 2}, Units: []ledger.Unit{unit}})
	if other.state.Numbers() != after {
		t.Errorf("its numbers are %+v and not %+v", other.state.Numbers(), after)
	}
	// What no node has written isn't recorded.
	unit.Lines = [][]byte{[]byte(recorded.ReviewPrefix + "}"), []byte(recorded.ReviewPrefix + `"review":"` + "\xff" + `"}`)}
	if other.apply(ledger.Entry{Place: ledger.Place{Revision: 3}, Units: []ledger.Unit{unit}}); other.state.Numbers().All != after.All+2 {
		t.Errorf("the numbers are %+v", other.state.Numbers())
	}
	if other.err != nil || len(read.added) != 2 || !reflect.DeepEqual(noCaller(read.added[1]), noCaller(own.added[1])) {
		t.Errorf("a node that reads the log: %v, %+v and not %+v", other.err, read.added, own.added)
	}
}

// noCaller returns an entry without what only the call of the node has that was asked.
func noCaller(c recorded.Command) recorded.Command {
	c.Call = &api.Call{Function: c.Call.Function, Kind: c.Call.Kind, Line: c.Call.Line}
	return c
}

// No review is ended without a record, or while a node runs that wouldn't record it.
func TestNoteRefused(t *testing.T) {
	n, log := newNode(t)
	refused := func(what string) {
		t.Helper()
		var refusal api.Refusal
		if _, err := n.Note(context.Background(), endOfReview()); !errors.As(err, &refusal) || refusal.Status != http.StatusNotFound || log.revision != 0 {
			t.Errorf("%s: %v", what, err)
		}
	}
	refused("no record")
	n.options.Record = &keptRecord{}
	change(log, func() { log.state.Lives = []ledger.Life{n.life, {Name: "b"}} })
	refused("a node of an earlier version")
}
