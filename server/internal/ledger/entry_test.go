package ledger

import (
	"context"
	"reflect"
	"testing"

	"go.etcd.io/etcd/clientv3"
)

func lines(texts ...string) (all [][]byte) {
	for _, text := range texts {
		all = append(all, []byte(text))
	}
	return all
}

func TestEntryText(t *testing.T) {
	const first, second, third = `{"fn":"addUser","user":"ann"}`, `{"fn":"addRole","role":"r"}`, `{"fn":"deleteUser","user":"ann"}`
	of := Unit{Caller: "token:<a>", At: "2026-11-27T09:00:00.000Z", Reason: "say \"why\" é", Lines: lines(first, second)}
	front := Unit{Caller: "front", At: "2026-11-27T09:00:01.000Z", Lines: lines(third)}
	for _, one := range []struct {
		name  string
		units []Unit
	}{
		{"a batch and the front itself", []Unit{of, front}},
		{"no reason, no caller", []Unit{{At: "2026-11-27T09:00:00.000Z", Lines: lines(first)}}},
	} {
		t.Run(one.name, func(t *testing.T) {
			text, err := textOf(one.units)
			if err != nil {
				t.Fatal(err)
			}
			e := entryOf(Place{Revision: 7, ID: "a"}, []byte(text))
			if e.Revision != 7 || !reflect.DeepEqual(e.Units, one.units) {
				t.Errorf("%s is read as %+v", text, e)
			}
		})
	}
	for text, wanted := range map[string][]Unit{
		`{"by":"ann"` + "\n" + first + "\n" + `{"by":"b","at":"c"}` + "\n" + second: {{Lines: lines(first)}, {Caller: "b", At: "c", Lines: lines(second)}},
		first + "\n" + second: {{Lines: lines(first, second)}},
		"":                    {{Lines: lines("")}},
	} {
		if e := entryOf(Place{Revision: 7, ID: "a"}, []byte(text)); !reflect.DeepEqual(e.Units, wanted) {
			t.Errorf("an entry that no node has written is read as %+v", e.Units)
		}
	}
}

// What an earlier program has left among the nodes is no node.
func TestEarlierMark(t *testing.T) {
	l, ctx := newLedger(t), context.Background()
	if err := l.Register(ctx, Member{Name: "a"}); err != nil {
		t.Fatal(err)
	}
	if _, err := l.transact(ctx, "test", clientv3.OpPut(nodesPrefix+"/this-log-needs-a-later-rbac-node", "2")); err != nil {
		t.Fatal(err)
	}
	if s := mustState(t, l); len(s.Members) != 1 || s.Members[0].Name != "a" {
		t.Errorf("there are %+v", s.Members)
	}
}
