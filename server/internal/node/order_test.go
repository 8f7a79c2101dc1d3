package node

import (
	"context"
	"errors"
	"fmt"
	"reflect"
	"strings"
	"testing"

	"rbac-node/internal/api"
	"rbac-node/internal/ledger"
	"rbac-node/internal/office"
	"rbac-node/internal/state"
)

// withOffice returns a node with an office in which a user "no" can't be added, and a user u may activate the role b.
func withOffice(t *testing.T) *Node {
	n, _ := newNode(t)
	n.apply(entryOf(1, append(users("no", "u"), []byte(`{"fn":"addRole","role":"b"}`), []byte(`{"fn":"assignUser","user":"u","role":"b"}`))))
	if n.revision, n.count = 0, 0; n.err != nil {
		t.Fatal(n.err)
	}
	return n
}

// users returns lines that add users.
func users(names ...string) (lines [][]byte) {
	for _, name := range names {
		lines = append(lines, []byte(`{"fn":"addUser","user":"`+name+`"}`))
	}
	return lines
}

// opening returns lines that open a session with roles.
func opening(roles ...string) [][]byte {
	lines := [][]byte{[]byte(`{"fn":"createSession","user":"u","roles":[],"session":"s"}`)}
	for _, role := range roles {
		lines = append(lines, []byte(`{"fn":"addActiveRole","user":"u","session":"s","role":"`+role+`"}`))
	}
	return append(lines, []byte(`{"fn":"deleteSession","user":"u","session":"s"}`))
}

// Units are done as their rules say, and the numbers are those of the places in the log, whatever is refused.
func TestRules(t *testing.T) {
	const first = 1000
	for _, test := range []struct {
		name  string
		rule  *api.Rule
		lines [][]byte
		// done has the places of the lines that are done.
		done   []int
		policy int64
	}{
		{"no rule", nil, users("a", "no", "b"), []int{0, 1, 2}, 1003},
		{"the last is refused", nil, users("a", "no"), []int{0, 1}, 1001},
		{"the policy of now", &api.Rule{Policy: first}, users("a", "b"), []int{0, 1}, 1002},
		{"another policy", &api.Rule{Policy: first - 1}, users("a", "b"), nil, first},
		{"a later policy", &api.Rule{Policy: first + 1}, users("a", "b"), nil, first},
		{"a refusal stops", &api.Rule{IsStopped: true}, users("a", "no", "b"), []int{0, 1}, 1001},
		{"nothing stops", &api.Rule{IsStopped: true}, users("a", "b"), []int{0, 1}, 1002},
		{"a session", &api.Rule{IsOpening: true}, opening("no", "b"), []int{0, 1, 2}, first},
		{"a session with no role", &api.Rule{IsOpening: true}, opening("no", "no2"), []int{0, 1, 2, 3}, first},
		{"a session without roles", &api.Rule{IsOpening: true}, opening(), []int{0}, first},
		{"what is expected", &api.Rule{IsOpening: true, Expected: `{"ok":true}`}, append(users("a"), opening("b")...), []int{0, 1, 2}, 1001},
		{"what isn't", &api.Rule{IsOpening: true, Expected: `{"ok":false}`}, append(users("a"), opening("b")...), []int{0}, 1001},
	} {
		t.Run(test.name, func(t *testing.T) {
			n := withOffice(t)
			n.beginning.First = first
			n.begin(office.Snapshot{Policy: first})
			var given reply
			parts := n.partsOf(ledger.Entry{Units: []ledger.Unit{{Rule: test.rule, Lines: test.lines}}}, nil)
			err := n.state.Change(1, first+int64(len(test.lines)), func(c state.Change) (err error) {
				given, err = n.do(c, &parts[0], 0)
				return err
			})
			if err != nil || len(given.answers.Texts) != len(test.done) || (given.err != nil) != (test.done == nil) {
				t.Errorf("%v, %v, the answers are %s", err, given.err, given.answers.Texts)
			}
			wanted := state.Numbers{All: first + int64(len(test.lines)), Policy: test.policy, Revision: 1}
			if given := n.state.Numbers(); given != wanted {
				t.Errorf("%+v", given)
			}
		})
	}
}

// Nodes that begin with different snapshots have the same numbers.
func TestSameNumbers(t *testing.T) {
	var entries []ledger.Entry
	for i := 1; i <= 6; i++ {
		name := fmt.Sprintf("u%d", i)
		if i%2 == 0 {
			name = "no"
		}
		entries = append(entries, ledger.Entry{Place: ledger.Place{Revision: int64(i), ID: name}, Units: []ledger.Unit{{Lines: users(name)}}})
	}
	numbers := func(s office.Snapshot) (after []state.Numbers) {
		n := withOffice(t)
		n.beginning.First = 1000
		n.begin(s)
		n.revision, n.count = s.Revision, s.Count
		for _, entry := range entries {
			if n.apply(entry); entry.Revision > 4 {
				after = append(after, n.state.Numbers())
			}
		}
		return after
	}
	wanted := []state.Numbers{{All: 1005, Policy: 1005, Revision: 5}, {All: 1006, Policy: 1005, Revision: 6}}
	for _, s := range []office.Snapshot{
		{}, {Revision: 2, Count: 2, Policy: 1001}, {Revision: 3, Count: 3, Policy: 1003}, {Revision: 4, Count: 4, Policy: 1003},
		{Revision: 4, Count: 4, Policy: 1003, First: 1000}, {Revision: 4, Count: 4, Policy: 503, First: 500}, // The log was restored.
	} {
		if given := numbers(s); !reflect.DeepEqual(given, wanted) {
			t.Errorf("from %+v: %+v", s, given)
		}
	}
}

// A node refuses what the log has no room for.
func TestRefusedBatches(t *testing.T) {
	n, _ := newNode(t)
	if _, err := n.Do(context.Background(), of(api.Command, strings.Repeat("c", maxUnitBytes+1))); err == nil || errors.Is(err, api.Unavailable) {
		t.Errorf("a long batch: %v", err)
	}
}
