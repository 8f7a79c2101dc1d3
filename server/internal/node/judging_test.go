package node

import (
	"context"
	"errors"
	"io"
	"os"
	"strings"
	"testing"

	"github.com/prometheus/client_golang/prometheus"

	"rbac-node/internal/api"
	"rbac-node/internal/ledger"
	"rbac-node/internal/logs"
	"rbac-node/internal/office"
)

// A node serves if most nodes have its digests, and refuses otherwise.
func TestDifference(t *testing.T) {
	for _, one := range []struct {
		name    string
		own     []office.Snapshot
		others  []ledger.Member
		refuses bool
	}{
		{"nobody else", []office.Snapshot{at(9)}, members(), false},
		{"all agree", []office.Snapshot{at(9)}, members(member("b", at(9)), member("c", at(9))), false},
		{"others have other places", []office.Snapshot{at(9)}, members(member("b", other(at(7)))), false},
		{"one against one", []office.Snapshot{at(9)}, members(member("b", other(at(9)))), true},
		{"two against one", []office.Snapshot{at(9)}, members(member("b", at(9)), member("c", other(at(9)))), false},
		{"one against two", []office.Snapshot{at(9)}, members(member("b", other(at(9))), member("c", other(at(9)))), true},
		{"outvoted at an older place", []office.Snapshot{at(9), at(5)},
			members(member("b", at(9), other(at(5))), member("c", at(9), other(at(5)))), true},
		{"a copy is no witness for it", []office.Snapshot{at(9)}, members(member("b", fetched(at(9))), member("c", other(at(9)))), true},
		{"a copy is no witness against it", []office.Snapshot{at(9)},
			members(member("b", other(at(9))), member("c", fetched(other(at(9)))), member("d", at(9))), false},
		{"its own copy is no witness", []office.Snapshot{fetched(at(9))}, members(member("b", at(9)), member("c", other(at(9)))), true},
		{"what it registered itself", []office.Snapshot{at(9)}, members(member("a", other(at(9)))), false},
	} {
		t.Run(one.name, func(t *testing.T) {
			if why := difference("a", one.own, one.others); (why != "") != one.refuses {
				t.Errorf("%q", why)
			}
		})
	}
}

// A node has to take snapshots where most nodes do that run.
func TestOtherSettings(t *testing.T) {
	same, fewer, bytes := ledger.Settings{Every: 10, EveryBytes: 99}, ledger.Settings{Every: 3, EveryBytes: 99},
		ledger.Settings{Every: 10, EveryBytes: 98}
	with := func(name string, s ledger.Settings) ledger.Life { return ledger.Life{Name: name, Settings: s} }
	for _, one := range []struct {
		name    string
		lives   []ledger.Life
		refuses bool
	}{
		{"nobody else", nil, false},
		{"all agree", []ledger.Life{with("b", same), with("c", same)}, false},
		{"most agree", []ledger.Life{with("b", same), with("c", fewer)}, false},
		{"most differ", []ledger.Life{with("b", fewer), with("c", bytes)}, true},
		{"one of two, the later one", []ledger.Life{with("a", bytes)}, true},
		{"one of two, the earlier one", []ledger.Life{with("x", bytes)}, false},
		{"what it said before", []ledger.Life{with("n", fewer)}, false},
	} {
		t.Run(one.name, func(t *testing.T) {
			if why := otherSettings(with("n", same), one.lives); (why != "") != one.refuses {
				t.Errorf("%q", why)
			}
		})
	}
}

// A node refuses to serve while its settings differ, and says what to do.
func TestRefusesWithOtherSettings(t *testing.T) {
	n, log := newNode(t)
	other := ledger.Settings{Every: 7, EveryBytes: 1 << 20}
	log.state.Lives = []ledger.Life{{Name: "b", Settings: other}, {Name: "c", Settings: other}}
	if err := n.trimLog(context.Background()); err != nil {
		t.Fatal(err)
	}
	if why := n.Health().Why; !strings.Contains(why, "--every 7") || !strings.Contains(why, "the same") {
		t.Errorf("%q", why)
	}
	if _, err := n.Do(context.Background(), of(api.Command, "c")); !errors.Is(err, api.Diverged) {
		t.Errorf("%v", err)
	}
}

// A node is outvoted by a majority of all nodes, not of those that have come to a place.
func TestOutvoted(t *testing.T) {
	said := member("c", at(9))
	said.Outvoted = "at revision 5"
	for _, one := range []struct {
		name  string
		nodes []ledger.Member
		out   string
	}{
		{"all agree", members(member("a", at(9)), member("b", at(9)), member("c", at(9))), ""},
		{"one against two", members(member("a", at(9)), member("b", at(9)), member("c", other(at(9)))), "c"},
		{"one against one, and one is behind", members(member("a", at(9)), member("b", at(5)), member("c", other(at(9)))), ""},
		{"at an older place", members(member("a", at(9), at(5)), member("b", at(5)), member("c", at(9), other(at(5)))), "c"},
		{"two of five", members(member("a", at(9)), member("b", at(9)), member("c", other(at(9))), member("d"), member("e")), ""},
		{"a copy is no witness", members(member("a", at(9)), member("b", fetched(at(9))), member("c", other(at(9)))), ""},
		{"a wrong copy", members(member("a", at(9)), member("b", at(9)), member("c", fetched(other(at(9))))), "c"},
		{"it has said so", members(member("a", at(9)), member("b", at(5)), said), "c"},
	} {
		t.Run(one.name, func(t *testing.T) {
			found := ""
			for name := range outvoted(one.nodes) {
				found += name
			}
			if found != one.out {
				t.Errorf("%q", found)
			}
		})
	}
}

// A node that was outvoted stays outvoted, whatever the others have later, until it has another folder.
func TestStaysOutvoted(t *testing.T) {
	n, log := newNode(t)
	own := func(s office.Snapshot) {
		t.Helper()
		if err := os.WriteFile(n.store.Path(s), nil, 0o600); err != nil {
			t.Fatal(err)
		}
	}
	look := func(n *Node) string {
		t.Helper()
		if err := n.trimLog(context.Background()); err != nil {
			t.Fatal(err)
		}
		return n.Health().Why
	}
	own(other(at(9)))
	log.state.Members = members(member("b", at(9)), member("c", at(9)))
	if why := look(n); !strings.Contains(why, "revision 9") || !strings.Contains(why, "empty folder") {
		t.Fatalf("%q", why)
	}
	if err := n.announce(context.Background()); err != nil || log.registered[0].Outvoted == "" {
		t.Errorf("it doesn't say so to the others: %v", err)
	}
	if err := os.Remove(n.store.Path(other(at(9)))); err != nil {
		t.Fatal(err)
	}
	own(at(20))
	log.state.Members = members(member("b", at(20)), member("c", at(20)))
	if look(n) == "" {
		t.Error("it serves again")
	}
	again, err := New(n.options, log, logs.New(io.Discard), prometheus.NewRegistry())
	if err != nil {
		t.Fatal(err)
	}
	if why := again.Health().Why; !strings.Contains(why, "revision 9") {
		t.Errorf("after a start: %q", why)
	}
	n.options.Data = t.TempDir()
	anew, err := New(n.options, log, logs.New(io.Discard), prometheus.NewRegistry())
	if err != nil {
		t.Fatal(err)
	}
	if why := look(anew); strings.Contains(why, "differs") {
		t.Errorf("with an empty folder: %q", why)
	}
}

// A node isn't judged by one that is outvoted, also if the third one is behind, and the log isn't kept for it.
func TestNotJudgedByOutvoted(t *testing.T) {
	n, log := newNode(t)
	if err := os.WriteFile(n.store.Path(at(9)), nil, 0o600); err != nil {
		t.Fatal(err)
	}
	wrong := member("c", other(at(9)))
	log.state.Members = members(member("b", at(5)), wrong)
	for _, one := range []struct{ said, why string }{{"", "revision 9"}, {"it was outvoted", ""}} {
		log.state.Members[1].Outvoted = one.said
		if err := n.trimLog(context.Background()); err != nil {
			t.Fatal(err)
		}
		if why, _ := n.differs.Load().(string); (why == "") != (one.why == "") || !strings.Contains(why, one.why) {
			t.Errorf("%q", why)
		}
	}
	if rest := except(log.state.Members, outvoted(log.state.Members)); len(rest) != 1 || rest[0].Name != "b" {
		t.Errorf("%v", rest)
	}
}
