// The digests of sessions are those of the tools, which only a program with SQLite has.

package reports

import (
	"bytes"
	"encoding/csv"
	"encoding/json"
	"fmt"
	"math/rand"
	"reflect"
	"sort"
	"strconv"
	"strings"
	"testing"

	"rbac-node/internal/api"
	"rbac-node/internal/limits"
	"rbac-node/internal/state"
)

// TestMasks has a bit for each member of the largest set.
func TestMasks(t *testing.T) {
	for version := 1; version <= limits.Newest(); version++ {
		if most := limits.Of("member", version); uint32(1)<<(most-1) == 0 {
			t.Errorf("a set of version %d may have %d members", version, most)
		}
	}
}

// made returns what is in an office after some lines.
func made(t *testing.T, lines ...string) *state.Frozen {
	t.Helper()
	s, calls := state.New(state.Numbers{}), []*api.Call{}
	for _, line := range lines {
		call, err := api.ParseLine([]byte(line))
		if err != nil {
			t.Fatalf("%s: %v", line, err)
		}
		calls = append(calls, call)
	}
	if err := s.Begin(nil, true); err != nil {
		t.Fatal(err)
	}
	t.Cleanup(s.Forget)
	if _, err := s.Try(calls); err != nil {
		t.Fatal(err)
	}
	frozen, err := s.FreezeWithJuniors()
	if err != nil {
		t.Fatal(err)
	}
	return frozen
}

// linesOf returns the lines of a report, and checks that they are as many as it said.
func linesOf(t *testing.T, name string, office *state.Frozen, filter Filter) (lines [][]string) {
	t.Helper()
	report, err := New(name, office, filter)
	if err != nil {
		t.Fatal(err)
	}
	_ = report.Write(func(cells ...string) error {
		lines = append(lines, append([]string(nil), cells...))
		return nil
	})
	if int64(len(lines)) != report.Lines {
		t.Fatalf("%s has %d lines and said %d, by %+v", name, len(lines), report.Lines, filter)
	}
	return lines
}

// A drawn office is random, with a hierarchy, dynamic sets, locks and sessions.
func drawn(rng *rand.Rand) (lines []string) {
	add := func(format string, values ...any) { lines = append(lines, fmt.Sprintf(format, values...)) }
	const many = 7
	for i := 0; i < many; i++ {
		add(`{"fn":"addUser","user":"u%d"}`, i)
		add(`{"fn":"addRole","role":"r%d"}`, i)
		add(`{"fn":"addPermObj","object":"o%d"}`, i)
		for j := 0; j < 2; j++ {
			add(`{"fn":"addPermission","object":"o%d","operation":"p%d"}`, i%3, i%2+j)
			add(`{"fn":"grantPermission","object":"o%d","operation":"p%d","role":"r%d"}`, i%3, i%2+j, rng.Intn(many))
		}
		if i > 0 && rng.Intn(2) == 0 {
			add(`{"fn":"addInheritance","asc":"r%d","desc":"r%d"}`, i, rng.Intn(i))
		}
		add(`{"fn":"assignUser","user":"u%d","role":"r%d"}`, i, rng.Intn(many))
		add(`{"fn":"assignUser","user":"u%d","role":"r%d"}`, rng.Intn(many), rng.Intn(many))
	}
	add(`{"fn":"lockUserAccount","user":"u%d"}`, rng.Intn(many))
	add(`{"fn":"createDsdSet","set":"d","roles":["r0","r%d"],"cardinality":2}`, 1+rng.Intn(many-1))
	add(`{"fn":"createSsdSet","set":"s","roles":["r1","r2","r3"],"cardinality":3}`)
	add(`{"fn":"createSession","user":"u1","roles":["r%d"],"session":"a"}`, rng.Intn(many))
	add(`{"fn":"createSession","user":"u2","roles":[],"session":"b"}`)
	return lines
}

func orAll(text, name string) bool { return text == "" || text == name }

// below returns a role and its juniors, by the inheritances.
func below(office *state.Frozen, role string) map[string]bool {
	found := map[string]bool{role: true}
	for count := 0; count < len(found); {
		count = len(found)
		for _, edge := range office.Graph.Edges {
			if found[edge[0]] {
				found[edge[1]] = true
			}
		}
	}
	return found
}

// violated returns the first dynamic set that a role violates alone, or nothing.
func violated(office *state.Frozen, role string) string {
	below := below(office, role)
	for _, set := range office.Graph.Dynamic {
		count := int64(0)
		for _, member := range set.Roles {
			if below[member] {
				count++
			}
		}
		if count >= set.Cardinality {
			return set.Name
		}
	}
	return ""
}

// wantedPermissions makes the lines in the simplest way.
func wantedPermissions(office *state.Frozen, filter Filter) (lines [][]string) {
	for _, pair := range office.Assigned {
		below := below(office, pair[1])
		for _, one := range office.Grants {
			isWanted := orAll(filter.User, pair[0]) && orAll(filter.Object, one[0]) && orAll(filter.Operation, one[1]) &&
				(orAll(filter.Role, one[2]) || filter.Role == pair[1])
			if !below[one[2]] || !isWanted {
				continue
			}
			locked := "no"
			for _, row := range office.Locked {
				if row[0] == pair[0] {
					locked = "yes"
				}
			}
			lines = append(lines, []string{pair[0], locked, one[0], one[1], pair[1], one[2], violated(office, one[2])})
		}
	}
	sort.Slice(lines, func(i, j int) bool { return strings.Join(lines[i], "\t") < strings.Join(lines[j], "\t") })
	return lines
}

func TestPermissions(t *testing.T) {
	met := 0
	for seed := int64(0); seed < 200; seed++ {
		rng := rand.New(rand.NewSource(seed))
		office := made(t, drawn(rng)...)
		some := func(prefix string) string {
			if rng.Intn(2) == 0 {
				return ""
			}
			return prefix + strconv.Itoa(rng.Intn(8)) // Some name nothing.
		}
		for _, filter := range []Filter{{}, {User: some("u"), Role: some("r"), Object: some("o"), Operation: some("p")}} {
			found, wanted := linesOf(t, "permissions", office, filter), wantedPermissions(office, filter)
			met += len(found)
			if len(found)+len(wanted) > 0 && !reflect.DeepEqual(found, wanted) {
				t.Fatalf("seed %d, %+v:\n%v\n%v", seed, filter, found, wanted)
			}
		}
	}
	if met < 1000 {
		t.Errorf("only %d lines were compared", met)
	}
}

func TestFilterOfNoRole(t *testing.T) {
	office := made(t, drawn(rand.New(rand.NewSource(1)))...)
	for _, name := range []string{"permissions", "sessions"} {
		if found := linesOf(t, name, office, Filter{Role: "nobody"}); len(found) != 0 {
			t.Errorf("%s of a role that isn't there: %v", name, found)
		}
	}
}

func TestSessionsAndNear(t *testing.T) {
	office := made(t, `{"fn":"addRole","role":"clerk"}`, `{"fn":"addRole","role":"teller"}`, `{"fn":"addAscendant","asc":"boss","desc":"teller"}`,
		`{"fn":"addRole","role":"idle"}`, `{"fn":"addUser","user":"ann"}`, `{"fn":"assignUser","user":"ann","role":"boss"}`,
		`{"fn":"assignUser","user":"ann","role":"idle"}`, `{"fn":"addPermObj","object":"till"}`,
		`{"fn":"addPermission","object":"till","operation":"open"}`, `{"fn":"grantPermission","object":"till","operation":"open","role":"teller"}`,
		`{"fn":"createSsdSet","set":"audit","roles":["clerk","teller"],"cardinality":2}`,
		`{"fn":"createDsdSet","set":"cash","roles":["boss","teller"],"cardinality":2}`,
		`{"fn":"createSession","user":"ann","roles":["idle","teller"],"session":"s1"}`)
	digest := office.Sessions[0].Digest
	if len(digest) != 32 {
		t.Fatalf("a session is shown as %q", digest)
	}
	for _, test := range []struct {
		name, report string
		filter       Filter
		wanted       [][]string
	}{
		{"sessions", "sessions", Filter{}, [][]string{{digest, "ann", "idle", "", "", ""}, {digest, "ann", "teller", "till", "open", "teller"}}},
		{"sessions by an object", "sessions", Filter{Object: "till"}, [][]string{{digest, "ann", "teller", "till", "open", "teller"}}},
		{"sessions of nobody", "sessions", Filter{User: "bob"}, nil},
		{"near", "near", Filter{}, [][]string{
			{"0", "dynamic", "cash", "2", "user", "ann", "2", "boss", "boss"}, {"0", "dynamic", "cash", "2", "user", "ann", "2", "teller", "boss"},
			{"1", "dynamic", "cash", "2", "session", digest, "1", "teller", "teller"},
			{"1", "static", "audit", "2", "user", "ann", "1", "teller", "boss"},
		}},
		{"near by a set", "near", Filter{Set: "audit"}, [][]string{{"1", "static", "audit", "2", "user", "ann", "1", "teller", "boss"}}},
		{"near, none left", "near", Filter{HasLeft: true, Set: "audit"}, nil},
	} {
		t.Run(test.name, func(t *testing.T) {
			if found := linesOf(t, test.report, office, test.filter); !reflect.DeepEqual(found, test.wanted) {
				t.Errorf("%v and not %v", found, test.wanted)
			}
		})
	}
}

// A dump makes the same office, except for its sessions.
func TestDump(t *testing.T) {
	office := made(t, drawn(rand.New(rand.NewSource(3)))...)
	var lines []string
	for _, cells := range linesOf(t, "dump", office, Filter{}) {
		if strings.Contains(cells[0], `"session"`) {
			t.Errorf("the name of a session: %s", cells[0])
		}
		if !strings.Contains(cells[0], `"digest"`) {
			lines = append(lines, cells[0])
		}
	}
	again := made(t, lines...)
	for _, pair := range [][2]any{
		{office.Users, again.Users}, {office.Grants, again.Grants}, {office.Assigned, again.Assigned}, {office.Locked, again.Locked},
		{office.Graph.Edges, again.Graph.Edges}, {office.Graph.Sets(true), again.Graph.Sets(true)},
	} {
		if !reflect.DeepEqual(pair[0], pair[1]) {
			t.Errorf("%v and not %v", pair[1], pair[0])
		}
	}
	if len(lines) == 0 || len(again.Sessions) != 0 {
		t.Errorf("%d lines, %d sessions", len(lines), len(again.Sessions))
	}
}

func TestEscaped(t *testing.T) {
	for _, one := range []struct{ text, wanted string }{
		{"=1+1", "'=1+1"}, {"+a", "'+a"}, {"-", "'-"}, {"@x", "'@x"}, {"'=1", "''=1"}, {"", ""}, {"a=1", "a=1"}, {"'a", "'a"}, {"'", "'"},
		{"a;=1", "a;'=1"}, {"a;'=1;+2;b", "a;''=1;'+2;b"}, {";", ";"}, {"＝1", "'＝1"}, {"a;＠x", "a;'＠x"},
	} {
		if found := Escaped(one.text); found != one.wanted {
			t.Errorf("%q became %q and not %q", one.text, found, one.wanted)
		}
	}
}

func TestWrite(t *testing.T) {
	report := &Report{Columns: []string{"name", "left"}, Numbers: map[string]bool{"left": true}, Lines: 3}
	report.Write = func(add func(cells ...string) error) error {
		for _, cells := range [][]string{{"=a,\"b\"", "-1"}, {"\u202eb", "2"}, {"c", "3"}} {
			if err := add(cells...); err != nil {
				return err
			}
		}
		return nil
	}
	var text bytes.Buffer
	if err := report.WriteCSV(&text, 2); err != nil {
		t.Fatal(err)
	}
	rows, err := csv.NewReader(&text).ReadAll()
	wanted := [][]string{{"name", "left"}, {"'=a,\"b\"", "-1"}, {"\u202eb", "2"}}
	if err != nil || !reflect.DeepEqual(rows, wanted) {
		t.Errorf("%v, %v", rows, err)
	}
	text.Reset()
	if err := report.WriteLines(&text, 1); err != nil {
		t.Fatal(err)
	}
	var cells []string
	if json.Unmarshal(text.Bytes(), &cells) != nil || !reflect.DeepEqual(cells, []string{"=a,\"b\"", "-1"}) {
		t.Errorf("%s", text.String())
	}
}
