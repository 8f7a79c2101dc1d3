package trial

import (
	"context"
	"errors"
	"fmt"
	"math/big"
	"strings"
	"testing"

	"rbac-node/internal/api"
	"rbac-node/internal/state"
)

// made returns the lines that make a small office.
var made = []string{
	`{"fn":"addUser","user":"ann"}`, `{"fn":"addUser","user":"bob"}`, `{"fn":"addRole","role":"clerk"}`, `{"fn":"addRole","role":"boss"}`,
	`{"fn":"addInheritance","asc":"boss","desc":"clerk"}`, `{"fn":"addPermObj","object":"till"}`,
	`{"fn":"addPermission","object":"till","operation":"open"}`, `{"fn":"addPermission","object":"till","operation":"close"}`,
	`{"fn":"grantPermission","object":"till","operation":"open","role":"clerk"}`,
	`{"fn":"grantPermission","object":"till","operation":"close","role":"boss"}`, `{"fn":"assignUser","user":"ann","role":"boss"}`,
	`{"fn":"createSession","user":"ann","roles":["boss"],"session":"s1"}`,
}

func callsOf(t *testing.T, lines ...string) []*api.Call {
	t.Helper()
	calls, err := api.ParseBatch([]byte(strings.Join(lines, "\n")))
	if err != nil {
		t.Fatal(err)
	}
	return calls
}

// cloned returns a clone of that office.
func cloned(t *testing.T) *state.State {
	t.Helper()
	s := state.New(state.Numbers{})
	if err := s.Begin(nil, true); err != nil {
		t.Fatal(err)
	}
	defer s.Forget()
	for _, call := range callsOf(t, made...) {
		if _, err := s.Answered([]*api.Call{call}, [][]byte{[]byte(`{"ok":true}`)}); err != nil {
			t.Fatal(err)
		}
	}
	clone, err := s.Clone()
	if err != nil {
		t.Fatal(err)
	}
	t.Cleanup(clone.Forget)
	return clone
}

func TestTry(t *testing.T) {
	const ok = `{"ok":true}`
	for _, test := range []struct {
		name         string
		lines        []string
		answers      string
		gained, lost string
		ended        int
	}{
		{"nothing", []string{`{"fn":"addRole","role":"x"}`}, ok, "", "", 0},
		{"an assignment", []string{`{"fn":"assignUser","user":"bob","role":"clerk"}`}, ok, "bob open till", "", 0},
		{"one that ends a session", []string{`{"fn":"deassignUser","user":"ann","role":"boss"}`}, ok, "", "ann close till, ann open till", 1},
		{"a refusal", []string{`{"fn":"assignUser","user":"bob","role":"x"}`}, `{"code":4,"error":"NoRole"}`, "", "", 0},
		{"a lock", []string{`{"fn":"lockUserAccount","user":"ann"}`}, ok, "", "ann close till, ann open till", 1},
		{"a user that is made and deleted", []string{`{"fn":"addUser","user":"zoe"}`, `{"fn":"deleteUser","user":"ann"}`},
			ok + "," + ok, "", "ann close till, ann open till", 1},
		{"an inheritance", []string{`{"fn":"deleteInheritance","asc":"boss","desc":"clerk"}`}, ok, "", "ann open till", 0},
		{"a permission that comes before others", []string{`{"fn":"addPermObj","object":"a"}`, `{"fn":"addPermission","object":"a","operation":"b"}`,
			`{"fn":"grantPermission","object":"a","operation":"b","role":"clerk"}`}, ok + "," + ok + "," + ok, "ann b a", "", 0},
		{"a permission that is deleted", []string{`{"fn":"deletePermission","object":"till","operation":"close"}`}, ok, "", "ann close till", 0},
		{"a set that no session can have", []string{`{"fn":"dropActiveRole","user":"ann","session":"s1","role":"boss"}`,
			`{"fn":"createDsdSet","set":"s","roles":["boss","clerk"],"cardinality":2}`}, ok + "," + ok, "", "ann close till", 0},
	} {
		t.Run(test.name, func(t *testing.T) {
			result, err := try(context.Background(), cloned(t), callsOf(t, test.lines...))
			if err != nil {
				t.Fatal(err)
			}
			var answers []string
			for _, answer := range result.Answers {
				answers = append(answers, string(answer))
			}
			given := []string{strings.Join(answers, ","), rowsOf(result.Gained), rowsOf(result.Lost), fmt.Sprint(len(result.Ended), result.Revision)}
			wanted := []string{test.answers, test.gained, test.lost, fmt.Sprint(test.ended, 11)}
			if fmt.Sprint(given) != fmt.Sprint(wanted) {
				t.Errorf("%q and not %q", given, wanted)
			}
		})
	}
}

func rowsOf(c Changes) string {
	var rows []string
	for _, one := range c.Rows {
		rows = append(rows, one.User+" "+one.Operation+" "+one.Object)
	}
	if int64(len(rows)) != c.Count {
		return fmt.Sprint(c.Count, rows)
	}
	return strings.Join(rows, ", ")
}

// A trial ends with its context, and without an office.
func TestTryEnds(t *testing.T) {
	clone := cloned(t)
	ended, cancel := context.WithCancel(context.Background())
	cancel()
	calls := callsOf(t, `{"fn":"addRole","role":"x"}`)
	if _, err := try(ended, clone, calls); !errors.Is(err, context.Canceled) {
		t.Errorf("a context that has ended: %v", err)
	}
	clone.Forget()
	if _, err := try(context.Background(), clone, calls); !errors.Is(err, api.Unavailable) {
		t.Errorf("an office that is closed: %v", err)
	}
}

func TestChangesAreListedUpToALimit(t *testing.T) {
	before, after := &view{users: map[string]*big.Int{}}, &view{users: map[string]*big.Int{}}
	var permissions []state.Row
	all := new(big.Int)
	for i := 0; i < 300; i++ {
		permissions = append(permissions, state.Row{fmt.Sprintf("o%03d", i), "p"})
		all.SetBit(all, i, 1)
	}
	for i := 0; i < 4; i++ {
		after.users[fmt.Sprintf("u%d", i)] = all
	}
	gained, lost := changes(before, after, permissions)
	if gained.Count != 1200 || len(gained.Rows) != mostRows || lost.Count != 0 {
		t.Errorf("%d, %d listed, %d lost", gained.Count, len(gained.Rows), lost.Count)
	}
	if last := gained.Rows[mostRows-1]; last != (Change{"o099", "p", "u3"}) {
		t.Errorf("the last one: %v", last)
	}
}
