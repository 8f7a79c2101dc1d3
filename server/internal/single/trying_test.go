package single

import (
	"bytes"
	"context"
	"errors"
	"fmt"
	"os/exec"
	"path/filepath"
	"strings"
	"sync"
	"testing"
	"time"

	"rbac/clients/go/rbacoffice"

	"rbac-node/internal/api"
	"rbac-node/internal/logs"
	"rbac-node/internal/state"
	"rbac-node/internal/trial"
)

// Trials go on while the replay is started anew again and again, and each sees whole commands.
func TestTry(t *testing.T) {
	options := optionsOf(t, filepath.Join(t.TempDir(), "office"))
	options.Reads = 60
	o, stop := run(t, options)
	ask(t, o, `{"fn":"addRole","role":"clerk"}`)
	var group sync.WaitGroup
	group.Add(1)
	go func() {
		defer group.Done()
		for i := 0; i < 150; i++ {
			ask(t, o, fmt.Sprintf(`{"fn":"addUser","user":"u%d"}`, i))
		}
	}()
	for i := 0; i < 20; i++ {
		before := o.State().Numbers().Policy
		cloned := false
		call, err := api.NewCall("addUser", "user", "zoe")
		if err != nil {
			t.Fatal(err)
		}
		result, err := trial.NewTurn().Try(context.Background(), o.state, func() { cloned = true }, []*api.Call{call})
		if err != nil || !cloned || string(result.Answers[0]) != `{"ok":true}` {
			t.Fatalf("trial %d: %v, %v", i, result, err)
		}
		if after := o.State().Numbers().Policy; result.Revision < before || result.Revision > after {
			t.Errorf("trial %d is of %d, between %d and %d", i, result.Revision, before, after)
		}
	}
	group.Wait()
	if given := ask(t, o, `{"fn":"assignedRoles","user":"zoe"}`); given != `{"code":2,"error":"NoUser"}` {
		t.Errorf("the office itself: %s", given)
	}
	followed := linesOf(t, o.State())
	if err := stop(); err != nil {
		t.Error(err)
	}
	inFile := state.New(state.Numbers{})
	if err := inFile.Load(context.Background(), options.File); err != nil {
		t.Fatal(err)
	}
	defer inFile.Forget()
	if given, want := followed, linesOf(t, inFile); strings.Count(given, "\n") != 151 || given != want {
		t.Errorf("the rows of the office in this process: %q, and of the file: %q", given, want)
	}
}

// linesOf returns the lines that make an office as it is.
func linesOf(t *testing.T, s *state.State) string {
	t.Helper()
	frozen, err := s.Freeze()
	if err != nil {
		t.Fatal(err)
	}
	lines, err := frozen.Lines()
	if err != nil {
		t.Fatal(err)
	}
	return string(lines)
}

// tryUser tries to add a user.
func tryUser(o *Office) error {
	call, err := api.NewCall("addUser", "user", "zoe")
	if err != nil {
		return err
	}
	_, err = trial.NewTurn().Try(context.Background(), o.state, func() {}, []*api.Call{call})
	return err
}

// TestFollowerThatDiffers puts another office in place of the one that follows. The next command that it would refuse shows that, and both
// begin with the file again.
func TestFollowerThatDiffers(t *testing.T) {
	options := optionsOf(t, filepath.Join(t.TempDir(), "office"))
	var log bytes.Buffer
	options.Log = logs.New(&log)
	o, stop := run(t, options)
	ask(t, o, `{"fn":"addUser","user":"ann"}`)
	ask(t, o, `{"fn":"addRole","role":"clerk"}`)
	if err := o.state.Begin(nil, true); err != nil {
		t.Fatal(err)
	}
	if given := ask(t, o, `{"fn":"assignUser","user":"ann","role":"clerk"}`); given != `{"ok":true}` {
		t.Errorf("a command that the file has: %s", given)
	}
	for end := time.Now().Add(20 * time.Second); tryUser(o) != nil; time.Sleep(10 * time.Millisecond) {
		if time.Now().After(end) {
			t.Fatal("commands can't be tried again")
		}
	}
	const wanted = `{"fn":"addUser","user":"ann"}` + "\n" + `{"fn":"addRole","role":"clerk"}` + "\n" + `{"fn":"assignUser","user":"ann","role":"clerk"}` + "\n"
	if given := linesOf(t, o.State()); given != wanted {
		t.Errorf("the rows after it: %s", given)
	}
	if err := stop(); err != nil {
		t.Error(err)
	}
	if !strings.Contains(log.String(), "the office in this process isn't that of the file") {
		t.Errorf("the log: %s", log.String())
	}
}

// TestCompare puts another office in place of the one in this process. A comparison with the file shows that, and both begin with the file.
func TestCompare(t *testing.T) {
	options := optionsOf(t, filepath.Join(t.TempDir(), "office"))
	var log bytes.Buffer
	options.Log = logs.New(&log)
	o, stop := run(t, options)
	ask(t, o, `{"fn":"addUser","user":"ann"}`)
	ask(t, o, `{"fn":"addRole","role":"clerk"}`)
	good := linesOf(t, o.State())
	for _, rows := range [][]rbacoffice.Row{
		nil, {{Table: rbacoffice.Users, Names: [3]string{"ann"}}, {Table: rbacoffice.Users, Names: [3]string{"bob"}}},
		{{Table: rbacoffice.Users, Names: [3]string{"ann"}}, {Table: rbacoffice.Roles, Names: [3]string{"clerk"}}, {Table: rbacoffice.Roles, Names: [3]string{"cook"}}},
	} {
		before := o.numbers()
		if err := o.compare(context.Background()); err != nil || o.numbers() != before {
			t.Fatalf("the same office: %v", err)
		}
		if err := o.state.Begin(rows, true); err != nil {
			t.Fatal(err)
		}
		if err := o.compare(context.Background()); err != nil {
			t.Fatal(err)
		}
		for end := time.Now().Add(20 * time.Second); !o.state.IsKnown() || o.numbers() == before; time.Sleep(10 * time.Millisecond) {
			if time.Now().After(end) {
				t.Fatalf("%v: it doesn't begin again", rows)
			}
		}
		if given := linesOf(t, o.State()); given != good {
			t.Errorf("after it: %s", given)
		}
	}
	if err := stop(); err != nil {
		t.Error(err)
	}
	if said := `"why":"they have different rows of name_row"`; strings.Count(log.String(), said) != 3 {
		t.Errorf("%s is not three times in the log: %s", said, log.String())
	}
}

// TestDifference names the table of the first row that only one of two offices has.
func TestDifference(t *testing.T) {
	ann, bob := rbacoffice.Row{Table: rbacoffice.Users, Names: [3]string{"ann"}}, rbacoffice.Row{Table: rbacoffice.Users, Names: [3]string{"bob"}}
	grant := rbacoffice.Row{Table: rbacoffice.Grants, Names: [3]string{"safe", "open", "clerk"}}
	two, three := rbacoffice.Row{Table: rbacoffice.StaticCardinalities, Names: [3]string{"s"}, Number: 2}, rbacoffice.Row{Table: rbacoffice.StaticCardinalities, Names: [3]string{"s"}, Number: 3}
	for _, test := range []struct {
		one, other []rbacoffice.Row
		table      string
	}{
		{nil, nil, ""}, {[]rbacoffice.Row{ann, grant, two}, []rbacoffice.Row{ann, grant, two}, ""},
		{[]rbacoffice.Row{ann}, []rbacoffice.Row{ann, bob}, "name_row"}, {[]rbacoffice.Row{ann, grant}, []rbacoffice.Row{ann, bob, grant}, "name_row"},
		{[]rbacoffice.Row{ann}, []rbacoffice.Row{bob}, "name_row"}, {[]rbacoffice.Row{ann, two}, []rbacoffice.Row{ann, grant, three}, "grant_row"},
		{[]rbacoffice.Row{ann, grant, two}, []rbacoffice.Row{ann, grant, three}, "set_row"},
	} {
		for _, given := range []error{difference(test.one, test.other), difference(test.other, test.one)} {
			if (given == nil) != (test.table == "") || given != nil && given.Error() != "they have different rows of "+test.table {
				t.Errorf("%v and %v: %v and not %s", test.one, test.other, given, test.table)
			}
		}
	}
}

// Commands aren't tried on an office of version 1, which has other limits than librbac. It answers all else as its replay does.
func TestTryVersionOne(t *testing.T) {
	file := filepath.Join(t.TempDir(), "office")
	options := optionsOf(t, file)
	if said, err := exec.Command(options.Program, "init", file).CombinedOutput(); err != nil {
		t.Fatalf("%s", said)
	}
	older := "DROP TABLE locked_row; UPDATE meta_row SET version = 1"
	if said, err := exec.Command("sqlite3", file, older).CombinedOutput(); err != nil {
		t.Fatalf("%s", said)
	}
	o, stop := run(t, options)
	var old api.Refusal
	if err := tryUser(o); !errors.As(err, &old) || old.Code != 51 {
		t.Errorf("%v", err)
	}
	for _, test := range [][2]string{
		{`{"fn":"addUser","user":"ann"}`, `{"ok":true}`}, {`{"fn":"addRole","role":"clerk"}`, `{"ok":true}`},
		{`{"fn":"assignUser","user":"ann","role":"clerk"}`, `{"ok":true}`},
		{`{"fn":"lockUserAccount","user":"ann"}`, `{"code":51,"error":"Version","version":1}`},
		{`{"fn":"assignedRoles","user":"ann"}`, `{"ok":true,"value":["clerk"]}`},
	} {
		if given := ask(t, o, test[0]); given != test[1] {
			t.Errorf("%s: %s and not %s", test[0], given, test[1])
		}
	}
	if err := o.compare(context.Background()); err != nil || !o.state.IsKnown() {
		t.Errorf("the comparison with the file: %v", err)
	}
	if err := stop(); err != nil {
		t.Error(err)
	}
}
