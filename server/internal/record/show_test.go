package record

import (
	"bytes"
	"context"
	"encoding/csv"
	"encoding/json"
	"errors"
	"os"
	"path/filepath"
	"strings"
	"testing"
	"time"

	"rbac-node/internal/state"
)

// TestShowImports finds names in imports, also those that CSV writes in quotes.
func TestShowImports(t *testing.T) {
	b := open(t)
	b.answered(
		`{"fn":"importAssignments","csv":"user,role\r\"hall, \"\"peg\"\"\",clerk\r"}`,
		`{"fn":"importAssignments","csv":"user,role\nanna,\"head clerk\"\n"}`,
		`{"fn":"importAssignments","csv":"\"ann"}`,
	)
	tool, out := b.tool()
	for _, test := range []struct {
		filter Filter
		want   string
	}{
		{Filter{User: `hall, "peg"`}, "2"},
		{Filter{Role: "clerk"}, "2"},
		{Filter{Role: "head clerk"}, "3"},
		{Filter{User: "ann"}, "4"}, // It is no CSV, so it is anywhere.
		{Filter{User: "anna"}, "3"},
		{Filter{User: "bob"}, ""},
		{Filter{User: "clerk"}, ""},
		{Filter{User: "user"}, ""},
	} {
		out.Reset()
		if err := tool.Show(context.Background(), test.filter, Text); err != nil {
			t.Fatal(err)
		}
		var shown []string
		for _, line := range strings.Split(strings.TrimSuffix(out.String(), "\n"), "\n") {
			number, _, _ := strings.Cut(line, "\t")
			shown = append(shown, number)
		}
		if got := strings.Join(shown, " "); got != test.want {
			t.Errorf("%+v shows %s and not %s", test.filter, got, test.want)
		}
	}
}

// TestShowLetters shows no letter as it is that a terminal obeys or that turns others round.
func TestShowLetters(t *testing.T) {
	b := open(t)
	b.answered("{\"fn\":\"addUser\",\"user\":\"ä\u009b2J\u202eb\u2028c\u200d\U000e0001\"}")
	tool, out := b.tool()
	const want = `{"fn":"addUser","user":"ä\u009b2J\u202eb\u2028c\u200d\udb40\udc01"}`
	if err := tool.Show(context.Background(), Filter{Caller: "token:desk"}, Text); err != nil || !strings.Contains(out.String(), "\t"+want+"\t") {
		t.Errorf("%v, %q", err, out)
	}
}

// TestShowGap doesn't show a record in which an entry is missing between others as if it were whole.
func TestShowGap(t *testing.T) {
	b := open(t)
	b.answered(addAnn, addRole, assign)
	tool, out := b.tool()
	change(t, filepath.Join(b.dir, fileName), "DELETE FROM entry WHERE n = 3")
	if err := tool.Show(context.Background(), Filter{}, Text); !errors.Is(err, errGap) || !strings.Contains(err.Error(), "has 3 entries from 1 to 4") {
		t.Errorf("%v, %s", err, out)
	}
}

// TestWrittenUnlocked writes a file that is read without locks.
func TestWrittenUnlocked(t *testing.T) {
	b := open(t)
	b.answered(addAnn)
	b.tool()
	path, before := filepath.Join(b.dir, fileName), time.Now().Add(-time.Hour)
	if err := os.Chtimes(path, before, before); err != nil {
		t.Fatal(err)
	}
	v, err := openUnlocked(context.Background(), path)
	if err != nil {
		t.Fatal(err)
	}
	defer v.Close()
	if err := v.judgeStill(); err != nil {
		t.Error(err)
	}
	change(t, path, "UPDATE entry SET reason = 'another one' WHERE n = 2")
	if err := v.judgeStill(); err == nil || !strings.Contains(err.Error(), "was written while it was read") {
		t.Error(err)
	}
}

// TestFoundTwo has a value at found that no program writes.
func TestFoundTwo(t *testing.T) {
	b := open(t)
	b.answered(addAnn)
	tool, _ := b.tool()
	change(t, filepath.Join(b.dir, fileName), "UPDATE entry SET found = 2 WHERE n = 2")
	for what, do := range map[string]func() error{
		"verify": func() error { return tool.Verify(context.Background(), nil) },
		"show":   func() error { return tool.Show(context.Background(), Filter{}, Text) },
	} {
		if err := do(); err == nil || !strings.Contains(err.Error(), "entry 2 has 2 at found") {
			t.Errorf("%s: %v", what, err)
		}
	}
}

// shown returns the entries that a filter chooses, as numbers.
func shown(t *testing.T, tool *Tool, out *bytes.Buffer, filter Filter) string {
	t.Helper()
	out.Reset()
	if err := tool.Show(context.Background(), filter, JSON); err != nil {
		t.Fatal(err)
	}
	var numbers []string
	for lines := json.NewDecoder(out); lines.More(); {
		var line struct{ Number json.Number }
		if err := lines.Decode(&line); err != nil {
			t.Fatal(err)
		}
		numbers = append(numbers, line.Number.String())
	}
	return strings.Join(numbers, " ")
}

func TestShowFilters(t *testing.T) {
	b := open(t)
	b.answered(
		addAnn, addRole, assign, login,
		`{"fn":"addPermission","object":"safe","operation":"open"}`,
		`{"fn":"createDsdSet","set":"cash","roles":["clerk"],"cardinality":2}`,
	)
	tool, out := b.tool()
	for _, test := range []struct {
		filter Filter
		want   string
	}{
		{Filter{Session: state.DigestOf("secret")}, "5"},
		{Filter{Session: "secret"}, ""},
		{Filter{Operation: "open"}, "6"},
		{Filter{Set: "cash"}, "7"},
		{Filter{Set: "cash", Operation: "open"}, ""},
		{Filter{Reason: "reason"}, "2 3 4 5 6 7"},
		{Filter{Reason: "no reason"}, ""},
		{Filter{Reason: "%"}, ""},
	} {
		if got := shown(t, tool, out, test.filter); got != test.want {
			t.Errorf("%+v shows %q and not %q", test.filter, got, test.want)
		}
	}
}

// TestShowFormats reads what is printed for programs: each entry is what it is, but that a formula has an apostrophe before it.
func TestShowFormats(t *testing.T) {
	b := open(t)
	const request = "{\"fn\":\"addUser\",\"user\":\"\u009b\u202e,\\\"\U0001f600;=1\"}"
	b.answered(request)
	path := filepath.Join(b.dir, fileName)
	change(t, path, "UPDATE entry SET reason = '=1+1;@x', caller = '@desk', found = 1 WHERE n = 2")
	var link string
	if err := b.db.QueryRow("SELECT chain FROM entry WHERE n = 2").Scan(&link); err != nil {
		t.Fatal(err)
	}
	tool, out := b.tool()
	if err := tool.Show(context.Background(), Filter{Function: "addUser"}, CSV); err != nil {
		t.Fatal(err)
	}
	if text := out.String(); strings.ContainsAny(text, "\u009b\u202e") {
		t.Errorf("%q has letters that a terminal obeys", text)
	}
	lines, err := csv.NewReader(out).ReadAll()
	if err != nil || len(lines) != 2 || strings.Join(lines[0], " ") != "number at caller reason request answer found chain" {
		t.Fatalf("%v, %q", err, lines)
	}
	const asJSON = `{"fn":"addUser","user":"\u009b\u202e,\"😀;=1"}`
	escaped := strings.ReplaceAll(asJSON, ";", `\u003b`)
	got := append(lines[1][:1:1], lines[1][2:]...)
	if want := []string{"2", "'@desk", "'=1+1;'@x", escaped, accepted, "true", link}; strings.Join(got, "|") != strings.Join(want, "|") {
		t.Errorf("%q is not %q", got, want)
	}
	out.Reset()
	if err := tool.Show(context.Background(), Filter{Function: "addUser"}, JSON); err != nil {
		t.Fatal(err)
	}
	if text := out.String(); strings.ContainsAny(text, "\u009b\u202e") {
		t.Errorf("%q has letters that a terminal obeys", text)
	}
	var line struct {
		Number                    int
		Caller, Reason, Chain, At string
		Request, Answer           json.RawMessage
		Found                     bool
	}
	if err := json.Unmarshal(out.Bytes(), &line); err != nil || line.Number != 2 || line.Caller != "@desk" || line.Reason != "=1+1;@x" ||
		line.Chain != link || !line.Found || string(line.Answer) != accepted || string(line.Request) != asJSON || line.At == "" {
		t.Errorf("%v, %+v", err, line)
	}
}

// TestShowUnanswered has an entry without an answer, and one whose request is no JSON.
func TestShowUnanswered(t *testing.T) {
	b := open(t)
	b.ask(addAnn)
	change(t, filepath.Join(b.dir, fileName), "INSERT INTO entry (n, at, caller, reason, request) VALUES (3, '', 'x', '', 'no JSON')")
	tool, out := b.tool()
	if err := tool.Show(context.Background(), Filter{Caller: "x"}, JSON); err != nil || !strings.Contains(out.String(), `"request":"no JSON","found":false}`) {
		t.Errorf("%v, %q", err, out)
	}
	out.Reset()
	if err := tool.Show(context.Background(), Filter{Function: "addUser"}, Text); err == nil {
		t.Errorf("a request that is no JSON is searched: %q", out)
	}
}
