package callers

import (
	"bufio"
	"bytes"
	"encoding/json"
	"errors"
	"net/http/httptest"
	"os"
	"path/filepath"
	"strings"
	"testing"
)

func linesOf(t *testing.T, path string) (lines []refusal) {
	t.Helper()
	text, err := os.ReadFile(path)
	if err != nil {
		t.Fatal(err)
	}
	for scanner := bufio.NewScanner(bytes.NewReader(text)); scanner.Scan(); {
		var line refusal
		if err := json.Unmarshal(scanner.Bytes(), &line); err != nil {
			t.Fatalf("%q: %v", scanner.Text(), err)
		}
		lines = append(lines, line)
	}
	return lines
}

// digestOf shows what has a digest.
func digestOf(text string) string { return "<" + text + ">" }

func TestJournal(t *testing.T) {
	path := filepath.Join(t.TempDir(), "refused")
	j, err := OpenJournal(path, digestOf)
	if err != nil {
		t.Fatal(err)
	}
	r := httptest.NewRequest("POST", "/v1/addUser", nil)
	r.RequestURI = "/v1/" + strings.Repeat("x", 300)
	if err := j.Write(r, 403, "token:a\n\x00\"<b>\xff", errors.New("why\nnot"), nil); err != nil {
		t.Fatal(err)
	}
	text, _ := os.ReadFile(path)
	if bytes.Count(text, []byte("\n")) != 1 || bytes.ContainsAny(text[:len(text)-1], "\n\x00<>") {
		t.Errorf("%q has what it shouldn't", text)
	}
	line := linesOf(t, path)[0]
	if line.Status != 403 || line.Caller != "token:a\n\x00\"<b>\ufffd" || len(line.Target) != longestTarget+2 || line.Why != "why\nnot" {
		t.Errorf("%+v", line)
	}
	if about, err := os.Stat(path); err != nil || about.Mode().Perm() != 0o600 {
		t.Error(about, err)
	}
	if err := (*Journal)(nil).Write(r, 401, "", nil, nil); err != nil {
		t.Errorf("no journal: %v", err)
	}
}

// Strangers push out nothing of callers, and no caller takes the room of another one.
func TestJournalIsBounded(t *testing.T) {
	path := filepath.Join(t.TempDir(), "refused")
	j, err := OpenJournal(path, digestOf)
	if err != nil {
		t.Fatal(err)
	}
	r := httptest.NewRequest("POST", "/v1/addUser", nil)
	for i := 0; i < 3*mostLines; i++ {
		for _, caller := range []string{"", "token:flood"} {
			if err := j.Write(r, 403, caller, nil, nil); err != nil {
				t.Fatal(err)
			}
		}
	}
	if err := j.Write(r, 403, "token:desk", nil, nil); err != nil {
		t.Fatal(err)
	}
	if lines := len(linesOf(t, path+unknownSuffix)); lines > 2*mostLines || lines < mostLines { // A second may have ended meanwhile.
		t.Errorf("%d lines of strangers", lines)
	}
	lines := linesOf(t, path)
	if last := lines[len(lines)-1]; last.Caller != "token:desk" || len(lines) > 2*mostOfCaller+1 {
		t.Errorf("%d lines of callers, and the last one is %+v", len(lines), last)
	}
	leftOut := j.unknown.leftOut
	j.unknown.second = 0 // Another second.
	if err := j.Write(r, 401, "", nil, nil); err != nil {
		t.Fatal(err)
	}
	if lines := linesOf(t, path+unknownSuffix); lines[len(lines)-1].LeftOut != leftOut || leftOut == 0 {
		t.Errorf("%d are left out, and not %d", lines[len(lines)-1].LeftOut, leftOut)
	}
	for round := 0; round < 3; round++ {
		j.unknown.second, j.unknown.size = 0, mostBytes
		if err := j.Write(r, 401, "", nil, nil); err != nil {
			t.Fatal(err)
		}
		if lines := len(linesOf(t, path+unknownSuffix)); lines != 1 {
			t.Errorf("%d lines in the new file", lines)
		}
	}
	if left := linesOf(t, path); len(left) != len(lines) {
		t.Errorf("%d lines of callers are left of %d", len(left), len(lines))
	}
	found, err := os.ReadDir(filepath.Dir(path))
	if err != nil || len(found) != 3 {
		t.Errorf("%v, %v", found, err)
	}
}

// No token and no name of a session in a target is written.
func TestJournalTargets(t *testing.T) {
	j := &Journal{digest: digestOf}
	for target, want := range map[string]string{
		"/v1/addUser":                              "/v1/addUser",
		"/sessions/ann%201":                        "/sessions/<ann 1>",
		"/x/sessions/0123?user=ann":                "/x/sessions/<0123>?user=ann",
		"/decide?session=s+1&operation=open":       "/decide?session=<s 1>&operation=open",
		"/lists/users?contains=a&access_token=e.f": "/lists/users?contains=a&access_token=<e.f>",
		"/record?secret":                           "/record?<secret>",
		"/record?user=ann&":                        "/record?user=ann&<>",
	} {
		if got := j.target(target); got != want {
			t.Errorf("%q is written as %q and not %q", target, got, want)
		}
	}
}
