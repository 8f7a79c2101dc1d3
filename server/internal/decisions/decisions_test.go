package decisions

import (
	"bytes"
	"encoding/json"
	"fmt"
	"io"
	"os"
	"path/filepath"
	"strings"
	"sync"
	"testing"
	"time"

	"github.com/prometheus/client_golang/prometheus"

	"rbac-node/internal/api"
	"rbac-node/internal/logs"
	"rbac-node/internal/state"
)

func open(t testing.TB, share float64, file string, out io.Writer) *Log {
	t.Helper()
	l, err := New(share, file, logs.New(out), prometheus.NewRegistry())
	if err != nil {
		t.Fatal(err)
	}
	return l
}

// Each decision is a line with who has asked, and has no name of a session.
func TestLines(t *testing.T) {
	var out bytes.Buffer
	l := open(t, 1, "", &out)
	l.Note(api.Decision{Caller: "token:a", Session: "secret", Operation: "open", Object: "va\"ult\n", IsAllowed: true})
	l.Note(api.Decision{Caller: "open", Session: "other", Operation: "open", Object: "x", Code: 26, Name: "NoSession"})
	l.Note(api.Decision{Caller: "unix:0", User: "ann", Operation: "open", Object: "x"})
	l.Close()
	var found []map[string]any
	for _, line := range strings.Split(strings.TrimSpace(out.String()), "\n") {
		one := map[string]any{}
		if err := json.Unmarshal([]byte(line), &one); err != nil {
			t.Fatalf("%q: %v", line, err)
		}
		if at, err := time.Parse(time.RFC3339Nano, one["at"].(string)); err != nil || time.Since(at) > time.Minute {
			t.Errorf("%v, %v", at, err)
		}
		delete(one, "at")
		delete(one, "ts")
		found = append(found, one)
	}
	wanted := []map[string]any{
		{"level": "info", "msg": "decision", "decision": "allowed", "caller": "token:a", "session": state.DigestOf("secret"), "operation": "open", "object": "va\"ult\n"},
		{"level": "info", "msg": "decision", "decision": "denied", "caller": "open", "session": state.DigestOf("other"), "operation": "open", "object": "x",
			"code": 26.0, "error": "NoSession"},
		{"level": "info", "msg": "decision", "decision": "denied", "caller": "unix:0", "user": "ann", "operation": "open", "object": "x"},
	}
	if fmt.Sprint(found) != fmt.Sprint(wanted) {
		t.Errorf("%v and not %v", found, wanted)
	}
	if strings.Contains(out.String(), "secret") {
		t.Error("the name of a session is there")
	}
}

// About as many decisions as wanted are written, and none if the share is nothing.
func TestShare(t *testing.T) {
	const all = 3000
	for share, most := range map[float64][2]int{0: {0, 0}, 0.1: {all / 20, all / 5}, 1: {all, all}} {
		var out bytes.Buffer
		l := open(t, share, "", &out)
		for i := 0; i < all; i++ {
			l.Note(api.Decision{Session: "s"})
		}
		l.Close()
		if count := strings.Count(out.String(), "\n"); count < most[0] || count > most[1] {
			t.Errorf("%v: %d lines", share, count)
		}
	}
}

// stuck is a file that takes nothing until it is let go.
type stuck struct {
	once  sync.Once
	begun chan struct{}
	gate  chan struct{}
	lines int
}

func (s *stuck) Write(text []byte) (int, error) {
	s.once.Do(func() { close(s.begun) })
	<-s.gate
	s.lines++
	return len(text), nil
}

// Nobody waits for a log that can't be written. What is too much is counted.
func TestStuck(t *testing.T) {
	out := &stuck{begun: make(chan struct{}), gate: make(chan struct{})}
	l := open(t, 1, "", out)
	l.Note(api.Decision{})
	<-out.begun
	const more = 10
	for i := 0; i < mostWaiting+more; i++ {
		l.Note(api.Decision{})
	}
	close(out.gate)
	l.Close()
	if out.lines != mostWaiting+1 {
		t.Errorf("%d lines", out.lines)
	}
}

// A file that is moved away is left alone, and another one is begun. Nobody else may read it, and no link is followed.
func TestMoved(t *testing.T) {
	dir := t.TempDir()
	path := filepath.Join(dir, "decisions")
	l := open(t, 1, path, io.Discard)
	note := func(object string) { l.Note(api.Decision{Object: object}) }
	note("first")
	has := func(path, text string) bool {
		found, _ := os.ReadFile(path)
		return strings.Contains(string(found), text)
	}
	until := func(what string, holds func() bool) {
		for deadline := time.Now().Add(20 * time.Second); !holds(); time.Sleep(10 * time.Millisecond) {
			if time.Now().After(deadline) {
				t.Fatal(what)
			}
		}
	}
	until("the first line", func() bool { return has(path, "first") })
	if err := os.Rename(path, path+".1"); err != nil {
		t.Fatal(err)
	}
	until("a new file", func() bool { note("second"); return has(path, "second") })
	if has(path+".1", "first") == has(path, "first") {
		t.Error("the first line is in both files or none")
	}
	l.Close()
	if about, err := os.Stat(path); err != nil || about.Mode().Perm() != 0o600 {
		t.Errorf("%v, %v", about, err)
	}
	if err := os.Symlink(path, filepath.Join(dir, "link")); err != nil {
		t.Fatal(err)
	}
	if _, err := New(1, filepath.Join(dir, "link"), nil, prometheus.NewRegistry()); err == nil {
		t.Error("a link is followed")
	}
}

func BenchmarkNote(b *testing.B) {
	for _, share := range []float64{0.01, 1} {
		b.Run(fmt.Sprint(share), func(b *testing.B) {
			l := open(b, share, filepath.Join(b.TempDir(), "decisions"), io.Discard)
			d := api.Decision{Caller: "token:a", Session: "a session", Operation: "open", Object: "vault"}
			for i := 0; i < b.N; i++ {
				l.Note(d)
			}
			l.Close()
		})
	}
}

// A decision that can't be written is counted, and the other log says once that this begins. No line begins in a part of another one.
func TestFull(t *testing.T) {
	var other bytes.Buffer
	registry := prometheus.NewRegistry()
	l, err := New(1, "/dev/full", logs.New(&other), registry)
	if err != nil {
		t.Fatal(err)
	}
	for i := 0; i < 3; i++ {
		l.Note(api.Decision{Session: "s"})
	}
	l.Close()
	if text := other.String(); strings.Count(text, "\n") != 1 || !strings.Contains(text, "decisions can't be logged") {
		t.Errorf("%q", text)
	}
	families, err := registry.Gather()
	if err != nil || len(families) != 1 || families[0].GetMetric()[0].GetCounter().GetValue() != 3 {
		t.Errorf("%v, %v", families, err)
	}
	path := filepath.Join(t.TempDir(), "decisions")
	file := &reopened{path: path}
	if err := file.open(); err != nil {
		t.Fatal(err)
	}
	file.isTorn = true
	if _, err := file.Write([]byte("a\n")); err != nil {
		t.Fatal(err)
	}
	file.isShort = true
	if _, err := file.Write([]byte("b\n")); err == nil || file.err == nil {
		t.Error("it writes on a disk that has no room for it")
	}
	if text, err := os.ReadFile(path); err != nil || string(text) != "\na\n" {
		t.Errorf("%q, %v", text, err)
	}
}
