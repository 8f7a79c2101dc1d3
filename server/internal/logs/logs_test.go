package logs

import (
	"bytes"
	"encoding/json"
	"errors"
	"fmt"
	"os"
	"strings"
	"syscall"
	"testing"
	"time"
)

func TestLines(t *testing.T) {
	for _, test := range []struct {
		name  string
		value any
		want  any
	}{
		{"text", "a\nb\"c", "a\nb\"c"},
		{"bytes that are no text", "\xff", "\ufffd"},
		{"number", 7, 7.0},
		{"error", errors.New("broken"), "broken"},
		{"duration", 1500 * time.Millisecond, 1.5},
	} {
		t.Run(test.name, func(t *testing.T) {
			var out bytes.Buffer
			New(&out, "node", "a").Warn("what", "it", test.value)
			line, found := out.String(), map[string]any{}
			if err := json.Unmarshal([]byte(line), &found); err != nil {
				t.Fatalf("%q: %v", line, err)
			}
			if strings.Count(line, "\n") != 1 || !strings.HasSuffix(line, "\n") {
				t.Errorf("%q is not one line", line)
			}
			if found["level"] != "warn" || found["msg"] != "what" || found["node"] != "a" || found["it"] != test.want {
				t.Errorf("%v lacks something", found)
			}
		})
	}
}

// Only in the journal each line begins with its level, which journald takes off.
func TestJournal(t *testing.T) {
	reading, writing, err := os.Pipe()
	if err != nil {
		t.Fatal(err)
	}
	defer reading.Close()
	about, err := writing.Stat()
	if err != nil {
		t.Fatal(err)
	}
	stat := about.Sys().(*syscall.Stat_t)
	for stream, begins := range map[string][]string{
		fmt.Sprintf("%d:%d", stat.Dev, stat.Ino): {"<6>{", "<4>{", "<3>{"}, "": {"{", "{", "{"}, "1:1": {"{", "{", "{"}, "x": {"{", "{", "{"},
	} {
		t.Setenv("JOURNAL_STREAM", stream)
		l := New(writing)
		l.Info("a")
		l.Warn("a")
		l.Error("a")
		text := make([]byte, 1000)
		n, err := reading.Read(text)
		lines := strings.Split(strings.TrimSpace(string(text[:n])), "\n")
		if err != nil || len(lines) != len(begins) {
			t.Fatalf("%q, %v", lines, err)
		}
		for i, line := range lines {
			if !strings.HasPrefix(line, begins[i]+`"level"`) {
				t.Errorf("%q: %s", stream, line)
			}
		}
	}
	if isJournal(&bytes.Buffer{}, "1:1") {
		t.Error("a buffer is the journal")
	}
}
