package single

import (
	"bytes"
	"context"
	"fmt"
	"os"
	"os/exec"
	"path/filepath"
	"strings"
	"testing"
	"time"

	"github.com/prometheus/client_golang/prometheus"

	"rbac-node/internal/api"
	"rbac-node/internal/logs"
	"rbac-node/internal/programtest"
)

func optionsOf(t *testing.T, file string) Options {
	return Options{
		Locked: func() error { return nil }, Say: func(string) {},
		File: file, Program: programtest.Path(t), AnswerTimeout: 20 * time.Second, HangTimeout: time.Minute, Reads: MostReads, Log: logs.New(&bytes.Buffer{}),
		Metrics: prometheus.NewRegistry(),
	}
}

// run opens an office, and returns it with what ends it.
func run(t *testing.T, options Options) (*Office, func() error) {
	t.Helper()
	o, err := Open(context.Background(), options)
	if err != nil {
		t.Fatal(err)
	}
	ctx, stop := context.WithCancel(context.Background())
	ended := make(chan error, 1)
	go func() { ended <- o.Run(ctx) }()
	t.Cleanup(stop)
	return o, func() error { stop(); return <-ended }
}

func ask(t *testing.T, o *Office, line string) string {
	t.Helper()
	call, err := api.ParseLine([]byte(line))
	if err != nil {
		t.Fatal(err)
	}
	answers, err := o.Do(context.Background(), api.NewBatch(api.Question, call))
	if err != nil {
		t.Fatal(err)
	}
	return string(answers.Texts[0])
}

func TestOffice(t *testing.T) {
	file := filepath.Join(t.TempDir(), "office")
	o, stop := run(t, optionsOf(t, file))
	if given := ask(t, o, `{"fn":"addUser","user":"ann"}`); given != `{"ok":true}` {
		t.Error(given)
	}
	if _, err := Open(shortly(t), optionsOf(t, file)); err == nil || !strings.Contains(err.Error(), "another front") {
		t.Errorf("a second front: %v", err)
	}
	if err := stop(); err != nil {
		t.Error(err)
	}
	if _, err := os.Stat(file + "-wal"); err == nil {
		t.Error("the log is left")
	}
	o, stop = run(t, optionsOf(t, file))
	if given := ask(t, o, `{"fn":"assignedRoles","user":"ann"}`); given != `{"ok":true,"value":[]}` {
		t.Error(given)
	}
	if err := stop(); err != nil {
		t.Error(err)
	}
}

// shortly returns a context that ends soon.
func shortly(t *testing.T) context.Context {
	ctx, cancel := context.WithTimeout(context.Background(), 100*time.Millisecond)
	t.Cleanup(cancel)
	return ctx
}

func TestOpen(t *testing.T) {
	for _, test := range []struct {
		name    string
		prepare func(path string) error
		says    string
	}{
		{"no file", func(string) error { return nil }, ""},
		{"what an earlier making has left", func(path string) error {
			return os.WriteFile(path+".making", []byte("rest"), 0o600)
		}, ""},
		{"an empty file", func(path string) error { return os.WriteFile(path, nil, 0o600) }, `"error":"NotAnOffice"`},
		{"another file", func(path string) error { return os.WriteFile(path, []byte("text"), 0o600) }, `"error":"Store"`},
		{"a folder", func(path string) error { return os.Mkdir(path, 0o700) }, `"error":"Store"`},
		{"a link to nothing", func(path string) error { return os.Symlink(path+".other", path) }, `"error":"Store"`},
		{"a link in place of the lock", func(path string) error { return os.Symlink(path+".other", path+".lock") }, "lock"},
	} {
		t.Run(test.name, func(t *testing.T) {
			path := filepath.Join(t.TempDir(), "office")
			if err := test.prepare(path); err != nil {
				t.Fatal(err)
			}
			o, err := Open(context.Background(), optionsOf(t, path))
			if test.says == "" {
				if err != nil {
					t.Fatal(err)
				}
				ended, stop := context.WithCancel(context.Background())
				stop()
				if err := o.Run(ended); err != nil {
					t.Error(err)
				}
				return
			}
			if err == nil || !strings.Contains(err.Error(), test.says) || strings.Contains(err.Error(), "\n") {
				t.Errorf("%v doesn't say %s in a line", err, test.says)
			}
		})
	}
}

// TestStartsAnew does many commands while the replay is started anew again and again.
func TestStartsAnew(t *testing.T) {
	options := optionsOf(t, filepath.Join(t.TempDir(), "office"))
	options.Reads = 60
	var log bytes.Buffer
	options.Log = logs.New(&log)
	o, stop := run(t, options)
	for i := 0; i < 500; i++ {
		if given := ask(t, o, fmt.Sprintf(`{"fn":"addUser","user":"u%d"}`, i)); given != `{"ok":true}` {
			t.Errorf("user %d: %s", i, given)
		}
	}
	for i := 0; i < 500; i++ {
		if given := ask(t, o, fmt.Sprintf(`{"fn":"assignedRoles","user":"u%d"}`, i)); given != `{"ok":true,"value":[]}` {
			t.Errorf("user %d: %s", i, given)
		}
	}
	if err := stop(); err != nil {
		t.Error(err)
	}
	if count := strings.Count(log.String(), "starting the replay anew"); count < 10 {
		t.Errorf("it was started anew %d times", count)
	}
	if said, err := exec.Command(options.Program, "check", options.File).CombinedOutput(); string(said) != "good\n" {
		t.Errorf("check: %s, %v", said, err)
	}
}
