package restoring

import (
	"context"
	"errors"
	"os"
	"path/filepath"
	"strings"
	"testing"
)

// lay makes files with these texts in a folder.
func lay(t *testing.T, folder string, files map[string]string) {
	t.Helper()
	for name, text := range files {
		path := filepath.Join(folder, name)
		if err := os.MkdirAll(filepath.Dir(path), 0o700); err != nil {
			t.Fatal(err)
		}
		if err := os.WriteFile(path, []byte(text), 0o600); err != nil {
			t.Fatal(err)
		}
	}
}

// has returns the texts of all files of a folder.
func has(t *testing.T, folder string) map[string]string {
	t.Helper()
	found := map[string]string{}
	err := filepath.Walk(folder, func(path string, about os.FileInfo, err error) error {
		if err != nil || about.IsDir() {
			return err
		}
		text, err := os.ReadFile(path)
		name, _ := filepath.Rel(folder, path)
		if i := strings.Index(name, ".before-"); i > 0 {
			name = name[:i] + ".before" + name[strings.IndexByte(name, '/'):]
		}
		found[name] = string(text)
		return err
	})
	if err != nil {
		t.Fatal(err)
	}
	return found
}

func same(t *testing.T, given, want map[string]string) {
	t.Helper()
	for name, text := range want {
		if given[name] != text {
			t.Errorf("%s has %q and not %q", name, given[name], text)
		}
	}
	for name := range given {
		if _, is := want[name]; !is && name != "office.lock" {
			t.Errorf("%s is there", name)
		}
	}
}

func options(folder string, more ...func(*Options)) Options {
	o := Options{
		Backup: filepath.Join(folder, "backup"), Office: filepath.Join(folder, "here/office"), Replaces: true, Out: &strings.Builder{},
		Prepare: func(_ context.Context, office string) (string, error) {
			return "prepared", os.WriteFile(office, []byte("prepared"), 0o600)
		},
	}
	for _, one := range more {
		one(&o)
	}
	return o
}

var (
	inBackup = map[string]string{"office": "new", "office.record/record.db": "new record", "office.record/reserve": "room", "notes": "mine"}
	wasThere = map[string]string{"office": "old", "office-wal": "old log", "office.record/record.db": "old record", "office.numbers": "9"}
	wanted   = map[string]string{
		"office": "prepared", "office.record/record.db": "new record", "office.numbers": "9",
		"office.before/office": "old", "office.before/office-wal": "old log", "office.before/office.record/record.db": "old record",
	}
)

// The backup takes the place of what was there, which is kept. What isn't of a pair stays where it is.
func TestRun(t *testing.T) {
	dir := t.TempDir()
	lay(t, filepath.Join(dir, "backup"), inBackup)
	lay(t, filepath.Join(dir, "here"), wasThere)
	if err := Run(context.Background(), options(dir)); err != nil {
		t.Fatal(err)
	}
	same(t, has(t, filepath.Join(dir, "here")), wanted)
	same(t, has(t, filepath.Join(dir, "backup")), inBackup)
}

// If the pair is refused, or the context ends, all is as it was before.
func TestRefused(t *testing.T) {
	ended, end := context.WithCancel(context.Background())
	end()
	for name, test := range map[string]struct {
		ctx  context.Context
		more func(*Options)
	}{
		"the pair is refused": {context.Background(), func(o *Options) {
			o.Prepare = func(context.Context, string) (string, error) { return "", errors.New("no pair") }
		}},
		"the context ends":    {ended, func(*Options) {}},
		"a log is left":       {context.Background(), func(o *Options) { o.Prepare = leaveLog }},
		"nothing is replaced": {context.Background(), func(o *Options) { o.Replaces = false }},
	} {
		dir := t.TempDir()
		lay(t, filepath.Join(dir, "backup"), inBackup)
		lay(t, filepath.Join(dir, "here"), wasThere)
		if err := Run(test.ctx, options(dir, test.more)); err == nil {
			t.Errorf("%s: it is restored", name)
		}
		same(t, has(t, filepath.Join(dir, "here")), wasThere)
	}
}

func leaveLog(_ context.Context, office string) (string, error) {
	return "", os.WriteFile(office+walSuffix, []byte("a log"), 0o600)
}

// A plan that no restore has written is neither carried out nor printed.
func TestForeignPlan(t *testing.T) {
	for name, text := range map[string]string{
		"another folder":       `{"Before":"/etc/office.before-1"}`,
		"a folder elsewhere":   `{"Before":"HERE/office.before-1/../../elsewhere"}`,
		"letters of terminals": `{"Before":"HERE/office.before-1","Done":"\u001b[2J"}`,
		"no plan":              `{`,
		"nothing":              `{}`,
	} {
		dir := t.TempDir()
		here := filepath.Join(dir, "here")
		lay(t, filepath.Join(dir, "backup"), inBackup)
		lay(t, here, wasThere)
		lay(t, here, map[string]string{"office.restoring/plan": strings.ReplaceAll(text, "HERE", here)})
		before := has(t, here)
		var out strings.Builder
		if err := Run(context.Background(), options(dir, func(o *Options) { o.Out = &out })); err == nil || out.Len() > 0 {
			t.Errorf("%s: %v, %q", name, err, out.String())
		}
		same(t, has(t, here), before)
	}
}

// From each state that a crash can leave, the same command ends well, and another one finishes the first and says so.
func TestInterrupted(t *testing.T) {
	plan := func(dir string) string {
		return `{"Backup":"` + dir + `/backup","Before":"` + dir + `/here/office.before-1","Done":"prepared","HasRecord":true}`
	}
	for name, files := range map[string]map[string]string{
		"nothing is moved": {
			"office": "old", "office-wal": "old log", "office.record/record.db": "old record",
			"office.restoring/office": "prepared", "office.restoring/office.record/record.db": "new record",
		},
		"the record is moved away": {
			"office": "old", "office-wal": "old log", "office.before-1/office": "LINK office", "office.before-1/office-wal": "LINK office-wal",
			"office.before-1/office.record/record.db": "old record",
			"office.restoring/office":                 "prepared", "office.restoring/office.record/record.db": "new record",
		},
		"the office is left, without its log": {
			"office": "old", "office.before-1/office": "LINK office", "office.before-1/office-wal": "old log",
			"office.before-1/office.record/record.db": "old record", "office.record/record.db": "new record",
			"office.restoring/office": "prepared",
		},
		"only the plan is left": {
			"office": "prepared", "office.before-1/office": "old", "office.before-1/office-wal": "old log",
			"office.before-1/office.record/record.db": "old record", "office.record/record.db": "new record",
		},
	} {
		for _, backup := range []string{"backup", "other"} {
			dir := t.TempDir()
			lay(t, filepath.Join(dir, "backup"), inBackup)
			lay(t, filepath.Join(dir, "other"), map[string]string{"office": "of another backup"})
			here := filepath.Join(dir, "here")
			lay(t, here, map[string]string{"office.numbers": "9", "office.restoring/plan": plan(dir)})
			lay(t, here, files)
			for path, text := range files {
				if to := strings.TrimPrefix(text, "LINK "); to != text {
					_ = os.Remove(filepath.Join(here, path))
					if err := os.Link(filepath.Join(here, to), filepath.Join(here, path)); err != nil {
						t.Fatal(err)
					}
				}
			}
			err := Run(context.Background(), options(dir, func(o *Options) { o.Backup = filepath.Join(dir, backup) }))
			if (err == nil) != (backup == "backup") {
				t.Errorf("%s, %s: %v", name, backup, err)
			}
			same(t, has(t, here), wanted)
		}
	}
}
