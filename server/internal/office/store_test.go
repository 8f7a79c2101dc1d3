package office

import (
	"context"
	"crypto/sha256"
	"errors"
	"fmt"
	"net/http"
	"net/http/httptest"
	"os"
	"path/filepath"
	"testing"

	"rbac-node/internal/programtest"
)

func newStore(t *testing.T) *Store {
	s, err := Open(filepath.Join(t.TempDir(), "a folder?"), programtest.Path(t))
	if err != nil {
		t.Fatal(err)
	}
	return s
}

// add makes a snapshot of an empty office.
func add(t *testing.T, s *Store, revision int64) Snapshot {
	made := filepath.Join(t.TempDir(), "office")
	if err := Run(context.Background(), s.program, "init", made); err != nil {
		t.Fatal(err)
	}
	file, err := s.Begin(made)
	if err != nil {
		t.Fatal(err)
	}
	meta, err := s.Finish(context.Background(), file, Snapshot{Revision: revision, Count: 7})
	if err != nil {
		t.Fatal(err)
	}
	return meta
}

func TestStore(t *testing.T) {
	s := newStore(t)
	if found, err := s.List(); len(found) > 0 || err != nil {
		t.Errorf("an empty store has %v, %v", found, err)
	}
	for _, revision := range []int64{8, 9, 10, 100} {
		add(t, s, revision)
	}
	found, err := s.List()
	if err != nil || len(found) != maxSnapshots || found[0].Revision != 100 || found[2].Revision != 9 {
		t.Errorf("there are %+v, %v", found, err)
	}
	if newest := found[0]; newest.Count != 7 || newest.Digest == "" {
		t.Errorf("the newest is %+v", newest)
	}
	if _, err := s.Begin(s.Path(found[0])); err != nil {
		t.Fatal(err)
	}
	if s, err = Open(filepath.Dir(s.dir.Name()), s.program); err != nil {
		t.Fatal(err)
	}
	if left, _ := filepath.Glob(filepath.Join(s.dir.Name(), unfinishedPrefix+"*")); len(left) > 0 {
		t.Errorf("%v is left", left)
	}
}

func TestNames(t *testing.T) {
	for _, s := range []Snapshot{
		{Revision: 12, Count: 7, Digest: "0a"},
		{Revision: 12, Count: 7, Digest: "0a", Copied: true},
		{Revision: 12, Count: 7, Digest: "0a", Policy: 9, Record: "5:0b"},
		{Revision: 12, Count: 7, Digest: "0a", Policy: 9, First: 8, Record: "5:0b", Copied: true},
		{Revision: 12, Count: 7, Digest: "0a", Record: NoRecord, Copied: true},
	} {
		if found, err := parse(nameOf(s)); err != nil || found != s {
			t.Errorf("%s is read as %+v, %v", nameOf(s), found, err)
		}
		for _, name := range []string{nameOf(s) + "-wal", nameOf(s) + "-shm", nameOf(s) + "-journal", "x" + nameOf(s)} {
			if found, err := parse(name); err == nil {
				t.Errorf("%s is read as %+v", name, found)
			}
		}
	}
}

// Files of SQLite beside a snapshot, which somebody reads, are no snapshots: none makes a node differ from others or delete an older one.
func TestFilesBeside(t *testing.T) {
	s := newStore(t)
	kept := add(t, s, 8)
	for _, revision := range []int64{9, 10} {
		for _, suffix := range []string{"-wal", "-shm"} {
			if err := os.WriteFile(s.Path(add(t, s, revision))+suffix, nil, 0o600); err != nil {
				t.Fatal(err)
			}
		}
	}
	if found, err := s.List(); err != nil || len(found) != maxSnapshots || found[2] != kept {
		t.Errorf("there are %+v, %v", found, err)
	}
}

func acceptAny(Snapshot) error { return nil }

func TestFetch(t *testing.T) {
	from, to := newStore(t), newStore(t)
	server := httptest.NewServer(from)
	defer server.Close()
	if _, err := to.Fetch(context.Background(), server.Client(), server.URL, 0, acceptAny); err == nil {
		t.Error("there was nothing to fetch")
	}
	wanted := add(t, from, 12)
	wanted.Copied = true
	given, err := to.Fetch(context.Background(), server.Client(), server.URL, 0, acceptAny)
	if err != nil || given != wanted {
		t.Errorf("fetched %+v, %v", given, err)
	}
	add(t, from, 15)
	given, err = newStore(t).Fetch(context.Background(), server.Client(), server.URL, 12, acceptAny)
	if err != nil || given != wanted {
		t.Errorf("asked for an earlier one, it has fetched %+v, %v", given, err)
	}
	if given, err = newStore(t).Fetch(context.Background(), server.Client(), server.URL, 13, acceptAny); err == nil {
		t.Errorf("asked for one that is not there, it has fetched %+v", given)
	}
}

// A snapshot that the caller doesn't accept is not even read.
func TestFetchAsksFirst(t *testing.T) {
	from, to := newStore(t), newStore(t)
	offered, contested := add(t, from, 12), errors.New("contested")
	server := httptest.NewServer(from)
	defer server.Close()
	_, err := to.Fetch(context.Background(), server.Client(), server.URL, 0, func(s Snapshot) error {
		if s != offered {
			t.Errorf("offered is %+v and not %+v", s, offered)
		}
		return contested
	})
	if found, _ := to.List(); !errors.Is(err, contested) || len(found) > 0 {
		t.Errorf("%v, and the store has %v", err, found)
	}
}

// A snapshot that was fetched is offered to others like any other, but its own node knows that it is a copy.
func TestCopied(t *testing.T) {
	first, second, third := newStore(t), newStore(t), newStore(t)
	add(t, first, 12)
	for _, step := range []struct{ from, to *Store }{{first, second}, {second, third}} {
		server := httptest.NewServer(step.from)
		_, err := step.to.Fetch(context.Background(), server.Client(), server.URL, 0, func(s Snapshot) error {
			if s.Copied {
				t.Error("it is offered as a copy")
			}
			return nil
		})
		server.Close()
		if found, _ := step.to.List(); err != nil || len(found) != 1 || !found[0].Copied {
			t.Errorf("%v, and the store has %+v", err, found)
		}
	}
}

// A snapshot that does not match its name is not accepted.
func TestFetchRefuses(t *testing.T) {
	from, to := newStore(t), newStore(t)
	path := from.Path(add(t, from, 12))
	for what, change := range map[string]http.HandlerFunc{
		"it is truncated": func(w http.ResponseWriter, _ *http.Request) {
			w.Header().Set(nameField, "12-7-00")
			_, _ = w.Write([]byte("SQLite format 3"))
		},
		"the digest is another": func(w http.ResponseWriter, r *http.Request) {
			w.Header().Set(nameField, "12-7-00")
			http.ServeFile(w, r, path)
		},
		"it has no name": func(w http.ResponseWriter, r *http.Request) { http.ServeFile(w, r, path) },
	} {
		server := httptest.NewServer(change)
		if _, err := to.Fetch(context.Background(), server.Client(), server.URL, 0, acceptAny); err == nil {
			t.Errorf("%s: it was accepted", what)
		}
		server.Close()
		if found, _ := to.List(); len(found) > 0 {
			t.Errorf("%s: the store has it", what)
		}
	}
}

// TestRestore tells a snapshot that is damaged from one that can't be read now, as when no more files can be opened.
func TestRestore(t *testing.T) {
	s := newStore(t)
	for name, damage := range map[string]func(path string) error{
		"":                func(string) error { return nil },
		"no office":       func(path string) error { return os.WriteFile(path, []byte("another file"), 0o600) },
		"shorter":         func(path string) error { return os.Truncate(path, 4096) },
		"empty":           func(path string) error { return os.Truncate(path, 0) },
		"can't be opened": func(path string) error { _ = os.Remove(path); return os.Mkdir(path, 0o700) },
	} {
		snapshot := add(t, s, 8)
		if err := damage(s.Path(snapshot)); err != nil {
			t.Fatal(err)
		}
		err := s.Restore(context.Background(), snapshot, filepath.Join(t.TempDir(), "office"))
		if (err == nil) != (name == "") || errors.Is(err, ErrOther) != (name != "" && name != "can't be opened") {
			t.Errorf("%s: %v", name, err)
		}
		if err := os.RemoveAll(s.Path(snapshot)); err != nil {
			t.Fatal(err)
		}
	}
}

// What a crash of an earlier version has left in memory is removed at a start, with the names of sessions, and not that of another node.
func TestLeftByEarlier(t *testing.T) {
	data := t.TempDir()
	own, other := sha256.Sum256([]byte(FolderIn(data))), sha256.Sum256([]byte(FolderIn(data+"x")))
	for _, sum := range [][sha256.Size]byte{own, other} {
		folder := fmt.Sprintf("%s/rbac-node-%d-%x-7", memory, os.Getuid(), sum)
		if err := os.Mkdir(folder, 0o700); err != nil {
			t.Fatal(err)
		}
		defer os.RemoveAll(folder)
		if _, err := Open(data, ""); err != nil {
			t.Fatal(err)
		}
		if _, err := os.Stat(folder); os.IsNotExist(err) != (sum == own) {
			t.Errorf("%s: %v", folder, err)
		}
	}
}
