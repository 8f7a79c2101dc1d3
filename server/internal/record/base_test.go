package record

import (
	"context"
	"errors"
	"fmt"
	"path/filepath"
	"testing"

	"rbac/clients/go/rbacoffice"
)

// TestNoCopyLeft has no copy of the office, with its names of sessions, after its rows were read. One without a log is read as it is.
func TestNoCopyLeft(t *testing.T) {
	b := open(t)
	b.answered(addAnn, addRole, assign, login)
	plain, err := sumsOf(context.Background(), b.Program, b.Office, filepath.Join(t.TempDir(), "nowhere", "copy"))
	if err != nil {
		t.Fatal(err)
	}
	copied := filepath.Join(t.TempDir(), "copy")
	db, err := openFile(b.Office, "_journal_mode=WAL")
	if err == nil {
		defer db.Close()
		_, err = db.Exec("INSERT INTO name_row VALUES (1, 'logged')") // It is in the log alone.
	}
	if err != nil {
		t.Fatal(err)
	}
	logged, err := sumsOf(context.Background(), b.Program, b.Office, copied)
	if err != nil || logged.Counts[rbacoffice.Users] != plain.Counts[rbacoffice.Users]+1 {
		t.Errorf("%v, %v and %v", err, logged.Counts, plain.Counts)
	}
	if found, _ := filepath.Glob(copied + "*"); len(found) > 0 {
		t.Errorf("%v are left", found)
	}
}

// An error over a copy has the same text whatever the path of the copy is.
func TestCopyError(t *testing.T) {
	texts := map[string]bool{}
	for _, scratch := range []string{"/dev/shm/start-1", "/dev/shm/start-22"} {
		err := error(&copyError{err: fmt.Errorf("check %s/office: %w of %s/rerun", scratch, errDiffers, scratch), scratch: scratch, office: "/o/office"})
		if !errors.Is(err, errDiffers) {
			t.Error(err)
		}
		texts[err.Error()] = true
	}
	if len(texts) != 1 || !texts["check /o/office: "+errDiffers.Error()+" of a copy/rerun"] {
		t.Error(texts)
	}
}
