package office

import (
	"os"
	"path/filepath"
	"testing"
)

// What a verify that was killed has left is removed by the next one and by a start. One that is at work keeps its folder.
func TestSharedScratch(t *testing.T) {
	folder := t.TempDir()
	s := ScratchOf("test", filepath.Join(folder, "office"), folder)
	left := []string{s[0] + "-1", s[1] + "-2"}
	leave := func() {
		for _, path := range left {
			if err := os.Mkdir(path, 0o700); err != nil {
				t.Fatal(err)
			}
			if err := os.WriteFile(filepath.Join(path, "office"), []byte("secret"), 0o600); err != nil {
				t.Fatal(err)
			}
		}
	}
	isLeft := func(what string) {
		t.Helper()
		for _, path := range left {
			if _, err := os.Stat(path); !os.IsNotExist(err) {
				t.Errorf("%s leaves %s: %v", what, path, err)
			}
		}
	}
	leave()
	one, endOne, err := s.New(1)
	if err != nil {
		t.Fatal(err)
	}
	isLeft("another verify")
	other, endOther, err := s.New(1)
	if err != nil || one == other {
		t.Fatalf("%s and %s: %v", one, other, err)
	}
	leave()
	s.RemoveLeft()
	isLeft("a start")
	for _, path := range []string{one, other} {
		if _, err := os.Stat(path); err != nil {
			t.Errorf("at work: %v", err)
		}
	}
	endOne()
	endOther()
	if found, _ := filepath.Glob(s[0] + "*"); len(found) > 0 {
		t.Errorf("%v are left", found)
	}
}

// A copy never has the path of an earlier one. A front that is killed leaves `rbac check`, which goes on with its copy, and removes the log
// by the name when it ends: another copy at that path would lack what its log has.
func TestLaterCopy(t *testing.T) {
	folder := t.TempDir()
	s := ScratchOf("test", filepath.Join(folder, "office"), folder)
	first, end, err := s.New(1)
	if err != nil {
		t.Fatal(err)
	}
	end()
	second, end, err := s.New(1)
	if err != nil || first == second {
		t.Errorf("%v, %s", err, second)
	}
	end()
}
