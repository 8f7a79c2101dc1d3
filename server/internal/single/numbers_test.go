package single

import (
	"os"
	"path/filepath"
	"testing"
	"time"

	"rbac-node/internal/disk"
)

// Numbers begin behind those that were reserved, or with the time if nobody knows of any, and more are reserved before they are used.
func TestNumbers(t *testing.T) {
	o := &Office{Options: Options{File: filepath.Join(t.TempDir(), "office")}}
	count := func() int64 {
		t.Helper()
		if err := o.count(); err != nil {
			t.Fatal(err)
		}
		return o.numbers().All
	}
	begin := time.Now().Unix() << 20
	first := count()
	if first < begin || o.numbers().Policy != first {
		t.Errorf("the first number is %d", first)
	}
	if second := count(); second <= first+block {
		t.Errorf("%d comes after %d", second, first)
	}
	if err := os.WriteFile(o.numbering.path, []byte("7"), 0o600); err != nil {
		t.Fatal(err)
	}
	third := count()
	if third == first {
		t.Errorf("after a file of long ago: %d", third)
	}
	o.numbering.keepAhead(third)
	if used, err := o.numbering.read(); err != nil || used != third+block {
		t.Errorf("%d is reserved, %v", used, err)
	}
	next := third + block - 1
	o.numbering.keepAhead(next)
	for o.numbering.isReserving.Load() {
		time.Sleep(time.Millisecond)
	}
	if used, err := o.numbering.read(); err != nil || used != next+block {
		t.Errorf("%d is reserved near the end, %v", used, err)
	}
	if err := os.WriteFile(o.numbering.path, []byte("many"), 0o600); err != nil {
		t.Fatal(err)
	}
	if err := o.count(); err == nil {
		t.Error("a file without a number is accepted")
	}
}

// On a full disk an office starts, and numbers are reserved before the first command.
func TestNumbersOnFullDisk(t *testing.T) {
	o := &Office{Options: Options{File: filepath.Join(t.TempDir(), "office")}}
	written := o.File + ".numbers.new"
	if err := os.Symlink("/dev/full", written); err != nil {
		t.Fatal(err)
	}
	if err := o.count(); err != nil {
		t.Fatalf("a start: %v", err)
	}
	if err := o.numbering.require(o.numbers().All); !disk.IsFull(err) {
		t.Errorf("a command: %v", err)
	}
	if err := os.Remove(written); err != nil {
		t.Fatal(err)
	}
	if err := o.numbering.require(o.numbers().All); err != nil {
		t.Errorf("a command once there is room: %v", err)
	}
	if used, err := o.numbering.read(); err != nil || used != o.numbers().All+block {
		t.Errorf("%d is reserved, %v", used, err)
	}
}
