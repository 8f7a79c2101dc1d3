package record

import (
	"context"
	"errors"
	"io"
	"os"
	"strings"
	"testing"

	"rbac/clients/go/rbacoffice"

	"rbac-node/internal/logs"
	"rbac-node/internal/office"
)

// The newest snapshot of a backup may be lost, and the one before it be older than the part at hand. No command between them is left out,
// and a record without some of them is refused.
func TestCarryOverParts(t *testing.T) {
	m := newMachine(t, "")
	m.PartEntries = 1
	m.resume("", false)
	m.begin()
	m.do(addAnn, addRole)
	m.snapshot(7)
	m.do(assign, addBob)
	newest, head := m.snapshot(8)
	if names := strings.Join(m.divided(newest, head), " "); names != "record-1-5.db" {
		t.Fatalf("it has %q", names)
	}
	m.do(`{"fn":"deleteUser","user":"bob"}`)
	m.flush("NORMAL")
	if err := os.Remove(newest); err != nil {
		t.Fatal(err)
	}
	carried := func(leavesOut bool) (Carried, error) {
		return Carry(context.Background(), Options{Program: m.Program, Dir: DirIn(t.TempDir()), Log: logs.New(io.Discard)}, m.data, leavesOut)
	}
	c, err := carried(false)
	if err != nil || c.Later != 3 {
		t.Fatalf("%+v, %v", c, err)
	}
	rows, err := readRows(context.Background(), c.Office, office.OfCopy, true)
	if err != nil || rows.sums().Counts[rbacoffice.Assignments] != 1 || rows.sums().Counts[rbacoffice.Users] != 1 {
		t.Errorf("%+v, %v", rows, err)
	}
	if c, err := carried(true); err != nil || c.Later != 3 {
		t.Errorf("%+v, %v", c, err)
	}
	if err := os.Remove(partPath(m.dir, 1, 5)); err != nil {
		t.Fatal(err)
	}
	if c, err := carried(false); err == nil || !strings.Contains(err.Error(), "entry 3 is not the one that the snapshot has") {
		t.Errorf("%+v, %v", c, err)
	}
}

// A head signed after the backup was made is reported as given up by the restore, not as tampering, and signing can continue.
func TestCarriedHeads(t *testing.T) {
	m := newMachine(t, "")
	m.resume("", false)
	m.begin()
	m.do(addAnn)
	m.snapshot(7)
	m.flush("NORMAL")
	data := t.TempDir()
	c, err := Carry(context.Background(), Options{Program: m.Program, Dir: DirIn(data), Log: logs.New(io.Discard)}, m.data, false)
	if err != nil {
		t.Fatal(err)
	}
	m.do(addRole)
	gone, err := ParseHead(m.Added())
	if err != nil || gone.N != c.Head.N {
		t.Fatalf("%v and %v, %v", gone, c.Head, err)
	}
	other := &machine{T: t, data: data}
	other.start(c.Office)
	other.resume(c.Head.String(), false)
	other.do(addBob)
	other.flush("NORMAL")
	other.snapshot(9)
	if said, err := other.verify(&gone); !errors.Is(err, ErrMissing) || !strings.Contains(said, "the restore at entry 3 gave them up") {
		t.Errorf("%s%v", said, err)
	}
	links, err := other.Links(context.Background(), 2)
	if err != nil || len(links.Entries) != 2 || !saysRestored(links.Entries[0]) || saysRestored(links.Entries[1]) {
		t.Errorf("%+v, %v", links, err)
	}
}
