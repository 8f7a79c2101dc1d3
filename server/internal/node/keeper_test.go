package node

import (
	"context"
	"errors"
	"path/filepath"
	"strings"
	"testing"

	"rbac-node/internal/ledger"
	"rbac-node/internal/office"
	"rbac-node/internal/programtest"
	"rbac-node/internal/recorded"
)

func TestNeedless(t *testing.T) {
	for _, one := range []struct {
		name     string
		all      []ledger.Member
		revision int64
	}{
		{"nobody", members(), 0},
		{"a node without a snapshot", members(member("a", at(9), at(5)), member("b")), 0},
		{"one snapshot", members(member("a", at(5))), 0},
		{"the last snapshot but one", members(member("a", at(9), at(5)), member("b", at(9), at(5))), 5},
		{"a node that is behind", members(member("a", at(12), at(9), at(5)), member("b", at(9), at(5))), 5},
		{"a node that has skipped a place", members(member("a", at(9), at(5)), member("b", at(10), at(7))), 5},
	} {
		t.Run(one.name, func(t *testing.T) {
			if revision := needless(one.all); revision != one.revision {
				t.Errorf("%d and not %d", revision, one.revision)
			}
		})
	}
}

// All nodes take snapshots at the same places, by commands and by bytes, from whichever place they start.
func TestPlaces(t *testing.T) {
	line := []byte(strings.Repeat("x", 100))
	var places []int64
	for _, start := range []int64{0, 4, 10} { // Each of the last two is a place.
		n, _ := newNode(t)
		n.options.SnapshotCommands, n.options.SnapshotBytes = 10, 750
		n.revision, n.count = start, 2*start
		var found []int64
		for revision := start + 1; revision <= 20; revision++ {
			n.apply(entryOf(revision, [][]byte{line, line}))
			if n.err != nil {
				t.Fatal(n.err)
			}
			if len(n.frozen) > 0 {
				found = append(found, (<-n.frozen).snapshot.Revision)
			}
		}
		if places == nil {
			places = found
		}
		for len(places) > 0 && places[0] <= start {
			places = places[1:]
		}
		if len(found) < 3 || len(found) != len(places) {
			t.Fatalf("from %d: %v and not %v", start, found, places)
		}
		for i := range found {
			if found[i] != places[i] {
				t.Fatalf("from %d: %v and not %v", start, found, places)
			}
		}
	}
}

// The office of a later place takes the place of one that waits: the newest always becomes a snapshot.
func TestTakeSnapshot(t *testing.T) {
	n, _ := newNode(t)
	n.options.SnapshotCommands = 2
	n.apply(entry(1, "a", "b"))
	n.apply(entry(2, "c", "d"))
	one := <-n.frozen
	if lines := strings.Split(string(one.lines), "\n"); len(lines) != 5 || lines[3] != `{"fn":"addUser","user":"d"}` {
		t.Errorf("the lines are %s", one.lines)
	}
	if one.snapshot.Revision != 2 || one.snapshot.Count != 4 || n.err != nil || len(n.frozen) > 0 {
		t.Errorf("%+v, %v", one.snapshot, n.err)
	}
}

// A snapshot that fails ends no node. The node says so until it has one of a later place, and leaves nothing of what failed.
func TestFailedSnapshot(t *testing.T) {
	n, log := newNode(t)
	n.options.SnapshotCommands = 1
	n.apply(entry(1, "a")) // There is no program to make a file.
	if n.err != nil || len(n.frozen) != 1 {
		t.Fatalf("%v", n.err)
	}
	running(t, n.maintain)
	eventually(t, "it has failed", n.isFailing.Load)
	eventually(t, "it is registered", func() bool { return log.registrations() > 0 })
	if left, err := filepath.Glob(filepath.Join(office.FolderIn(n.options.Data), "*")); err != nil || len(left) > 0 {
		t.Errorf("%v, %v is left", err, left)
	}
	n.isFailing.Store(false)
	n.apply(entry(2, "b"))
	if n.err != nil || n.applied.Load().Revision != 2 {
		t.Errorf("it doesn't go on: %v", n.err)
	}
	eventually(t, "that of the next place is tried", n.isFailing.Load)
}

// A node whose office isn't what the program makes of its rows ends.
func TestWrongOffice(t *testing.T) {
	for name, spoil := range map[string]func(one *frozen){
		"another digest":    func(one *frozen) { one.snapshot.Digest = strings.Repeat("0", 64) },
		"a row of no user":  func(one *frozen) { one.lines = append(one.lines, `{"fn":"lockUserAccount","user":"x"}`...) },
		"nothing is wrong ": nil,
	} {
		t.Run(name, func(t *testing.T) {
			n, _ := newNode(t)
			store, err := office.Open(t.TempDir(), programtest.Path(t))
			if err != nil {
				t.Fatal(err)
			}
			n.store, n.options.Program = store, programtest.Path(t)
			n.apply(entry(1, "a"))
			one, err := n.freeze()
			if err != nil {
				t.Fatal(err)
			}
			if spoil == nil {
				if err := n.finish(context.Background(), one); err != nil {
					t.Error(err)
				}
				return
			}
			spoil(&one)
			n.frozen <- one
			if err := n.maintain(context.Background()); !errors.Is(err, office.ErrOther) {
				t.Errorf("%v", err)
			}
		})
	}
}

// A record whose entries wait for room.
type waitingRecord struct{ recorded.Follower }

func (waitingRecord) Why() string                { return "the disk is full" }
func (waitingRecord) HasBegun() bool             { return true }
func (waitingRecord) Room()                      {}
func (waitingRecord) Add(recorded.Command) int64 { return 0 }

// While entries of the record wait for room, no snapshot takes that up.
func TestNoSnapshotWithoutRoom(t *testing.T) {
	n, _ := newNode(t)
	n.options.SnapshotCommands, n.options.Record = 1, waitingRecord{}
	n.apply(entry(1, "a"))
	if n.err != nil || !n.isFailing.Load() || len(n.frozen) > 0 || n.Health().Record == "" {
		t.Errorf("%v, %d offices", n.err, len(n.frozen))
	}
}

// A full etcd refuses registrations: the node goes on, and registers as soon as it can.
func TestKeepWithFullLog(t *testing.T) {
	n, log := newNode(t)
	log.setFull(true)
	running(t, n.maintain)
	eventually(t, "it is refused", func() bool { return log.refusals.Load() > 0 })
	log.setFull(false)
	eventually(t, "it is registered", func() bool { return log.registrations() > 0 })
}
