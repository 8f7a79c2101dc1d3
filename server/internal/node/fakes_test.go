package node

import (
	"context"
	"errors"
	"fmt"
	"io"
	"strings"
	"sync"
	"sync/atomic"
	"testing"
	"time"

	"github.com/prometheus/client_golang/prometheus"

	"rbac-node/internal/api"
	"rbac-node/internal/ledger"
	"rbac-node/internal/logs"
	"rbac-node/internal/office"
	"rbac-node/internal/state"
)

// A fakeLog is a log in memory. Its Register fails if it is full.
type fakeLog struct {
	mutex    sync.Mutex
	revision int64
	state    ledger.State
	isFull   bool
	refusals atomic.Int64
	// done is what the node had done at the last read of the head, and lost why that fails.
	done       ledger.Place
	lost       error
	registered []ledger.Member
	// lives are the runs that nodes have said, and unnamed why a name is refused.
	lives   []ledger.Life
	unnamed error
	entries chan ledger.Entry
	// held holds up what is appended until it is closed, unless it is nil. arrived gets what is held up.
	held, arrived chan struct{}
}

func newFakeLog() *fakeLog { return &fakeLog{entries: make(chan ledger.Entry, 100)} }

var errFull = errors.New("no space")

func (l *fakeLog) Append(_ context.Context, id string, units []ledger.Unit) (entry ledger.Entry, before int64, err error) {
	if l.held != nil {
		l.arrived <- struct{}{}
		<-l.held
	}
	l.mutex.Lock()
	defer l.mutex.Unlock()
	if l.isFull {
		return entry, 0, errFull
	}
	l.revision++
	return ledger.Entry{Place: ledger.Place{Revision: l.revision, ID: id}, Units: units}, l.revision - 1, nil
}

func (l *fakeLog) Head(_ context.Context, done ledger.Place) (int64, error) {
	l.mutex.Lock()
	defer l.mutex.Unlock()
	l.done = done
	return l.revision, l.lost
}

func (l *fakeLog) Follow(ctx context.Context, _ int64, deliver func(ledger.Entry) error) error {
	for {
		select {
		case entry := <-l.entries:
			if err := deliver(entry); err != nil {
				return err
			}
		case <-ctx.Done():
			return ctx.Err()
		}
	}
}

func (l *fakeLog) State(context.Context) (ledger.State, error) {
	l.mutex.Lock()
	defer l.mutex.Unlock()
	return l.state, nil
}

func (l *fakeLog) Trim(context.Context, ledger.State, int64) (int64, error) { return 0, nil }

func (l *fakeLog) Beginning(context.Context) (ledger.Beginning, error) {
	return ledger.Beginning{First: 1000}, nil
}

func (l *fakeLog) Register(_ context.Context, member ledger.Member) error {
	l.mutex.Lock()
	defer l.mutex.Unlock()
	if l.isFull {
		l.refusals.Add(1)
		return errFull
	}
	l.registered = append(l.registered, member)
	return nil
}

func (l *fakeLog) UseLeader(context.Context) {}

// Live fails as the log says.
func (l *fakeLog) Live(_ context.Context, life ledger.Life) error {
	l.mutex.Lock()
	defer l.mutex.Unlock()
	l.lives = append(l.lives, life)
	return l.unnamed
}

func (l *fakeLog) Leave(context.Context) {}

// setFull makes a log refuse what it is asked to keep, or not.
func (l *fakeLog) setFull(isFull bool) {
	l.mutex.Lock()
	defer l.mutex.Unlock()
	l.isFull = isFull
}

func (l *fakeLog) registrations() int {
	l.mutex.Lock()
	defer l.mutex.Unlock()
	return len(l.registered)
}

// newNode returns a node over a fake log, with an empty office.
func newNode(t *testing.T) (*Node, *fakeLog) {
	log := newFakeLog()
	n, err := New(Options{
		Name: "a", Data: t.TempDir(), Scratch: t.TempDir(), Program: "/nonexistent",
		SnapshotCommands: 1000, SnapshotBytes: 1 << 20, AnswerTimeout: 5 * time.Second, HangTimeout: time.Minute,
	}, log, logs.New(io.Discard), prometheus.NewRegistry())
	if err != nil {
		t.Fatal(err)
	}
	if err := n.state.Begin(nil, true); err != nil {
		t.Fatal(err)
	}
	return n, log
}

// usersOf returns the users of the office of a node.
func usersOf(t *testing.T, n *Node) string {
	t.Helper()
	var found []string
	if err := n.state.Look(func(v *state.View) { found = v.Users() }); err != nil {
		t.Fatal(err)
	}
	return strings.Join(found, " ")
}

// question asks for what any office knows.
const question = `{"fn":"ssdRoleSets"}`

// running runs parts of a node until the test ends.
func running(t *testing.T, parts ...func(context.Context) error) {
	ctx, cancel := context.WithCancel(context.Background())
	var group sync.WaitGroup
	for _, part := range parts {
		part := part
		group.Add(1)
		go func() { defer group.Done(); _ = part(ctx) }()
	}
	t.Cleanup(func() { cancel(); group.Wait() })
}

// eventually waits until something holds.
func eventually(t *testing.T, what string, holds func() bool) {
	for deadline := time.Now().Add(20 * time.Second); !holds(); time.Sleep(time.Millisecond) {
		if time.Now().After(deadline) {
			t.Fatalf("not in time: %s", what)
		}
	}
}

// entry returns an entry that adds users.
func entry(revision int64, names ...string) ledger.Entry { return entryOf(revision, users(names...)) }

func entryOf(revision int64, lines [][]byte) ledger.Entry {
	u := ledger.Unit{Lines: lines}
	return ledger.Entry{Place: ledger.Place{Revision: revision, ID: fmt.Sprint(revision)}, Units: []ledger.Unit{u}}
}

// of returns a batch of one call.
func of(kind api.Kind, line string) api.Batch {
	call := callOf([]byte(line))
	call.Kind = kind
	if kind == api.Local {
		call.Kind = api.Question
	}
	return api.NewBatch(kind, call)
}

func member(name string, snapshots ...office.Snapshot) ledger.Member {
	return ledger.Member{Name: name, Snapshots: snapshots}
}

func members(all ...ledger.Member) []ledger.Member { return all }

func at(revision int64) office.Snapshot { return office.Snapshot{Revision: revision, Digest: "d"} }

// other is a snapshot with other rows, and copy one that was fetched.
func other(s office.Snapshot) office.Snapshot {
	s.Digest = "e"
	return s
}

func fetched(s office.Snapshot) office.Snapshot {
	s.Copied = true
	return s
}
