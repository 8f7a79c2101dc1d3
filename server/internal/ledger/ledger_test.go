package ledger

import (
	"context"
	"errors"
	"fmt"
	"io"
	"net"
	"os/exec"
	"path"
	"sync/atomic"
	"testing"
	"time"

	"go.etcd.io/etcd/clientv3"

	"rbac-node/internal/logs"
	"rbac-node/internal/office"
)

// newLedger returns the ledger of an etcd of its own.
func newLedger(t *testing.T, words ...string) *Ledger {
	if _, err := exec.LookPath("etcd"); err != nil {
		t.Skip("etcd is not installed")
	}
	var urls [2]string
	for i := range urls {
		listener, err := net.Listen("tcp", "127.0.0.1:0")
		if err != nil {
			t.Fatal(err)
		}
		urls[i] = "http://" + listener.Addr().String()
		listener.Close()
	}
	etcd := exec.Command("etcd", append([]string{"--data-dir", t.TempDir(), "--listen-client-urls", urls[0], "--advertise-client-urls",
		urls[0], "--listen-peer-urls", urls[1], "--initial-advertise-peer-urls", urls[1], "--initial-cluster", "default=" + urls[1],
	}, words...)...)
	if err := etcd.Start(); err != nil {
		t.Fatal(err)
	}
	t.Cleanup(func() { _ = etcd.Process.Kill(); _ = etcd.Wait() })
	client, err := clientv3.New(clientv3.Config{Endpoints: urls[:1], DialTimeout: 10 * time.Second})
	if err != nil {
		t.Fatal(err)
	}
	t.Cleanup(func() { client.Close() })
	return New(client, "test", logs.New(io.Discard))
}

// units returns units as somebody asks for them.
func units(lines ...string) (all []Unit) {
	for _, line := range lines {
		all = append(all, Unit{Caller: "token:a", At: "2026-11-27T09:00:00.000Z", Reason: "ticket", Lines: [][]byte{[]byte(line)}})
	}
	return all
}

func mustAppend(t *testing.T, l *Ledger, id string) {
	if _, _, err := l.Append(context.Background(), id, units(id, id+"2")); err != nil {
		t.Fatalf("append of %s: %v", id, err)
	}
}

// all returns what a follower delivers up to the head.
func all(t *testing.T, l *Ledger, after int64) ([]Entry, error) {
	ctx, cancel := context.WithTimeout(context.Background(), 20*time.Second)
	defer cancel()
	head, err := l.Head(ctx, Place{})
	if err != nil {
		t.Fatal(err)
	}
	var found []Entry
	done := errors.New("done")
	err = l.Follow(ctx, after, func(entry Entry) error {
		found = append(found, entry)
		if entry.Revision == head {
			return done
		}
		return nil
	})
	if errors.Is(err, done) {
		err = nil
	}
	return found, err
}

func TestAppendOnce(t *testing.T) {
	l, ctx := newLedger(t), context.Background()
	first, _, err := l.Append(ctx, "a", units("a", "a2"))
	if err != nil {
		t.Fatal(err)
	}
	second, before, err := l.Append(ctx, "b", units("b"))
	if second.Revision <= first.Revision || before != first.Revision || err != nil {
		t.Errorf("an append after %d: %d, %d, %v", first.Revision, second.Revision, before, err)
	}
	if again, _, err := l.Append(ctx, "a", units("a", "a2")); again.Revision != 0 || err != nil {
		t.Errorf("an append again: %d, %v", again.Revision, err)
	}
	entries, err := all(t, l, 0)
	if err != nil || len(entries) != 2 || entries[0].ID != "a" || entries[1].ID != "b" {
		t.Fatalf("the log has %v, %v", entries, err)
	}
	if text := string(entries[0].Lines()[1]); len(entries[0].Lines()) != 2 || text != "a2" {
		t.Errorf("the second line is %s", text)
	}
}

// head returns the revision of the newest entry.
func head(t *testing.T, l *Ledger) int64 {
	revision, err := l.Head(context.Background(), Place{})
	if err != nil {
		t.Fatal(err)
	}
	return revision
}

func mustState(t *testing.T, l *Ledger) State {
	s, err := l.State(context.Background())
	if err != nil {
		t.Fatal(err)
	}
	return s
}

// mustTrim trims the log, and checks whether that begins a generation.
func mustTrim(t *testing.T, l *Ledger, needless int64, begins bool) {
	before := mustState(t, l)
	floor, err := l.Trim(context.Background(), before, needless)
	after := mustState(t, l)
	if err != nil || (after.generation > before.generation) != begins || begins && floor != before.generation || after.Floor < floor {
		t.Fatalf("a trim of what is needless up to %d: %d, %v, %+v and then %+v", needless, floor, err, before, after)
	}
}

// An attempt that is delivered after its entry was trimmed doesn't append again.
func TestAppendAfterTrim(t *testing.T) {
	l, ctx := newLedger(t), context.Background()
	late := New(l.client, "test", logs.New(io.Discard))
	mustAppend(t, l, "a")
	mustTrim(t, l, 0, false)
	old := mustState(t, l)
	mustTrim(t, l, head(t, l), true)
	if again, err := l.Trim(ctx, old, head(t, l)); again != 0 || err != nil {
		t.Errorf("a trim that another node has just done: %d, %v", again, err)
	}
	// In an earlier generation that still exists it counts as appended. What is in none of them is put into the newest.
	if again, _, err := late.Append(ctx, "a", units("a")); again.Revision != 0 || err != nil {
		t.Errorf("a late attempt: %d, %v", again.Revision, err)
	}
	mustAppend(t, New(l.client, "test", logs.New(io.Discard)), "b")
	late.generation.Store(0)
	mustTrim(t, l, head(t, l), true)
	if _, _, err := late.Append(ctx, "a", units("a")); !errors.Is(err, ErrTrimmed) {
		t.Errorf("an attempt after its generation was deleted: %v", err)
	}
	mustAppend(t, late, "c")
	found, err := all(t, l, mustState(t, l).Floor)
	if err != nil || len(found) == 0 || found[len(found)-1].ID != "c" || found[0].ID == "a" {
		t.Errorf("the log has %v, %v", found, err)
	}
}

// A compaction of etcd's history loses no entry; one that was trimmed is missing.
func TestFollowAfterCompaction(t *testing.T) {
	const part = maxPageEntries
	l, ctx := newLedger(t), context.Background()
	for i := 0; i < 3*part; i++ {
		if i == 2*part {
			mustTrim(t, l, head(t, l), true)
		}
		mustAppend(t, l, fmt.Sprintf("e%d", i))
	}
	before, err := all(t, l, 0)
	if err != nil {
		t.Fatal(err)
	}
	if _, err := l.client.Compact(ctx, before[len(before)-1].Revision); err != nil {
		t.Fatal(err)
	}
	after, err := all(t, l, 0)
	if err != nil || len(after) != 3*part {
		t.Fatalf("%d entries after a compaction, %v", len(after), err)
	}
	for i, entry := range after {
		if entry.ID != before[i].ID || entry.Revision != before[i].Revision {
			t.Fatalf("entry %d is %v and not %v", i, entry, before[i])
		}
	}
	// Nobody needs what existed when the second generation began.
	mustTrim(t, l, before[2*part].Revision, true)
	if floor := mustState(t, l).Floor; floor <= before[2*part-1].Revision || floor >= before[2*part].Revision {
		t.Fatalf("the floor is %d", floor)
	}
	if _, err := all(t, l, before[50].Revision); !errors.Is(err, ErrTrimmed) {
		t.Errorf("what was trimmed: %v", err)
	}
	if rest, err := all(t, l, before[2*part].Revision); err != nil || len(rest) != part-1 {
		t.Errorf("%d entries are left, %v", len(rest), err)
	}
}

// A countingKV counts the transactions that begin.
type countingKV struct {
	clientv3.KV
	count atomic.Int64
}

func (k *countingKV) Txn(ctx context.Context) clientv3.Txn {
	k.count.Add(1)
	return k.KV.Txn(ctx)
}

// Who follows from a place near the end reads no keys of what is before, unless etcd's history lacks what comes after.
func TestFollowFromPlace(t *testing.T) {
	l, ctx := newLedger(t), context.Background()
	for i := 0; i < 4*maxPageKeys; i++ {
		mustAppend(t, l, fmt.Sprintf("e%d", i))
	}
	before, err := all(t, l, 0)
	if err != nil {
		t.Fatal(err)
	}
	counted := &countingKV{KV: l.kv}
	l.kv = counted
	from := len(before) - 10
	two := []office.Snapshot{{Revision: before[from+2].Revision}, {Revision: before[from+1].Revision}}
	for _, one := range []struct {
		name  string
		least int64
		has   []office.Snapshot
	}{{"far behind", 6, two}, {"from the history", 2, two[:1]}, {"from the keys", 6, nil}} {
		if err := l.Register(ctx, Member{Name: "a", Snapshots: one.has}); err != nil {
			t.Fatal(err)
		}
		counted.count.Store(0)
		rest, err := all(t, l, before[from].Revision)
		if err != nil || len(rest) != 9 || rest[8].ID != before[from+9].ID {
			t.Fatalf("%s: %d entries, %v", one.name, len(rest), err)
		}
		if count := counted.count.Load(); count < one.least || one.least == 2 && count > 2 { // One is that of the head.
			t.Errorf("%s: %d transactions", one.name, count)
		}
		if len(one.has) == 1 { // Then it has no history.
			if _, err := l.client.Compact(ctx, before[from+5].Revision); err != nil {
				t.Fatal(err)
			}
		}
	}
}

// After a request that failed they go to all members, and then to the leader again.
func TestUseLeader(t *testing.T) {
	l, ctx := newLedger(t), context.Background()
	head(t, l)
	l.members = append([]string{"http://127.0.0.1:1"}, l.members...)
	over, cancel := context.WithCancel(ctx)
	cancel()
	if _, err := l.Head(over, Place{}); err == nil {
		t.Error("a read after the end of its context")
	}
	if used := l.client.Endpoints(); len(used) != 2 {
		t.Errorf("after a failure used are %v", used)
	}
	head(t, l)
	l.UseLeader(ctx)
	if used := l.client.Endpoints(); len(used) != 1 || used[0] != l.members[1] {
		t.Errorf("used are %v", used)
	}
}

// A read of the head fails if the log hasn't what was done: it ends before, or has something else there. What was trimmed was done.
func TestWentBack(t *testing.T) {
	l, ctx := newLedger(t), context.Background()
	adopted, err := l.Adopt(ctx)
	if err != nil {
		t.Fatal(err)
	}
	judge := func(what string, done Place, isLost bool) {
		t.Helper()
		if _, err := l.Head(ctx, done); errors.Is(err, ErrWentBack) != isLost {
			t.Errorf("%s: %v", what, err)
		}
	}
	mustState(t, l) // As a node that starts.
	judge("the adopted office", Place{Revision: adopted}, false)
	judge("a snapshot after it", Place{Revision: adopted + 1}, true)
	first, _, err := l.Append(ctx, "a", units("a"))
	if err != nil {
		t.Fatal(err)
	}
	mustAppend(t, l, "b")
	found, err := all(t, l, adopted)
	if err != nil || len(found) != 2 || found[0].Place != first.Place {
		t.Fatalf("the log has %+v, %v, and not %+v first", found, err, first)
	}
	last := found[1].Place
	judge("the last entry", last, false)
	judge("an entry before", first.Place, false)
	judge("a snapshot", Place{Revision: last.Revision}, false)
	judge("a snapshot after the last entry", Place{Revision: last.Revision + 1}, true)
	judge("a later entry", Place{last.Revision + 1, "b", last.key}, true)
	judge("another entry", Place{last.Revision, "c", path.Dir(last.key) + "/c"}, true)
	judge("the same entry at another place", Place{first.Revision, "b", last.key}, true)
	for i := 0; i < 2; i++ {
		mustTrim(t, l, head(t, l), true)
		mustAppend(t, l, fmt.Sprint(i))
	}
	judge("what was trimmed", last, false)
}

func TestAdopt(t *testing.T) {
	l, ctx := newLedger(t), context.Background()
	floor, err := l.Adopt(ctx)
	if err != nil {
		t.Fatal(err)
	}
	if read := mustState(t, l).Floor; read != floor {
		t.Errorf("the floor is %d and not %d", read, floor)
	}
	if _, err := l.Adopt(ctx); err == nil {
		t.Error("a second office was adopted")
	}
}

// judgeHistory lets etcd be restored to what a first log had later than a second one went on from it.
func judgeHistory(t *testing.T, l *Ledger, first, second Beginning) {
	t.Helper()
	ctx, at := context.Background(), second.After
	// The backup is one of the first log.
	if _, err := l.kv.Put(ctx, afterKey, fmt.Sprintf("%d 0", first.First)); err != nil {
		t.Fatal(err)
	}
	if _, err := l.kv.Delete(ctx, firstKey); err != nil {
		t.Fatal(err)
	}
	third, err := l.Beginning(ctx)
	if err != nil || third.After <= at {
		t.Fatalf("%+v, %v", third, err)
	}
	for what, one := range map[string]struct {
		log         Beginning
		first       int64
		revision    int64
		hasRevision bool
	}{
		"its own":                                       {third, third.First, third.After + 5, true},
		"the first log":                                 {third, first.First, third.After, true},
		"the first log later":                           {third, first.First, third.After + 1, false},
		"a log that isn't before it":                    {third, second.First, at, false},
		"the first log, by the second one":              {second, first.First, at, true},
		"the first log later, by the second one":        {second, first.First, at + 1, false},
		"the third log, by the second one":              {second, third.First, at, false},
		"an earlier version, of which nothing is known": {Beginning{First: 9, After: 7}, 3, 7, true},
	} {
		if has := one.log.Has(one.first, one.revision); has != one.hasRevision {
			t.Errorf("%s: %v", what, has)
		}
	}
}

// All nodes get the same first number, and one whose key was deleted, as after etcd was restored, is another one. With it the log says up
// to which entry it is older.
func TestBeginning(t *testing.T) {
	l, ctx := newLedger(t), context.Background()
	var found [3]Beginning
	var last Entry
	for i := range found {
		if i == 2 {
			if _, err := l.kv.Delete(ctx, firstKey); err != nil {
				t.Fatal(err)
			}
		}
		var err error
		if found[i], err = l.Beginning(ctx); err != nil {
			t.Fatal(err)
		}
		if last, _, err = l.Append(ctx, fmt.Sprint(i), []Unit{{Lines: [][]byte{[]byte(`{"fn":"addUser","user":"ann"}`)}}}); err != nil {
			t.Fatal(err)
		}
		if i == 1 {
			found[1].After = last.Revision // What the next one has to say.
		}
	}
	if found[0].First != found[1].First || found[2].First == found[0].First || found[0].First < 1<<50 {
		t.Errorf("%v", found)
	}
	if found[0].After != 0 || found[2].After != found[1].After {
		t.Errorf("%v", found)
	}
	judgeHistory(t, l, found[0], found[2])
	// A node of an earlier version writes the number alone.
	if _, err := l.kv.Put(ctx, firstKey, "7"); err != nil {
		t.Fatal(err)
	}
	if earlier, err := l.Beginning(ctx); err != nil || earlier != (Beginning{First: 7}) {
		t.Errorf("%v, %v", earlier, err)
	}
}
