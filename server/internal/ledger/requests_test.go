package ledger

import (
	"context"
	"errors"
	"fmt"
	"io"
	"strings"
	"sync"
	"testing"
	"time"

	"go.etcd.io/etcd/clientv3"
	"go.etcd.io/etcd/etcdserver/api/v3rpc/rpctypes"
	"go.etcd.io/etcd/etcdserver/etcdserverpb"
	"go.etcd.io/etcd/mvcc/mvccpb"

	"rbac-node/internal/logs"
)

// A fakeKV answers a transaction with the revision of one key, or with an error.
type fakeKV struct {
	clientv3.KV
	answer func(context.Context) (int64, error)
}

type fakeTxn struct {
	clientv3.Txn
	commit func() (*clientv3.TxnResponse, error)
}

func (f *fakeTxn) Then(...clientv3.Op) clientv3.Txn       { return f }
func (f *fakeTxn) Commit() (*clientv3.TxnResponse, error) { return f.commit() }
func (f *fakeKV) Txn(ctx context.Context) clientv3.Txn {
	return &fakeTxn{commit: func() (*clientv3.TxnResponse, error) { return f.commit(ctx) }}
}
func (f *fakeKV) commit(ctx context.Context) (*clientv3.TxnResponse, error) {
	revision, err := f.answer(ctx)
	if err != nil {
		return nil, err
	}
	found := &etcdserverpb.RangeResponse{Kvs: []*mvccpb.KeyValue{{ModRevision: revision}}}
	return &clientv3.TxnResponse{Responses: []*etcdserverpb.ResponseOp{
		{Response: &etcdserverpb.ResponseOp_ResponseRange{ResponseRange: &etcdserverpb.RangeResponse{}}},
		{Response: &etcdserverpb.ResponseOp_ResponseRange{ResponseRange: found}},
	}}, nil
}

// newFake returns a ledger whose transactions are answered by a function.
func newFake(t *testing.T, answer func(context.Context) (int64, error)) *Ledger {
	client, err := clientv3.New(clientv3.Config{Endpoints: []string{"http://127.0.0.1:1"}})
	if err != nil {
		t.Fatal(err)
	}
	t.Cleanup(func() { client.Close() })
	l := New(client, "test", logs.New(io.Discard))
	l.kv = &fakeKV{answer: answer}
	return l
}

type wanted struct{}

// A read of the head returns what it has read, whatever other reads return at the same time, and the newest is
// remembered.
func TestHead(t *testing.T) {
	l := newFake(t, func(ctx context.Context) (int64, error) { return ctx.Value(wanted{}).(int64), nil })
	reads := func(revision int64) context.Context {
		return context.WithValue(context.Background(), wanted{}, revision)
	}
	for _, one := range []struct{ read, newest int64 }{{7, 7}, {9, 9}, {5, 9}} {
		if given, err := l.Head(reads(one.read), Place{}); given != one.read || l.head.Load() != one.newest || err != nil {
			t.Errorf("a read of %d returns %d, %v, and the newest is %d", one.read, given, err, l.head.Load())
		}
	}
	var group sync.WaitGroup
	for reader := int64(1); reader <= 4; reader++ {
		reader := reader
		group.Add(1)
		go func() {
			defer group.Done()
			for i := 0; i < 20_000; i++ {
				if given, err := l.Head(reads(reader), Place{}); given != reader || err != nil {
					t.Errorf("a read of %d returns %d, %v", reader, given, err)
					return
				}
			}
		}()
	}
	group.Wait()
}

// What no attempt changes is reported at once. After anything else there is another attempt, until the context ends.
func TestAttempts(t *testing.T) {
	for _, one := range []struct {
		name    string
		err     error
		isFinal bool
	}{
		{"etcd is full", rpctypes.ErrNoSpace, true},
		{"the request is too large", rpctypes.ErrRequestTooLarge, true},
		{"the user may not", rpctypes.ErrPermissionDenied, true},
		{"no leader", rpctypes.ErrNoLeader, false},
		{"a lost leader", rpctypes.ErrTimeoutDueToLeaderFail, false},
		{"too many requests", rpctypes.ErrTooManyRequests, false},
		{"no time", context.DeadlineExceeded, false},
	} {
		t.Run(one.name, func(t *testing.T) {
			attempts := 0
			ctx, cancel := context.WithCancel(context.Background())
			defer cancel()
			_, err := newFake(t, func(context.Context) (int64, error) {
				if attempts++; attempts == 2 {
					cancel()
				}
				return 0, one.err
			}).Head(ctx, Place{})
			if !errors.Is(err, one.err) || one.isFinal && attempts != 1 || !one.isFinal && attempts != 2 {
				t.Errorf("%d attempts: %v", attempts, err)
			}
		})
	}
}

// A full etcd refuses an entry at once, and is still read.
func TestAppendToFullLog(t *testing.T) {
	l := newLedger(t, "--quota-backend-bytes", "1000000")
	large := units(strings.Repeat("x", 100_000))
	var err error
	for i := 0; err == nil && i < 100; i++ {
		_, _, err = l.Append(context.Background(), fmt.Sprint(i), large)
	}
	if !errors.Is(err, rpctypes.ErrNoSpace) {
		t.Fatal(err)
	}
	if found, err := all(t, l, 0); err != nil || len(found) == 0 {
		t.Errorf("%d entries, %v", len(found), err)
	}
}

// A slowKV lets no answer come that has too many bytes. It counts those, and answers that did not come in time. mostKeys is
// the most that one read has found.
type slowKV struct {
	clientv3.KV
	maxBytes, slow, tooLarge, mostKeys int
}

type slowTxn struct {
	clientv3.Txn
	kv *slowKV
}

func (s *slowKV) Txn(ctx context.Context) clientv3.Txn { return &slowTxn{s.KV.Txn(ctx), s} }

func (s *slowTxn) Then(ops ...clientv3.Op) clientv3.Txn {
	s.Txn = s.Txn.Then(ops...)
	return s
}

func (s *slowTxn) Commit() (*clientv3.TxnResponse, error) {
	reply, err := s.Txn.Commit()
	if err != nil {
		s.kv.slow++
		return nil, err
	}
	size := 0
	for op := range reply.Responses {
		kvs := read(reply, op)
		for _, kv := range kvs {
			size += len(kv.Value)
		}
		if len(kvs) > s.kv.mostKeys {
			s.kv.mostKeys = len(kvs)
		}
	}
	if size > s.kv.maxBytes {
		s.kv.tooLarge++
		return nil, context.DeadlineExceeded
	}
	return reply, nil
}

// The log comes in pages that are small enough for a slow link, and in smaller ones if they don't come in time.
func TestPages(t *testing.T) {
	const small, large, entryBytes = 130, 40, 300_000
	l, ctx := newLedger(t), context.Background()
	var firstLarge int64
	for i := 0; i < small+large; i++ {
		length := 100
		if i >= small {
			length = entryBytes
		}
		added, _, err := l.Append(ctx, fmt.Sprint(i), units(strings.Repeat("x", length)))
		if err != nil {
			t.Fatal(err)
		}
		if i == small {
			firstLarge = added.Revision
		}
	}
	forget(t, l)
	for _, one := range []struct {
		name     string
		after    int64
		maxBytes int
		entries  int
		isPaged  bool
	}{
		{"large entries", firstLarge - 1, 2 * pageBytes, large, true},
		{"large entries after small ones", 0, 2 * pageBytes, small + large, false},
	} {
		t.Run(one.name, func(t *testing.T) {
			slow := &slowKV{KV: l.kv, maxBytes: one.maxBytes}
			paged := New(l.client, "test", logs.New(io.Discard))
			paged.kv, paged.pageTimeout = slow, 200*time.Millisecond
			found, err := all(t, paged, one.after)
			if err != nil || len(found) != one.entries {
				t.Fatalf("%d entries, %v", len(found), err)
			}
			// After small entries it is a page that is too large, or one that comes late on a busy machine.
			if one.isPaged && slow.tooLarge > 0 || !one.isPaged && slow.tooLarge+slow.slow == 0 {
				t.Errorf("%d pages were too large, and %d late", slow.tooLarge, slow.slow)
			}
			// etcd reads the values of all keys of one read.
			if slow.mostKeys == 0 || slow.mostKeys > maxPageKeys {
				t.Errorf("%d keys were read at once", slow.mostKeys)
			}
			for i := 1; i < len(found); i++ {
				if found[i].Revision <= found[i-1].Revision {
					t.Fatalf("entry %d comes after %d", found[i].Revision, found[i-1].Revision)
				}
			}
		})
	}
}

// forget makes etcd forget its history, so that the log is read from its keys.
func forget(t *testing.T, l *Ledger) {
	ctx := context.Background()
	if err := l.Register(ctx, Member{Name: "a"}); err != nil {
		t.Fatal(err)
	}
	if _, err := l.client.Compact(ctx, mustState(t, l).Revision); err != nil {
		t.Fatal(err)
	}
}

// A keysKV counts the reads of keys alone.
type keysKV struct {
	clientv3.KV
	reads int
}

type keysTxn struct {
	clientv3.Txn
	kv *keysKV
}

func (k *keysKV) Txn(ctx context.Context) clientv3.Txn { return &keysTxn{k.KV.Txn(ctx), k} }

func (k *keysTxn) Then(ops ...clientv3.Op) clientv3.Txn {
	for _, op := range ops {
		if op.IsKeysOnly() {
			k.kv.reads++
		}
	}
	return k.Txn.Then(ops...)
}

// Who goes on from a place in the newest generation doesn't read the keys of earlier ones.
func TestKeysFromPlace(t *testing.T) {
	l := newLedger(t)
	for i := 0; i < 3*maxPageKeys; i++ {
		mustAppend(t, l, fmt.Sprint("old", i))
	}
	mustTrim(t, l, head(t, l), true)
	begins := mustState(t, l).generation
	mustAppend(t, l, "new1")
	place := head(t, l)
	mustAppend(t, l, "new2")
	forget(t, l)
	for _, one := range []struct {
		name           string
		after          int64
		entries, reads int
	}{
		{"the beginning", 0, 3*maxPageKeys + 2, 4},
		{"the last entry but one", place, 1, 1},
		{"the beginning of the generation", begins, 2, 1},
		{"the place before it", begins - 1, 2, 4},
	} {
		counting := &keysKV{KV: l.kv}
		later := New(l.client, "test", logs.New(io.Discard))
		later.generation.Store(begins)
		later.kv = counting
		found, err := all(t, later, one.after)
		if err != nil || len(found) != one.entries || counting.reads != one.reads {
			t.Errorf("from %s: %d entries by %d reads of keys, %v", one.name, len(found), counting.reads, err)
		}
	}
}
