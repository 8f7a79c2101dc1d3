package ledger

import (
	"context"
	"errors"
	"io"
	"testing"
	"time"

	"go.etcd.io/etcd/clientv3"

	"rbac-node/internal/logs"
)

// The name of a node that runs is taken for all others. A node with the same folder goes on at once, and one with another folder when the
// last run has ended, or has said nothing for a while.
func TestLive(t *testing.T) {
	first, ctx := newLedger(t), context.Background()
	another := func() *Ledger {
		client, err := clientv3.New(clientv3.Config{Endpoints: first.client.Endpoints(), DialTimeout: 10 * time.Second})
		if err != nil {
			t.Fatal(err)
		}
		t.Cleanup(func() { client.Close() })
		return New(client, "test", logs.New(io.Discard))
	}
	second := another()
	life := Life{Name: "a", Run: "1", Folder: "x", Settings: Settings{Every: 7}}
	must := func(l *Ledger, life Life, wanted error) {
		t.Helper()
		if err := l.Live(ctx, life); !errors.Is(err, wanted) {
			t.Fatalf("%v and not %v", err, wanted)
		}
	}
	other := Life{Name: "a", Run: "2", Folder: "y"}
	must(first, life, nil)
	must(second, other, ErrNameTaken)
	time.Sleep((LifeSeconds + 2) * time.Second) // It is renewed.
	must(second, other, ErrNameTaken)
	state, err := first.State(ctx)
	if err != nil || len(state.Lives) != 1 || state.Lives[0] != life {
		t.Fatalf("%v, %v", state.Lives, err)
	}
	third := another()
	life.Run = "4"
	must(third, life, nil) // The first one was killed, and is started again.
	earlier := life
	earlier.Run = "1"
	must(first, earlier, ErrNameTaken) // Or it was not, and its folder was copied.
	second = another()
	must(second, other, ErrNameTaken)
	third.Leave(ctx)
	must(second, other, nil)
	must(third, life, ErrNameTaken)
	_ = second.client.Close() // It is killed.
	for deadline := time.Now().Add(30 * time.Second); third.Live(ctx, life) != nil; time.Sleep(time.Second) {
		if time.Now().After(deadline) {
			t.Fatal("the name of a node that says nothing more is not free")
		}
	}
	if _, err := third.client.Revoke(ctx, third.lease); err != nil { // etcd has forgotten it.
		t.Fatal(err)
	}
	must(third, life, nil)
}
