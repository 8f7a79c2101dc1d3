package node

import (
	"context"
	"encoding/json"
	"strings"
	"testing"
	"time"

	"rbac-node/internal/api"
	"rbac-node/internal/ledger"
)

func TestGather(t *testing.T) {
	over, cancel := context.WithCancel(context.Background())
	cancel()
	open, late := context.Background(), make(chan time.Time)
	close(late)
	for _, one := range []struct {
		what   string
		ctx    context.Context
		asked  []context.Context
		least  int
		late   <-chan time.Time
		wanted int
	}{
		{"all that wait", open, []context.Context{open, open, open}, 1, nil, 3},
		{"as many as are wanted", open, []context.Context{open, open}, 2, nil, 2},
		{"fewer when it is late", open, []context.Context{open}, 5, late, 1},
		{"nothing that nobody waits for", open, []context.Context{over, open, over}, 1, nil, 1},
		{"none at the end", over, nil, 1, nil, 0},
		{"those there are at the end", over, nil, 3, late, 0},
	} {
		from := make(chan *request, maxBatchLines)
		for _, ctx := range one.asked {
			from <- newRequest(ctx, of(api.Command, "c"))
		}
		if found := gather(one.ctx, from, one.least, one.late); len(found) != one.wanted {
			t.Errorf("%s: %d", one.what, len(found))
		}
	}
}

// A batch has a limit, however many requests wait.
func TestGatherMost(t *testing.T) {
	from := make(chan *request, maxBatchLines+1)
	for i := 0; i <= maxBatchLines; i++ {
		from <- newRequest(context.Background(), of(api.Command, strings.Repeat("c", maxBatchBytes/2)))
	}
	if found := gather(context.Background(), from, 1, nil); len(found) != 2 {
		t.Errorf("%d long requests", len(found))
	}
}

// A batch is small enough for etcd, also if what is said about its commands is longer than they are.
func TestGatherReasons(t *testing.T) {
	const mostOfEtcd = 3 << 19
	from := make(chan *request, maxBatchLines)
	for i := 0; i < maxBatchLines; i++ {
		size := 1000
		if i == maxBatchLines-1 {
			size = maxUnitBytes - 4000
		}
		b := of(api.Command, strings.Repeat("c", size))
		b.Calls[0].Caller, b.Calls[0].Reason = "token:desk", strings.Repeat("<", 256)
		from <- newRequest(context.Background(), b)
	}
	for len(from) > 0 {
		size := 0
		for _, r := range gather(context.Background(), from, 1, nil) {
			head, err := json.Marshal(&ledger.Unit{Caller: r.batch.Calls[0].Caller, Reason: r.batch.Calls[0].Reason})
			if err != nil {
				t.Fatal(err)
			}
			size += len(head) + len(r.batch.Calls[0].Line)
		}
		if size > mostOfEtcd {
			t.Errorf("a batch of %d bytes", size)
		}
	}
}

// What nobody waits for any more is in the log, or never comes there, when the node has settled.
func TestSettle(t *testing.T) {
	n, log := newNode(t)
	log.held, log.arrived = make(chan struct{}), make(chan struct{}, 10)
	running(t, n.feed, n.appendCommands)
	soon, cancel := context.WithCancel(context.Background())
	go func() {
		<-log.arrived
		cancel()
	}()
	if _, err := n.Do(soon, of(api.Command, `{"fn":"addUser","user":"ann"}`)); err != error(api.Unavailable) {
		t.Fatalf("a log that is held up: %v", err)
	}
	settled := make(chan error, 1)
	go func() { settled <- n.Settle(context.Background()) }()
	select {
	case <-settled:
		t.Fatal("a command is on its way")
	case <-time.After(50 * time.Millisecond):
	}
	close(log.held)
	if err := <-settled; err != nil || log.revision != 1 {
		t.Errorf("%v, %d entries", err, log.revision)
	}
}
