package ledger

import (
	"context"
	"encoding/json"
	"errors"
	"fmt"

	"go.etcd.io/etcd/clientv3"
	"go.etcd.io/etcd/etcdserver/api/v3rpc/rpctypes"
)

const (
	// livesPrefix begins the keys of the nodes that run.
	livesPrefix = "lives/"
	// LifeSeconds is how long such a key is there after its node has renewed it for the last time.
	LifeSeconds = 5
)

// A Life is a run of a node. etcd has it as long as the node renews it.
type Life struct {
	Name string `json:"name"`
	// Run names the run, and Folder the folder of the node, which only one process of a machine can have.
	Run    string `json:"run"`
	Folder string `json:"folder"`
	// Settings have to be the same on all nodes.
	Settings Settings `json:"settings"`
	// HasReviews says that the node records the ends of reviews. Those of an earlier version don't.
	HasReviews bool `json:"reviews,omitempty"`
}

// ErrFull reports that etcd has no room for what a node says of itself, and ErrDenied that etcd doesn't let the node write it.
var ErrFull, ErrDenied = rpctypes.ErrNoSpace, rpctypes.ErrPermissionDenied

// ErrNameTaken reports that a node with another folder runs under a name.
var ErrNameTaken = errors.New("another node runs under the name of this one: give each node another --name")

// Live says that a node runs, and has to be called again and again, by one goroutine at a time, since etcd may forget it. It fails with ErrNameTaken if a node with
// another folder runs under the name, or ran a moment ago, or if a later run has a copy of the folder.
func (l *Ledger) Live(ctx context.Context, life Life) error {
	if l.lease != clientv3.NoLease {
		reply, err := l.transact(ctx, "read of the name", clientv3.OpGet(livesPrefix+life.Name))
		if err != nil {
			return err
		}
		if found := read(reply, 0); len(found) > 0 {
			var other Life
			if err := json.Unmarshal(found[0].Value, &other); err != nil || other.Run != life.Run {
				return ErrNameTaken
			}
			return nil
		}
	}
	if err := l.renew(ctx); err != nil {
		return fmt.Errorf("lease of the name: %w", err)
	}
	err := l.claim(ctx, life)
	if err != nil {
		l.Leave(ctx)
	}
	return err
}

// renew makes a lease, which the client renews until it is revoked, or etcd can't be reached for too long.
func (l *Ledger) renew(ctx context.Context) error {
	granted, err := l.client.Grant(ctx, LifeSeconds)
	if err != nil {
		return err
	}
	l.lease = granted.ID
	renewed, err := l.client.KeepAlive(l.client.Ctx(), l.lease)
	if err != nil {
		return err
	}
	go func() {
		for range renewed { // Nothing is to be done with them, but they have to be read.
		}
	}()
	return nil
}

// claim writes a life, unless another node has its name.
func (l *Ledger) claim(ctx context.Context, life Life) error {
	text, err := json.Marshal(life)
	if err != nil {
		return fmt.Errorf("name: %w", err)
	}
	for key := livesPrefix + life.Name; ; {
		reply, err := l.transact(ctx, "read of the name", clientv3.OpGet(key))
		if err != nil {
			return err
		}
		found := read(reply, 0)
		var other Life
		if len(found) > 0 && json.Unmarshal(found[0].Value, &other) == nil && other.Folder != life.Folder {
			return ErrNameTaken
		}
		reply, err = l.commit(ctx, "name", func(t clientv3.Txn) clientv3.Txn {
			return t.If(isAt(key, revisionOf(found))).Then(clientv3.OpPut(key, string(text), clientv3.WithLease(l.lease)))
		})
		if err != nil || reply.Succeeded {
			return err
		}
	}
}

// Leave says that the node of Live doesn't run any more.
func (l *Ledger) Leave(ctx context.Context) {
	if l.lease == clientv3.NoLease {
		return
	}
	_, _ = l.client.Revoke(ctx, l.lease) // Otherwise it ends by itself.
	l.lease = clientv3.NoLease
}
