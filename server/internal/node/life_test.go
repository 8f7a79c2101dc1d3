package node

import (
	"context"
	"errors"
	"io"
	"os"
	"path/filepath"
	"strings"
	"testing"
	"time"

	"github.com/prometheus/client_golang/prometheus"

	"rbac-node/internal/ledger"
	"rbac-node/internal/logs"
)

// change changes what the log has while a node may use it.
func change(log *fakeLog, do func()) {
	log.mutex.Lock()
	defer log.mutex.Unlock()
	do()
}

// entering lets a node enter in the background.
func entering(n *Node) chan error {
	done := make(chan error, 1)
	go func() { done <- n.enter(context.Background()) }()
	return done
}

// A start takes no part until most that run have its settings.
func TestEnterWithOtherSettings(t *testing.T) {
	n, log := newNode(t)
	other := ledger.Settings{Every: 7}
	log.state.Lives = []ledger.Life{{Name: "b", Settings: other}, {Name: "c", Settings: other}}
	done := entering(n)
	eventually(t, "it says what to do", func() bool { return strings.Contains(n.Health().Why, "start all nodes with the same") })
	if log.registrations() > 0 {
		t.Error("it is registered")
	}
	change(log, func() {
		log.state.Lives = []ledger.Life{{Name: "b", Settings: n.life.Settings}, {Name: "c", Settings: other}}
	})
	if err := <-done; err != nil {
		t.Error(err)
	}
}

// A start waits for the end of a node with its name, which may have ended a moment ago.
func TestEnterWithTakenName(t *testing.T) {
	n, log := newNode(t)
	log.unnamed = ledger.ErrNameTaken
	done := entering(n)
	eventually(t, "it says why", func() bool { return strings.Contains(n.Health().Why, "give each node another --name") })
	change(log, func() { log.unnamed = nil })
	if err := <-done; err != nil {
		t.Error(err)
	}
	change(log, func() { log.unnamed = ledger.ErrNameTaken })
	began := time.Now()
	if err := n.enter(context.Background()); !errors.Is(err, ledger.ErrNameTaken) || time.Since(began) < takenTimeout {
		t.Errorf("%v after %v", err, time.Since(began))
	}
}

// A node whose name another one has got meanwhile ends. What etcd doesn't answer for a while ends none, and a full etcd keeps none from
// starting.
func TestLive(t *testing.T) {
	n, log := newNode(t)
	log.unnamed = ledger.ErrFull
	if err := n.enter(context.Background()); err != nil {
		t.Fatal(err)
	}
	done := make(chan error, 1)
	go func() { done <- n.live(context.Background()) }()
	eventually(t, "it is said again", func() bool {
		log.mutex.Lock()
		defer log.mutex.Unlock()
		return len(log.lives) > 2
	})
	change(log, func() { log.unnamed = ledger.ErrNameTaken })
	if err := <-done; !errors.Is(err, ledger.ErrNameTaken) {
		t.Error(err)
	}
}

// A folder keeps its identity, and each has another one.
func TestIdentity(t *testing.T) {
	n, log := newNode(t)
	other, _ := newNode(t)
	again, err := New(n.options, log, logs.New(io.Discard), prometheus.NewRegistry())
	if err != nil {
		t.Fatal(err)
	}
	if err := os.Truncate(filepath.Join(other.options.Data, identityName), 0); err != nil {
		t.Fatal(err)
	}
	anew, err := New(other.options, log, logs.New(io.Discard), prometheus.NewRegistry())
	if err != nil || anew.life.Folder == "" {
		t.Errorf("after a crash: %v, %v", anew.life, err)
	}
	if again.life.Folder != n.life.Folder || n.life.Folder == "" || other.life.Folder == n.life.Folder {
		t.Errorf("%v, %v, %v", n.life, again.life, other.life)
	}
}
