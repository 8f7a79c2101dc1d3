package single

import (
	"context"
	"errors"
	"path/filepath"
	"testing"
	"time"

	"rbac-node/internal/api"
)

// A turn that was done is never said to be unanswered, however soon it ends.
func TestTurn(t *testing.T) {
	o, stop := run(t, optionsOf(t, filepath.Join(t.TempDir(), "office")))
	for i := 0; i < 20_000; i++ {
		if err := o.inTurn(context.Background(), func(*turn) error { return nil }); err != nil {
			t.Fatalf("turn %d: %v", i, err)
		}
	}
	own := errors.New("own")
	if err := o.inTurn(context.Background(), func(*turn) error { return own }); err != own {
		t.Errorf("its own error: %v", err)
	}
	if err := stop(); err != nil {
		t.Error(err)
	}
}

// A turn isn't begun when nobody waits any more, and others go on behind one that takes long.
func TestTurnInTime(t *testing.T) {
	o, stop := run(t, optionsOf(t, filepath.Join(t.TempDir(), "office")))
	ended, cancel := context.WithCancel(context.Background())
	cancel()
	if err := o.inTurn(ended, func(*turn) error { t.Error("it is called"); return nil }); err != api.Unavailable {
		t.Errorf("a context that has ended: %v", err)
	}
	begun, release := make(chan struct{}), make(chan struct{})
	late := make(chan error, 1)
	go func() {
		late <- o.inTurn(context.Background(), func(*turn) error {
			close(begun)
			<-release
			return nil
		})
	}()
	<-begun
	within, cancel := context.WithTimeout(context.Background(), 50*time.Millisecond)
	defer cancel()
	call, err := api.NewCall("addUser", "user", "ann")
	if err != nil {
		t.Fatal(err)
	}
	if _, err := o.Do(within, api.NewBatch(api.Question, call)); err != api.Unavailable {
		t.Errorf("a command during a turn: %v", err)
	}
	close(release)
	if err := <-late; err != nil {
		t.Error(err)
	}
	if given := ask(t, o, `{"fn":"addUser","user":"ann"}`); given != `{"ok":true}` {
		t.Errorf("the command was done: %s", given)
	}
	if err := stop(); err != nil {
		t.Error(err)
	}
}
