package endpoints

import (
	"context"
	"fmt"
	"sync"
	"testing"

	"rbac-node/internal/api"
)

// The large answers of a caller, and of all callers together, are limited. Those of other callers are not affected.
func TestSlots(t *testing.T) {
	s := newSlots()
	var taken []*slot
	take := func(caller string, wanted error) {
		t.Helper()
		one, err := s.enter(over, caller)
		if err != wanted {
			t.Fatalf("%s: %v", caller, err)
		}
		if err == nil {
			taken = append(taken, one)
		}
	}
	for i := 0; i < mostLarge; i++ {
		take(fmt.Sprint(i/mostLargeOfOne), nil)
	}
	take("another", api.TooManyRequests)
	taken[0].leave()
	take("1", api.TooManyRequests)
	take("0", nil)
	waiting := make(chan error, 1)
	go func() {
		one, err := s.enter(context.Background(), "1")
		one.leave()
		waiting <- err
	}()
	for _, one := range taken[1:] {
		one.leave()
	}
	if err := <-waiting; err != nil {
		t.Errorf("one who waits: %v", err)
	}
	if len(s.places) != 0 || len(s.of) != 0 {
		t.Errorf("%d are left, of %v", len(s.places), s.of)
	}
}

// A caller has few snapshots at once: others of it wait, and those of another caller don't.
func TestSnapshotSlots(t *testing.T) {
	s, ctx := newSlots(), context.Background()
	snapshot := func(ctx context.Context, caller string) (*slot, error) {
		one, err := s.enter(ctx, caller)
		if err == nil {
			err = one.snapshot(ctx)
		}
		return one, err
	}
	var taken []*slot
	for i := 0; i < mostSnapshots; i++ {
		one, err := snapshot(ctx, "a")
		if err != nil {
			t.Fatal(err)
		}
		taken = append(taken, one)
	}
	more, err := snapshot(over, "a")
	if more.leave(); err != api.TooManyRequests {
		t.Errorf("one more: %v", err)
	}
	other, err := snapshot(ctx, "b")
	if err != nil {
		t.Fatal(err)
	}
	waiting := make(chan error, 1)
	go func() {
		one, err := snapshot(ctx, "a")
		one.leave()
		waiting <- err
	}()
	taken[0].leave()
	if err := <-waiting; err != nil {
		t.Error(err)
	}
	taken[1].leave()
	other.leave()
	if len(s.places) != 0 || len(s.of) != 0 {
		t.Errorf("%d are left, of %v", len(s.places), s.of)
	}
}

// One is made at a time for each caller, and no more than some for all. One who waits for a turn in vain is refused.
func TestMaking(t *testing.T) {
	s := newSlots()
	begun, release := make(chan struct{}, mostMaking), make(chan struct{})
	var work sync.WaitGroup
	for i := 0; i < mostMaking; i++ {
		one, err := s.enter(over, fmt.Sprint(i))
		if err != nil {
			t.Fatal(err)
		}
		defer one.leave()
		work.Add(1)
		go func() {
			defer work.Done()
			_ = one.make(context.Background(), func() error {
				begun <- struct{}{}
				<-release
				return nil
			})
		}()
		<-begun
		if err := one.make(over, func() error { t.Error("a second of a caller is made"); return nil }); err != api.TooManyRequests {
			t.Errorf("a second of caller %d: %v", i, err)
		}
	}
	last, err := s.enter(over, "last")
	if err != nil {
		t.Fatal(err)
	}
	defer last.leave()
	if err := last.make(over, func() error { t.Error("it is made"); return nil }); err != api.TooManyRequests {
		t.Errorf("%v", err)
	}
	close(release)
	work.Wait()
	if err := last.make(context.Background(), func() error { return errNotRead }); err != errNotRead {
		t.Errorf("its own error: %v", err)
	}
}
