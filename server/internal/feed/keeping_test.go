package feed

import (
	"context"
	"errors"
	"fmt"
	"path/filepath"
	"sync"
	"sync/atomic"
	"testing"
	"time"

	"rbac-node/internal/api"
	"rbac-node/internal/logs"
)

// A notebook is a keeper and an observer that writes down what it is told. It keeps nothing while it is full.
type notebook struct {
	mutex             sync.Mutex
	asked, kept, seen []string
	isFull, isDue     bool
	open, rests       int
}

func (n *notebook) Keep(answered, asked []*Unit) error {
	n.mutex.Lock()
	defer n.mutex.Unlock()
	if n.isFull {
		return errors.New("full")
	}
	for _, u := range answered {
		n.kept = append(n.kept, string(u.Lines[0]))
		n.open--
	}
	for _, u := range asked {
		n.asked = append(n.asked, string(u.Lines[0]))
		n.open++
	}
	return nil
}

func (n *notebook) IsDue() bool {
	n.mutex.Lock()
	defer n.mutex.Unlock()
	return n.isDue
}

func (n *notebook) Rest() {
	n.mutex.Lock()
	defer n.mutex.Unlock()
	n.rests++
	n.isDue = false
	if n.open != 0 {
		n.rests = -1000
	}
}

func (n *notebook) Answered(u *Unit) {
	n.mutex.Lock()
	n.seen = append(n.seen, string(u.Lines[0]))
	n.mutex.Unlock()
}

func (n *notebook) set(change func()) {
	n.mutex.Lock()
	defer n.mutex.Unlock()
	change()
}

// kept opens a feed with a notebook.
func kept(t *testing.T, n *notebook, reads int64, before func(context.Context) error) *bench {
	t.Helper()
	b := &bench{file: filepath.Join(t.TempDir(), "office"), log: &syncBuffer{}, end: make(chan error, 1)}
	options := optionsOf(t, b.file, time.Minute, logs.New(b.log))
	options.Reads, options.Keeper, options.Observer = reads, n, n
	if before != nil {
		options.Before = before
	}
	var err error
	if b.Feed, err = Open(context.Background(), options); err != nil {
		t.Fatal(err)
	}
	ctx, stop := context.WithCancel(context.Background())
	b.stop = stop
	go func() { b.end <- b.Run(ctx) }()
	t.Cleanup(stop)
	return b
}

func commandOf(line string) *Unit { return NewUnit(&api.Call{Line: []byte(line)}) }

// do asks for a command, and returns its answer, or "lost".
func (b *bench) do(line string) string {
	ctx, cancel := context.WithTimeout(context.Background(), 20*time.Second)
	defer cancel()
	answers, err := b.Do(ctx, commandOf(line))
	if err != nil {
		return "lost"
	}
	return string(answers[0])
}

// TestKeepsAll asks by many clients while the replay is started anew again and again, and while rests are due.
func TestKeepsAll(t *testing.T) {
	n := &notebook{}
	b := kept(t, n, 100, nil)
	var work sync.WaitGroup
	for client := 0; client < 20; client++ {
		client := client
		work.Add(1)
		go func() {
			defer work.Done()
			for i := 0; i < 50; i++ {
				line := fmt.Sprintf("%d", client*1000+i)
				if given := b.do(line); given != `{"ok":true,"value":`+line+`}` {
					t.Errorf("%s: %s", line, given)
				}
				if i == 25 {
					n.set(func() { n.isDue = true })
				}
			}
		}()
	}
	work.Wait()
	b.stop()
	if err := <-b.end; err != nil {
		t.Error(err)
	}
	if fmt.Sprint(n.asked) != fmt.Sprint(n.kept) || fmt.Sprint(n.asked) != fmt.Sprint(n.seen) || len(n.kept) != 1000 {
		t.Errorf("asked %d, kept %d, seen %d, or in another order", len(n.asked), len(n.kept), len(n.seen))
	}
	if n.rests < 1 {
		t.Errorf("%d rests", n.rests)
	}
	if !b.log.has("starting the replay anew") {
		t.Error("the replay was never started anew")
	}
}

// TestFullKeeper refuses commands, and goes on when there is room.
func TestFullKeeper(t *testing.T) {
	n := &notebook{}
	b := kept(t, n, many, nil)
	n.set(func() { n.isFull = true })
	if given := b.do("1"); given != "lost" {
		t.Errorf("without room: %s", given)
	}
	n.set(func() { n.isFull = false })
	if given := b.do("3"); given != `{"ok":true,"value":3}` {
		t.Errorf("with room: %s", given)
	}
	if fmt.Sprint(n.seen) != "[3]" {
		t.Errorf("the replay got %v", n.seen)
	}
}

// TestLostReplay ends the replay while commands are under way. What was kept and not answered isn't sent to the next one.
func TestLostReplay(t *testing.T) {
	n, starts := &notebook{}, 0
	b := kept(t, n, many, func(context.Context) error {
		if starts++; starts > 1 {
			n.set(func() { n.asked, n.open = append([]string(nil), n.kept...), 0 })
		}
		return nil
	})
	var work sync.WaitGroup
	for client := 0; client < 20; client++ {
		client := client
		work.Add(1)
		go func() {
			defer work.Done()
			for i := 0; i < 20; i++ {
				line := fmt.Sprintf("%d", client*1000+i)
				if client == 0 && i%5 == 2 {
					line = "die"
				}
				if given := b.do(line); given != `{"ok":true,"value":`+line+`}` && given != "lost" {
					t.Errorf("%s: %s", line, given)
				}
			}
		}()
	}
	work.Wait()
	b.stop()
	if err := <-b.end; err != nil {
		t.Error(err)
	}
	if starts < 2 {
		t.Errorf("%d starts", starts)
	}
	if fmt.Sprint(n.asked) != fmt.Sprint(n.kept) || fmt.Sprint(n.kept) != fmt.Sprint(n.seen) {
		t.Errorf("asked %v, kept %v, seen %v", n.asked, n.kept, n.seen)
	}
}

// TestLossIsToldLast ends the replay during a command. Its client gets no answer, and learns that only after Before has returned.
func TestLossIsToldLast(t *testing.T) {
	var starts, told atomic.Int32
	b := kept(t, &notebook{}, many, func(context.Context) error {
		if starts.Add(1) == 2 {
			time.Sleep(50 * time.Millisecond)
			if told.Load() > 0 {
				t.Error("the client was told too early")
			}
		}
		return nil
	})
	given := b.do("die")
	told.Add(1)
	until(t, "another replay", func() bool { return b.starts() == 2 })
	if given != "lost" || starts.Load() != 2 {
		t.Errorf("%s, %d starts", given, starts.Load())
	}
}

// TestRefusesMeanwhile asks while a replay is being started. The answer doesn't wait for that.
func TestRefusesMeanwhile(t *testing.T) {
	var starts atomic.Int32
	begun, release := make(chan struct{}), make(chan struct{})
	b := kept(t, &notebook{}, many, func(context.Context) error {
		if starts.Add(1) == 2 {
			close(begun)
			<-release
		}
		return nil
	})
	go b.do("die")
	<-begun
	start := time.Now()
	if given := b.do("1"); given != "lost" || time.Since(start) > 10*time.Second {
		t.Errorf("%s after %v", given, time.Since(start))
	}
	close(release)
	until(t, "it answers again", func() bool { return b.do("1") == `{"ok":true,"value":1}` })
}
