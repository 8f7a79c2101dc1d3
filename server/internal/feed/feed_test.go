package feed

import (
	"bytes"
	"context"
	"errors"
	"fmt"
	"net/http"
	"net/http/httptest"
	"os"
	"path/filepath"
	"strings"
	"sync"
	"sync/atomic"
	"testing"
	"time"

	"github.com/prometheus/client_golang/prometheus"
	"github.com/prometheus/client_golang/prometheus/promhttp"

	"rbac-node/internal/api"
	"rbac-node/internal/logs"
	"rbac-node/internal/office"
)

// A fake answers each line with the line itself in quotes, after what a word in the line makes it do. It is started as the
// program is. The file counts how often it was started. A file beside it makes it refuse the opening line, or not start.
const fake = `#!/bin/sh
echo >> "$2.starts"
[ ! -e "$2.refuses" ] || exit 3
while read -r line; do
    case $line in
    *ssdRoleSets*) [ -e "$2.wrong" ] && echo '{"code":2,"error":"NoUser"}' || echo '{"ok":true}' ;;
    *die*) exit 4 ;;
    *leave*) exit 0 ;;
    *hang*) exec sleep 1000 ;;
    *) echo '{"ok":true,"value":'"$line"'}' ;;
    esac
done
`

// many is more reads than any test needs.
const many = 1 << 40

// A bench is a feed with the fake.
type bench struct {
	*Feed
	file string
	log  *syncBuffer
	stop context.CancelFunc
	end  chan error
}

// A syncBuffer is a buffer that many goroutines may use.
type syncBuffer struct {
	mutex  sync.Mutex
	buffer bytes.Buffer
}

func (b *syncBuffer) Write(p []byte) (int, error) {
	b.mutex.Lock()
	defer b.mutex.Unlock()
	return b.buffer.Write(p)
}

func (b *syncBuffer) String() string {
	b.mutex.Lock()
	defer b.mutex.Unlock()
	return b.buffer.String()
}

func (b *syncBuffer) has(text string) bool { return strings.Contains(b.String(), text) }

func optionsOf(t *testing.T, file string, hangTimeout time.Duration, log *logs.Logger) Options {
	program := filepath.Join(filepath.Dir(file), "program")
	if err := os.WriteFile(program, []byte(fake), 0o700); err != nil {
		t.Fatal(err)
	}
	n := &notebook{}
	return Options{
		Name: "office", Start: func() (*office.Replay, error) { return office.Start(program, file, hangTimeout) },
		Reads: many, Log: log, Metrics: prometheus.NewRegistry(),
		Before: func(context.Context) error { return nil }, Observer: n, Keeper: n,
	}
}

func open(t *testing.T, reads int64, hangTimeout time.Duration) *bench {
	t.Helper()
	b := &bench{file: filepath.Join(t.TempDir(), "office"), log: &syncBuffer{}, end: make(chan error, 1)}
	options := optionsOf(t, b.file, hangTimeout, logs.New(b.log))
	options.Reads = reads
	var err error
	if b.Feed, err = Open(context.Background(), options); err != nil {
		t.Fatal(err)
	}
	ctx, stop := context.WithCancel(context.Background())
	b.stop = stop
	go func() { b.end <- b.Run(ctx) }()
	t.Cleanup(stop)
	return b
}

func (b *bench) starts() int {
	text, _ := os.ReadFile(b.file + ".starts")
	return strings.Count(string(text), "\n")
}

// until waits until something holds.
func until(t *testing.T, what string, holds func() bool) {
	t.Helper()
	for end := time.Now().Add(20 * time.Second); !holds(); time.Sleep(5 * time.Millisecond) {
		if time.Now().After(end) {
			t.Fatalf("not in time: %s", what)
		}
	}
}

// within returns a context that ends in time.
func within(t *testing.T, limit time.Duration) context.Context {
	ctx, cancel := context.WithTimeout(context.Background(), limit)
	t.Cleanup(cancel)
	return ctx
}

// ask returns the answers to some lines.
func ask(b *bench, ctx context.Context, lines ...[]byte) ([][]byte, error) {
	return b.Do(ctx, &Unit{Lines: lines})
}

func TestAsk(t *testing.T) {
	b := open(t, many, time.Minute)
	var all sync.WaitGroup
	for client := 0; client < 20; client++ {
		client := client
		all.Add(1)
		go func() {
			defer all.Done()
			for i := 0; i < 50; i++ {
				lines := [][]byte{[]byte(fmt.Sprint(client)), []byte(fmt.Sprint(i))}
				answers, err := ask(b, within(t, 20*time.Second), lines...)
				if err != nil || len(answers) != 2 {
					t.Errorf("%v, %v", answers, err)
					return
				}
				for k := range lines {
					if want := fmt.Sprintf(`{"ok":true,"value":%s}`, lines[k]); string(answers[k]) != want {
						t.Errorf("%s and not %s", answers[k], want)
					}
				}
			}
		}()
	}
	all.Wait()
	b.stop()
	if err := <-b.end; err != nil {
		t.Error(err)
	}
}

func TestEndOfReplay(t *testing.T) {
	for _, test := range []struct {
		name, word  string
		hangTimeout time.Duration
		says        string
	}{
		{"it fails", "die", time.Minute, "the replay has ended"},
		{"it leaves without an answer", "leave", time.Minute, "the replay has ended"},
		{"it hangs", "hang", time.Second, "it answered nothing for too long"},
	} {
		t.Run(test.name, func(t *testing.T) {
			b := open(t, many, test.hangTimeout)
			limit := within(t, time.Minute)
			if _, err := ask(b, limit, []byte("a"), []byte(test.word), []byte("b")); err != api.Unavailable || limit.Err() != nil {
				t.Errorf("%v and not %v, %v", err, api.Unavailable, limit.Err())
			}
			until(t, "it answers again", func() bool {
				answers, err := ask(b, within(t, 20*time.Second), []byte("7"))
				return err == nil && string(answers[0]) == `{"ok":true,"value":7}`
			})
			if !b.log.has(test.says) || b.starts() != 2 {
				t.Errorf("%d starts; the log: %s", b.starts(), b.log)
			}
		})
	}
}

// A unit that may only be done by the replay of before isn't done by the next one.
func TestLife(t *testing.T) {
	b := open(t, many, time.Minute)
	for turn := 1; turn < 4; turn++ {
		before := b.Life()
		if _, err := b.Do(within(t, 20*time.Second), &Unit{Lines: [][]byte{[]byte("1")}, Life: before}); err != nil {
			t.Errorf("the same replay: %v", err)
		}
		b.Kill()
		until(t, "another replay", func() bool { return b.starts() == turn+1 && b.Why() == "" && b.Life() != before })
		if _, err := b.Do(within(t, 20*time.Second), &Unit{Lines: [][]byte{[]byte("1")}, Life: before}); err != api.Unavailable {
			t.Errorf("another replay: %v", err)
		}
	}
	b.stop()
	if err := <-b.end; err != nil {
		t.Error(err)
	}
}

func TestReplayThatDoesNotStart(t *testing.T) {
	b := open(t, many, time.Minute)
	if err := os.WriteFile(b.file+".refuses", nil, 0o600); err != nil {
		t.Fatal(err)
	}
	_, _ = ask(b, within(t, 20*time.Second), []byte("die"))
	until(t, "the feed says why", func() bool { return strings.Contains(b.Why(), "doesn't start") })
	start := time.Now()
	if _, err := ask(b, within(t, time.Minute), []byte("7")); err != api.Unavailable || time.Since(start) > 30*time.Second {
		t.Errorf("%v after %v", err, time.Since(start))
	}
	if err := os.Remove(b.file + ".refuses"); err != nil {
		t.Fatal(err)
	}
	until(t, "it answers again", func() bool {
		answers, err := ask(b, within(t, 20*time.Second), []byte("8"))
		return err == nil && string(answers[0]) == `{"ok":true,"value":8}`
	})
	if b.Why() != "" || strings.Count(b.log.String(), "doesn't start") != 1 {
		t.Errorf("why: %q; the log: %s", b.Why(), b.log)
	}
}

func TestStartAnew(t *testing.T) {
	for _, test := range []struct {
		name string
		busy bool
	}{{"at a quiet moment", false}, {"without one", true}} {
		t.Run(test.name, func(t *testing.T) {
			b := open(t, 40, time.Minute)
			stop := make(chan struct{})
			var all sync.WaitGroup
			for client := 0; client < 4; client++ {
				all.Add(1)
				go func() {
					defer all.Done()
					for i := 0; ; i++ {
						select {
						case <-stop:
							return
						default:
						}
						if _, err := ask(b, within(t, 20*time.Second), []byte("1")); err != nil {
							t.Errorf("an answer is missing: %v", err)
						}
						if !test.busy {
							time.Sleep(20 * time.Millisecond)
						}
					}
				}()
			}
			until(t, "it is started anew", func() bool { return b.starts() > 2 })
			close(stop)
			all.Wait()
			if b.log.has(`"level":"error"`) || b.log.has("failed") {
				t.Error(b.log.String())
			}
		})
	}
}

// A replay that is killed when it has answered all and ends in order isn't followed by one before which nothing was read.
func TestKilledAtTheEnd(t *testing.T) {
	options, count := optionsOf(t, filepath.Join(t.TempDir(), "office"), time.Minute, logs.New(&bytes.Buffer{})), 0
	options.Before = func(context.Context) error { count++; return nil }
	f, err := Open(context.Background(), options)
	if err != nil {
		t.Fatal(err)
	}
	if !f.anew(context.Background()) || count != 1 {
		t.Fatalf("one that isn't killed: %d", count)
	}
	_ = f.replay.Close()
	f.Kill()
	if f.anew(context.Background()) {
		t.Error("it is started anew")
	}
	if err := f.start(context.Background()); err != nil || count != 2 || f.isKilled.Load() {
		t.Errorf("the next one: %v, %d", err, count)
	}
	if err := f.end(); err != nil {
		t.Error(err)
	}
}

// A feed that always has something to do says that it goes on, and ends.
func TestAliveUnderLoad(t *testing.T) {
	b := open(t, many, time.Minute)
	ctx, cancel := context.WithCancel(context.Background())
	var all sync.WaitGroup
	for client := 0; client < 50; client++ {
		all.Add(1)
		go func() {
			defer all.Done()
			for ctx.Err() == nil {
				_, _ = ask(b, ctx, []byte("1"))
			}
		}()
	}
	for i := 0; i < 20; i++ {
		if !b.IsAlive(within(t, 10*time.Second)) {
			t.Fatal("it doesn't go on")
		}
	}
	b.stop()
	time.AfterFunc(100*time.Millisecond, cancel)
	if err := <-b.end; err != nil {
		t.Error(err)
	}
	cancel()
	all.Wait()
}

// A replay that refuses the opening line is none.
func TestOpening(t *testing.T) {
	file := filepath.Join(t.TempDir(), "office")
	if err := os.WriteFile(file+".wrong", nil, 0o600); err != nil {
		t.Fatal(err)
	}
	_, err := Open(context.Background(), optionsOf(t, file, time.Minute, logs.New(&bytes.Buffer{})))
	if err == nil || !strings.Contains(err.Error(), `it answers {"code":2,"error":"NoUser"}`) {
		t.Errorf("%v", err)
	}
}

// A feed whose replay hangs says so before it is killed, and not afterwards.
func TestHungReplay(t *testing.T) {
	b := open(t, many, 2*silenceTimeout)
	if why := b.Why(); why != "" {
		t.Errorf("why: %q", why)
	}
	go func() { _, _ = ask(b, within(t, time.Minute), []byte("hang")) }()
	until(t, "the feed says why", func() bool { return strings.Contains(b.Why(), "answered nothing") })
	until(t, "it answers again", func() bool { return b.starts() == 2 && b.Why() == "" })
}

func TestTimeout(t *testing.T) {
	b := open(t, many, time.Minute)
	go func() { _, _ = ask(b, within(t, 20*time.Second), []byte("hang")) }()
	until(t, "a line hangs", func() bool { return len(b.sent) == 1 })
	if _, err := ask(b, within(t, 50*time.Millisecond), []byte("1")); err != api.Unavailable {
		t.Errorf("%v and not %v", err, api.Unavailable)
	}
	ended, cancel := context.WithCancel(context.Background())
	cancel()
	if _, err := ask(b, ended, []byte("1")); err != api.Unavailable {
		t.Errorf("%v and not %v", err, api.Unavailable)
	}
}

// The figures say how long the replay took, how often it was started, and how much waits for it, by the name of the feed.
func TestFigures(t *testing.T) {
	registry := prometheus.NewRegistry()
	f := newFigures(registry, "office", func() int { return 3 })
	f.starts.Inc()
	f.seconds.Observe(0.0001)
	answer := httptest.NewRecorder()
	promhttp.HandlerFor(registry, promhttp.HandlerOpts{}).ServeHTTP(answer, httptest.NewRequest(http.MethodGet, "/", nil))
	for _, wanted := range []string{
		`rbac_node_replay_starts_total{replay="office"} 1`, `rbac_node_replay_waiting{replay="office"} 3`,
		`rbac_node_replay_answer_seconds_bucket{replay="office",le="5e-05"} 0`, `rbac_node_replay_answer_seconds_bucket{replay="office",le="0.0001"} 1`,
		`rbac_node_replay_answer_seconds_count{replay="office"} 1`,
	} {
		if !strings.Contains(answer.Body.String(), wanted+"\n") {
			t.Errorf("no %s in %s", wanted, answer.Body.String())
		}
	}
}

// While runs as the replay opens, and no line of a client reaches the replay before While has ended. Those who waited for the earlier replay
// learn only after that that they get no answer. If While fails, there is no replay.
func TestWhile(t *testing.T) {
	options := optionsOf(t, filepath.Join(t.TempDir(), "office"), time.Minute, logs.New(&bytes.Buffer{}))
	file := options.Start
	begun, fails := make(chan struct{}, 1), error(nil)
	options.Start = func() (*office.Replay, error) { begun <- struct{}{}; return file() }
	var waits, isTold atomic.Bool
	options.While = func(context.Context) error {
		<-begun // It would wait for ever if the replay began later.
		if waits.Load() {
			time.Sleep(50 * time.Millisecond)
			if isTold.Load() {
				t.Error("somebody was told too early")
			}
		}
		return fails
	}
	f, err := Open(context.Background(), options)
	if err != nil {
		t.Fatal(err)
	}
	waits.Store(true)
	lost := NewUnit()
	lost.begin(context.Background())
	f.sent <- lost
	go func() { <-lost.done; isTold.Store(true) }()
	_ = f.replay.Close()
	if err := f.start(context.Background()); err != nil || !lost.lost.Load() {
		t.Errorf("%v, and it was lost: %v", err, lost.lost.Load())
	}
	waits.Store(false)
	fails = errors.New("no rows")
	_ = f.replay.Close()
	if err := f.start(context.Background()); err != fails {
		t.Errorf("%v and not %v", err, fails)
	}
	select {
	case <-f.replay.Ended():
	default:
		t.Error("the replay goes on")
	}
}

// A waiting observer waits until it may go on.
type waitingObserver struct {
	mutex    sync.Mutex
	seen     []string
	goOn     chan struct{}
	hasBegun chan struct{}
}

func (o *waitingObserver) Answered(u *Unit) {
	o.hasBegun <- struct{}{}
	<-o.goOn
	o.mutex.Lock()
	defer o.mutex.Unlock()
	o.seen = append(o.seen, string(u.Answers[0]))
}

// While the observer waits, as for those who read the office, the replay is heard: it isn't killed, and the answers come in their order.
func TestObserverThatWaits(t *testing.T) {
	const hangTimeout, units = 100 * time.Millisecond, 20
	o := &waitingObserver{goOn: make(chan struct{}), hasBegun: make(chan struct{}, units+1)}
	b := &bench{file: filepath.Join(t.TempDir(), "office"), log: &syncBuffer{}, end: make(chan error, 1)}
	options := optionsOf(t, b.file, hangTimeout, logs.New(b.log))
	options.Observer = o
	var err error
	if b.Feed, err = Open(context.Background(), options); err != nil {
		t.Fatal(err)
	}
	ctx, stop := context.WithCancel(context.Background())
	defer stop()
	go func() { b.end <- b.Run(ctx) }()
	given := make(chan error, units)
	for i := 0; i < units; i++ {
		go func() {
			_, err := ask(b, within(t, time.Minute), []byte("0"))
			given <- err
		}()
	}
	<-o.hasBegun
	time.Sleep(5 * hangTimeout)
	close(o.goOn)
	for i := 0; i < units; i++ {
		if err := <-given; err != nil {
			t.Errorf("an answer is lost: %v", err)
		}
	}
	if _, err := ask(b, within(t, time.Minute), []byte("0")); err != nil {
		t.Errorf("the next answer: %v", err)
	}
	stop()
	if err := <-b.end; err != nil || b.starts() != 1 || len(o.seen) != units+1 {
		t.Errorf("%v, %d starts, %d units followed", err, b.starts(), len(o.seen))
	}
}
