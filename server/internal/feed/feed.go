// Package feed passes the commands of many clients to one replay of the program, in one order, and starts it again if it ends.
//
// What a client asks for at once is a unit: its lines follow one another, with nothing between them. A keeper gets each unit before the
// replay, and its answers before whoever asks. One goroutine does both and writes all lines. Answers come in the same order, to a
// goroutine that never waits: another one lets the observer follow them. If the replay ends, whoever waits for an answer gets none: nobody
// knows which of the lines were done.
package feed

import (
	"context"
	"errors"
	"fmt"
	"sync"
	"sync/atomic"
	"time"

	"github.com/prometheus/client_golang/prometheus"
	"github.com/prometheus/client_golang/prometheus/promauto"

	"rbac-node/internal/api"
	"rbac-node/internal/logs"
	"rbac-node/internal/office"
)

const (
	// maxWaiting is how many units may wait for the replay, or for their answers.
	maxWaiting = 8192
	// restartInterval is the time before a replay that doesn't start is started again.
	restartInterval = time.Second
	// silenceTimeout is how long a replay may answer nothing, although lines wait, before it counts as one that doesn't answer.
	silenceTimeout = 5 * time.Second
	// endTimeout is how long a replay may take to answer the last lines.
	endTimeout = 10 * time.Second
)

// opening is the line that a replay has to accept before it gets any other.
var opening = []byte(`{"fn":"ssdRoleSets"}`)

// Options are what a feed needs.
type Options struct {
	// Name is what the replay is called in logs and metrics.
	Name string
	// Start starts a replay.
	Start func() (*office.Replay, error)
	// Reads is after how many reads of its input a replay is started anew, as soon as nobody waits. It ends by itself after
	// 1,000,000,000 reads.
	Reads   int64
	Log     *logs.Logger
	Metrics prometheus.Registerer
	// Before is called before each start of a replay, except after one that has answered all. No replay runs then, and all answers of
	// the one before have been observed and kept.
	Before func(ctx context.Context) error
	// While is called after Before, while the replay opens the office, whose rows that doesn't change. The replay gets no line of a client
	// until it has returned without an error. It may be nil.
	While    func(ctx context.Context) error
	Observer Observer
	Keeper   Keeper
}

// A Feed has one replay, or tries to start one.
type Feed struct {
	Options
	figures
	keeping
	// asked has the units that the keeper hasn't got, and sent those that the replay has got and that aren't followed, in their order.
	// replied has those of the latter that are answered. There is always room in both: there are never that many at once.
	asked, sent, replied chan *Unit
	// following counts the units in replied, and the one that is being followed.
	following sync.WaitGroup
	alive     chan struct{}
	replay    *office.Replay
	// newest is the replay that was started last, for other goroutines.
	newest atomic.Pointer[office.Replay]
	// reads is the most times that the replay can have read its input. Only the goroutine of Run uses it.
	reads int64
	// resting is locked while a replay starts or ends, both of which write the file of the office, and while that must not change.
	resting sync.Mutex
	// life counts the replays, except those that follow one that has answered everything.
	life atomic.Int64
	// isKilled says that the replay was killed: Before comes before the next one, also if it had answered all.
	isKilled atomic.Bool
	// isBusy says that a replay is being started, or that the keeper writes.
	isBusy atomic.Bool
	// why says why there is no replay, or is empty.
	why atomic.Value
}

// Open returns a feed whose replay answers.
func Open(ctx context.Context, options Options) (*Feed, error) {
	f := &Feed{Options: options, alive: make(chan struct{})}
	f.asked, f.sent, f.replied = make(chan *Unit, maxWaiting), make(chan *Unit, maxWaiting), make(chan *Unit, maxWaiting)
	f.wake = make(chan struct{}, 1)
	f.why.Store("")
	f.figures = newFigures(f.Metrics, f.Name, f.waiting)
	if err := f.start(ctx); err != nil {
		return nil, err
	}
	go f.follow()
	return f, nil
}

// follow lets the observer and the keeper have what the replay has answered. Whatever they wait for, the replay is heard meanwhile.
func (f *Feed) follow() {
	for u := range f.replied {
		<-f.sent // It is this unit, since answers come in order.
		f.Observer.Answered(u)
		f.answered(u)
		f.following.Done()
	}
}

// waiting returns how many units wait for the replay, or for its answers.
func (f *Feed) waiting() int { return len(f.asked) + len(f.sent) }

// Why returns why no line is answered now, or an empty text.
func (f *Feed) Why() string {
	why, _ := f.why.Load().(string)
	if replay := f.newest.Load(); why == "" && replay != nil && replay.Silence() > silenceTimeout {
		return "the replay has answered nothing for some time"
	}
	return why
}

// Do returns the answers to the lines of a unit, unless the context ends first or there is no replay. A unit that hasn't been kept by
// then never is.
func (f *Feed) Do(ctx context.Context, u *Unit) ([][]byte, error) {
	u.begin(ctx)
	if why, _ := f.why.Load().(string); why != "" {
		u.lose() // There is no replay.
		return nil, api.Unavailable
	}
	select {
	case f.asked <- u:
	case <-ctx.Done():
		u.lose()
		return nil, api.Unavailable
	}
	select {
	case <-u.done:
	case <-ctx.Done():
		return nil, api.Unavailable
	}
	if u.lost.Load() {
		return nil, api.Unavailable
	}
	return u.Answers, nil
}

// Life returns the number of the replay that there is or was last, which one that follows in order has too.
func (f *Feed) Life() int64 { return f.life.Load() }

// IsAlive reports whether the goroutine that passes lines goes on, before the context ends.
func (f *Feed) IsAlive(ctx context.Context) bool {
	if f.isBusy.Load() {
		return true // A replay is killed if it answers nothing for too long.
	}
	select {
	case f.alive <- struct{}{}:
		return true
	case <-ctx.Done():
		return false
	}
}

// Run passes lines until the context ends. It then answers those that it has got, and returns when the replay has ended.
func (f *Feed) Run(ctx context.Context) error {
	defer close(f.replied)
	for {
		err := f.pass(ctx)
		if ctx.Err() != nil {
			return f.finish()
		}
		if err == nil && f.anew(ctx) {
			continue
		}
		f.why.Store("the replay has ended")
		if err != nil {
			f.Log.Error("the replay has ended", "replay", f.Name, "why", err)
		}
		f.halt()
		if err := f.startAgain(ctx); err != nil {
			return nil
		}
	}
}

// anew ends the replay in order and starts another one, and reports whether there is one. What is kept can be sent to it.
func (f *Feed) anew(ctx context.Context) bool {
	f.resting.Lock()
	defer f.resting.Unlock()
	if err := f.end(); err != nil {
		f.Log.Warn("the replay, which was to be started anew, has failed", "replay", f.Name, "why", err)
		return false
	}
	if f.isKilled.Load() {
		return false
	}
	f.Log.Info("starting the replay anew", "replay", f.Name, "reads", f.reads)
	return f.open(ctx) == nil
}

// pass passes units and their answers until the context or the replay ends, or until it is time for a new replay, for which there is no
// error.
func (f *Feed) pass(ctx context.Context) error {
	for f.reads < f.Reads || f.reads < f.Reads+f.Reads/10 && f.waiting() > 0 {
		if f.step(ctx.Done()) {
			continue
		}
		if ctx.Err() != nil {
			return ctx.Err()
		}
		return f.replay.Close()
	}
	return nil
}

// finish passes what waits after the last request was accepted, and ends the replay.
func (f *Feed) finish() error {
	for len(f.asked)+f.count(0) > 0 && f.step(nil) {
	}
	err := f.Quietly(f.end)
	f.halt()
	return err
}

// step waits for what comes next, and does it. It returns false when a channel is closed, or the replay has ended.
func (f *Feed) step(over <-chan struct{}) bool {
	more, open := f.room()
	if open == 0 && more == nil {
		f.rest()
		return true
	}
	select {
	case u := <-more:
		f.keep(f.takeAnswered(), append([]*Unit{u}, take(more, open+len(u.Lines))...))
	case <-f.wake:
		f.keep(f.takeAnswered(), take(more, open))
	case <-f.failed:
		f.keep(nil, nil) // The keeper has the answers that it couldn't keep.
	case <-f.alive:
	case <-f.replay.Ended():
		return false
	case <-over:
		return false
	}
	return true
}

func (f *Feed) send(units []*Unit) {
	for _, u := range units {
		u, sent := u, time.Now()
		f.count(len(u.Lines))
		f.sent <- u
		for i, line := range u.Lines {
			i := i
			f.reads += office.ReadsOf(line)
			f.replay.Send(line, func(answer []byte) {
				if u.Answers[i] = answer; i == len(u.Lines)-1 {
					f.seconds.Observe(time.Since(sent).Seconds())
					f.following.Add(1)
					f.replied <- u
				}
			})
		}
	}
	f.replay.Flush()
}

// halt lets the keeper have the answers of a replay that has ended, and nothing more: what waits is lost.
func (f *Feed) halt() {
	<-f.replay.Ended() // All answers have come.
	f.following.Wait()
	f.count(-f.count(0))
	if answered := f.takeAnswered(); len(answered) > 0 {
		f.keep(answered, nil)
	}
	lose(f.asked)
}

// lose tells those that wait for units that they get no answer.
func lose(units <-chan *Unit) {
	for len(units) > 0 {
		(<-units).lose()
	}
}

// Kill ends the replay at once, and another one is started after Before. It is called by the observer while it follows a unit, or while
// no replay starts or ends.
func (f *Feed) Kill() {
	f.isKilled.Store(true)
	f.newest.Load().Kill()
}

// Quietly does something while no replay starts or ends. If no command is on its way either, nobody writes the file of the office.
func (f *Feed) Quietly(do func() error) error {
	f.resting.Lock()
	defer f.resting.Unlock()
	return do()
}

// end ends the replay after it has answered all lines. One that doesn't is killed.
func (f *Feed) end() error {
	defer time.AfterFunc(endTimeout, f.replay.Kill).Stop()
	err := f.replay.Close()
	f.following.Wait()
	if err != nil {
		lose(f.sent)
	}
	return err
}

// startAgain starts a replay, again and again until one answers. It fails only if the context ends.
func (f *Feed) startAgain(ctx context.Context) error {
	for last := ""; ; {
		err := f.start(ctx)
		if err == nil {
			f.why.Store("")
			f.Log.Info("the replay answers again", "replay", f.Name)
			return nil
		}
		if why := "the replay doesn't start: " + err.Error(); why != last {
			f.why.Store(why)
			f.Log.Error("the replay doesn't start", "replay", f.Name, "why", err)
			last = why
		}
		for timer, waiting := time.After(restartInterval), true; waiting; {
			select {
			case u := <-f.asked:
				u.lose()
			case <-f.alive:
			case <-timer:
				waiting = false
			case <-ctx.Done():
				return ctx.Err()
			}
		}
	}
}

// start starts a replay, which has to answer.
func (f *Feed) start(ctx context.Context) error {
	f.isBusy.Store(true)
	defer f.isBusy.Store(false)
	f.resting.Lock()
	defer f.resting.Unlock()
	f.life.Add(1)
	f.isKilled.Store(false) // The replay that was killed has ended.
	if err := f.Before(ctx); err != nil {
		lose(f.sent)
		return err
	}
	read := make(chan error, 1)
	go func() { read <- f.while(ctx) }()
	err := f.open(ctx)
	if failed := <-read; err == nil && failed != nil {
		_ = f.end() // What has failed before says more.
		err = failed
	}
	return err
}

// while does what is done while the replay opens. Then it tells those who wait for the last replay that they get no answer: by then it is
// known which of their lines were done, so nothing of them shows later that doesn't show at once.
func (f *Feed) while(ctx context.Context) error {
	defer lose(f.sent)
	if f.While == nil {
		return nil
	}
	return f.While(ctx)
}

// open is start without what comes before it.
func (f *Feed) open(ctx context.Context) error {
	f.isBusy.Store(true)
	defer f.isBusy.Store(false)
	replay, err := f.Start()
	if err != nil {
		return err
	}
	f.starts.Inc()
	f.replay, f.reads = replay, office.ReadsOf(opening)
	f.newest.Store(replay)
	opened := make(chan []byte, 1)
	replay.Send(opening, func(answer []byte) { opened <- answer })
	replay.Flush()
	select {
	case answer := <-opened:
		if api.IsAccepted(answer) {
			return nil
		}
		_ = replay.Close() // What was refused says more.
		return fmt.Errorf("it answers %s to %s", answer, opening)
	case <-replay.Ended():
		if err := replay.Close(); err != nil {
			return err
		}
		return errors.New("it has ended without an answer")
	case <-ctx.Done():
		replay.Kill()
		return ctx.Err()
	}
}

// Figures are what is measured of a replay.
type figures struct {
	starts  prometheus.Counter
	seconds prometheus.Histogram
}

func newFigures(registry prometheus.Registerer, name string, waiting func() int) figures {
	make := promauto.With(prometheus.WrapRegistererWith(prometheus.Labels{"replay": name}, registry))
	make.NewGaugeFunc(prometheus.GaugeOpts{
		Name: "rbac_node_replay_waiting", Help: "How much that was asked at once waits for a replay.",
	}, func() float64 { return float64(waiting()) })
	return figures{
		starts: make.NewCounter(prometheus.CounterOpts{Name: "rbac_node_replay_starts_total", Help: "Starts of a replay."}),
		seconds: make.NewHistogram(prometheus.HistogramOpts{
			Name: "rbac_node_replay_answer_seconds", Help: "How long a replay took for what was asked at once.",
			Buckets: prometheus.ExponentialBuckets(0.00005, 2, 17),
		}),
	}
}
