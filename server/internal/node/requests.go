package node

import (
	"context"
	"errors"
	"fmt"
	"net/http"
	"time"

	"rbac-node/internal/api"
	"rbac-node/internal/boottime"
	"rbac-node/internal/faults"
	"rbac-node/internal/ledger"
	"rbac-node/internal/recorded"
	"rbac-node/internal/state"
)

// maxUnitBytes is how many bytes one request for commands may have in the log: etcd refuses values of more than 1.5 MiB, and the
// requests before it in a batch have at most maxBatchBytes.
const maxUnitBytes = 768 << 10

// A request waits for its answers until its context ends.
type request struct {
	ctx   context.Context
	batch api.Batch
	reply chan reply
	// unit is what the log gets if there are commands, but for the time, and size how many bytes that are.
	unit ledger.Unit
	size int
}

func newRequest(ctx context.Context, b api.Batch) *request {
	r := &request{ctx: ctx, batch: b, reply: make(chan reply, 1)}
	if b.Kind != api.Command {
		return r
	}
	r.unit = ledger.Unit{At: recorded.TimeLayout, Rule: ruleOf(b), Bounds: true}
	for _, call := range logged(b) {
		if call.IsRecorded() {
			r.unit.Caller, r.unit.Reason = call.Caller, call.Reason // They are the same for all.
		}
		r.unit.Lines = append(r.unit.Lines, call.Line)
	}
	r.size = r.unit.Size()
	return r
}

// A reply has the answers to a request for commands, or why there are none. That to a question says that it can be answered.
type reply struct {
	answers api.Answers
	err     error
}

// Do does a batch. The answers to commands are those at their place in the log.
func (n *Node) Do(ctx context.Context, b api.Batch) (api.Answers, error) {
	within, cancel := context.WithTimeout(ctx, n.options.AnswerTimeout)
	defer cancel()
	if b.Kind == api.Command {
		return n.command(within, b)
	}
	newest, err := n.await(within, b.Kind)
	if err != nil {
		return api.Answers{}, err
	}
	texts, at, err := n.state.Ask(b.Calls...)
	if faults.Has(faults.TakesAnswersForNew) {
		newest = boottime.Now()
	}
	return api.Answers{Texts: texts, Point: api.Point{Revision: at.Revision, Newest: newest, Policy: at.Policy, Number: at.All}}, err
}

func (n *Node) command(ctx context.Context, b api.Batch) (api.Answers, error) {
	if n.differs.Load() != "" {
		return api.Answers{}, api.Diverged
	}
	for _, call := range b.Calls {
		if call.IsRecorded() {
			if err := n.options.Record.Admit(call); err != nil {
				return api.Answers{}, err
			}
		}
	}
	if faults.Has(faults.JudgesBeforeLog) && b.Rule.Policy > 0 {
		if b.Rule.Policy != n.state.Numbers().Policy {
			return api.Answers{}, api.Outdated
		}
		b.Rule.Policy = 0
	}
	n.state.Touch(b.Calls)
	r := newRequest(ctx, b)
	if r.size > maxUnitBytes {
		return api.Answers{}, api.BadRequest(http.StatusRequestEntityTooLarge)
	}
	if faults.Has(faults.AnswersBeforeLog) {
		r.ctx = context.Background()
		return n.guess(r), nil
	}
	return n.wait(r)
}

// wait passes a request on, and returns the reply to it.
func (n *Node) wait(r *request) (api.Answers, error) {
	select {
	case n.asked[r.batch.Kind] <- r:
	case <-r.ctx.Done():
		return api.Answers{}, api.Unavailable
	}
	select {
	case found := <-r.reply:
		if n.differs.Load() != "" {
			// It may have been found out while the request waited, such as that of a node that had just started.
			return api.Answers{}, api.Diverged
		}
		return found.answers, found.err
	case <-r.ctx.Done():
		return api.Answers{}, api.Unavailable
	}
}

// guess answers commands before the log has them, which is a fault.
func (n *Node) guess(r *request) api.Answers {
	n.asked[r.batch.Kind] <- r
	texts := make([][]byte, len(r.batch.Calls))
	for i := range texts {
		texts[i] = []byte(`{"ok":true}`)
	}
	return api.Answers{Texts: texts, Point: api.Point{Revision: n.applied.Load().Revision + 1}}
}

// await returns when the state has all that questions of a kind have to see, with a moment at which it was the newest one.
func (n *Node) await(ctx context.Context, kind api.Kind) (boottime.Moment, error) {
	switch {
	case n.differs.Load() != "":
		return 0, api.Diverged
	case kind == api.Local && n.heard.Load() < 0:
		return 0, api.Unavailable
	case kind == api.Local || faults.Has(faults.AnswersByItself):
		return n.newest(), nil
	}
	if _, err := n.wait(newRequest(ctx, api.Batch{Kind: kind})); err != nil {
		return 0, err
	}
	return n.newest(), nil
}

// Await returns when the state has all that questions of a kind have to see.
func (n *Node) Await(ctx context.Context, kind api.Kind) (api.Point, error) {
	within, cancel := context.WithTimeout(ctx, n.options.AnswerTimeout)
	defer cancel()
	newest, err := n.await(within, kind)
	return api.Point{Newest: newest}, err
}

// State returns what is known of the office.
func (n *Node) State() *state.State { return n.state }

// IsReady reports whether the node answers.
func (n *Node) IsReady() bool { return n.Health().Ready }

// Settle returns when no command is on its way into the log that nobody waits for any more.
func (n *Node) Settle(ctx context.Context) error {
	select {
	case n.appending <- struct{}{}:
		<-n.appending
		return nil
	case <-ctx.Done():
		return api.Unavailable
	}
}

func (n *Node) expire(ctx context.Context) error {
	if n.options.SessionAge <= 0 {
		return nil
	}
	rank := func() int { return int(n.rank.Load()) }
	n.state.Expire(ctx, n.options.SessionAge, 0, rank, func(ctx context.Context, call *api.Call) {
		_, _ = n.Do(ctx, api.NewBatch(api.Question, call)) // It is tried again.
	})
	return nil
}

// gather waits for a number of requests, or for one if it is late, and adds all others that wait, as many as a batch
// may have. Requests that nobody waits for any more are left out: they were never sent.
func gather(ctx context.Context, from <-chan *request, least int, late <-chan time.Time) (found []*request) {
	for size := 0; len(found) < maxBatchLines && size < maxBatchBytes; {
		var r *request
		select {
		case r = <-from:
		default:
			if len(found) >= least {
				return found
			}
			select {
			case r = <-from:
			case <-late:
				least = 1
				continue
			case <-ctx.Done():
				return found
			}
		}
		if r.ctx.Err() == nil {
			found, size = append(found, r), size+r.size
		}
	}
	return found
}

// A batch of requests is one entry of the log. done is closed when all have their answers.
type batch struct {
	requests []*request
	done     chan struct{}
}

// awaited returns the requests that somebody still waits for.
func awaited(requests []*request) (found []*request) {
	for _, r := range requests {
		if r.ctx.Err() == nil {
			found = append(found, r)
		}
	}
	return found
}

// appendCommands puts commands into the log. Those that come while a batch is on its way go into the next one. If they
// are few, they wait for the clients that have just been answered, which usually ask again at once: a small batch costs
// etcd as much as a larger one.
func (n *Node) appendCommands(ctx context.Context) error {
	var late <-chan time.Time
	for number, least := 0, 1; ; number++ {
		b := &batch{gather(ctx, n.asked[api.Command], least, late), make(chan struct{})}
		if len(b.requests) == 0 {
			return nil
		}
		within, cancel := context.WithTimeout(ctx, n.options.AnswerTimeout)
		err := n.appendBatch(within, fmt.Sprintf("%s-%x-%d", n.options.Name, n.start.UnixNano(), number), b)
		if err != nil && ctx.Err() == nil {
			n.log.Warn("commands that may be in the log or not", "commands", len(b.requests), "error", err)
		}
		least, late = 1, nil
		if asked := len(b.requests) + len(n.asked[api.Command]); err == nil && asked <= fewClients {
			select {
			case <-b.done:
				least, late = asked, time.After(batchDelay)
			case <-within.Done():
			}
		}
		cancel()
	}
}

// appendBatch appends a batch and does it. It needn't be read from the log if the entries before it are done.
func (n *Node) appendBatch(ctx context.Context, id string, b *batch) error {
	n.appending <- struct{}{}
	defer func() { <-n.appending }()
	if b.requests = awaited(b.requests); len(b.requests) == 0 {
		close(b.done)
		return nil
	}
	units, at := make([]ledger.Unit, len(b.requests)), time.Now().UTC().Format(recorded.TimeLayout)
	for i, r := range b.requests {
		units[i] = r.unit
		units[i].At = at
	}
	n.pending.Store(id, b)
	entry, before, err := n.shared.Append(ctx, id, units)
	if err == nil && entry.Revision > 0 {
		err = n.submit(ctx, task{before, func() { n.apply(entry) }})
	}
	if err == nil {
		return nil
	}
	if _, isOurs := n.pending.LoadAndDelete(id); isOurs && ctx.Err() == nil {
		// etcd has refused it, so that nobody needs to wait.
		for _, r := range b.requests {
			r.reply <- reply{err: api.Unavailable}
		}
	}
	return err
}

// confirm reads the newest revision of the log through a quorum. One read is for all questions that wait when it
// begins; those that come during the read wait for the next one. They are answered once the entries up to that revision are done. If
// the log no longer has what the node has done, the node ends: so no question is answered from what was taken back.
func (n *Node) confirm(ctx context.Context) error {
	for ctx.Err() == nil {
		waiting, end := context.WithTimeout(ctx, readInterval)
		questions := gather(waiting, n.asked[api.Question], 1, nil)
		end()
		read := boottime.Now()
		within, cancel := context.WithTimeout(ctx, n.options.AnswerTimeout)
		head, err := n.shared.Head(within, n.applied.Load().Place)
		if err == nil { // Otherwise the askers have waited long enough.
			n.seen.Store(head)
			if faults.Has(faults.AnswersTooEarly) {
				head = 0
			}
			_ = n.submit(within, task{head, func() {
				n.hear(read)
				for _, q := range questions {
					q.reply <- reply{}
				}
			}})
		}
		cancel()
		if errors.Is(err, ledger.ErrWentBack) {
			return err
		}
	}
	return nil
}

// hear notes that the state was the newest one at a moment.
func (n *Node) hear(read boottime.Moment) {
	if int64(read) > n.heard.Load() {
		n.heard.Store(int64(read)) // Nobody else does.
	}
}
