package single

import (
	"context"
	"sync"
	"time"

	"golang.org/x/sync/semaphore"

	"rbac-node/internal/api"
	"rbac-node/internal/feed"
	"rbac-node/internal/office"
	"rbac-node/internal/pause"
	"rbac-node/internal/state"
)

// wholeGate is more than how many commands there may be at once.
const wholeGate = 1 << 30

// An order is what is known of the one order of commands: the state that they have led to, and who has a part of the order alone.
type order struct {
	state *state.State
	// gate is passed by each command until it has been done, and by a turn alone. Nobody overtakes one who waits.
	gate *semaphore.Weighted
	// unread says why the state couldn't be read at the first start, and isUnread that the copy of the file wasn't read yet.
	unread    error
	isUnread  bool
	numbering numbering
}

// before finds out which commands the file has, which no replay has open, and copies it. If that fails, nothing is answered from memory.
func (o *Office) before(ctx context.Context) error {
	err := o.record.Before(ctx)
	if err == nil {
		err = pause.For(ctx, o.rereading.rest(time.Now()))
	}
	if err != nil {
		o.forget()
		return err
	}
	o.Say("the rows of the office are read")
	if err := state.Copy(o.File); err != nil {
		return o.isRead(err)
	}
	if o.isUnread = office.HasRoom(o.File); o.isUnread {
		return nil
	}
	return o.load(ctx) // A replay that opens the office may need the room of the copy.
}

// while reads the rows of the copy, which are those of the file, since a replay that opens it changes none.
func (o *Office) while(ctx context.Context) error {
	if !o.isUnread {
		return nil
	}
	o.isUnread = false
	return o.load(ctx)
}

// load reads the rows of the copy.
func (o *Office) load(ctx context.Context) error {
	err := o.isRead(o.state.LoadCopy(ctx, o.File))
	if err == nil && o.feed != nil {
		o.rereading.isOver()
	}
	o.numbering.keepAhead(o.numbers().All)
	return err
}

// isRead notes how the rows were read, and returns an error after which no replay may be used.
func (o *Office) isRead(err error) error {
	switch {
	case o.feed == nil:
		o.unread = err // If the office doesn't open either, that says more.
		return nil
	case err != nil:
		o.forget()
	}
	return err
}

// forget says that it isn't known what is in the office. Some commands may not be known, so watches end.
func (o *Office) forget() {
	o.state.Forget()
	o.state.Skip()
	o.numbering.keepAhead(o.numbers().All)
}

// Answered follows the commands of a unit. The feed calls it in the one order.
func (o *Office) Answered(u *feed.Unit) {
	numbers, err := o.state.Answered(u.Calls, u.Answers)
	u.Policy = numbers.Policy
	for _, answer := range u.Answers {
		if answer == nil {
			u.Fail()
		}
	}
	if err != nil {
		o.beginAgain(err)
	}
	o.numbering.keepAhead(numbers.All)
}

// State returns what is known of the office.
func (o *Office) State() *state.State { return o.state }

// Do does a batch. All kinds of questions are answered from the newest state, also while there is no replay.
func (o *Office) Do(ctx context.Context, b api.Batch) (api.Answers, error) {
	if b.Kind != api.Command {
		texts, numbers, err := o.state.Ask(b.Calls...)
		return api.Answers{Texts: texts, Point: api.Point{Policy: numbers.Policy, Number: numbers.All}}, err
	}
	if b.Rule != (api.Rule{}) {
		return o.doInTurn(ctx, b)
	}
	within, cancel := context.WithTimeout(ctx, o.AnswerTimeout)
	defer cancel()
	u, err := o.admit(b.Calls)
	if err != nil {
		return api.Answers{}, err
	}
	if err := o.gate.Acquire(within, 1); err != nil {
		return api.Answers{}, api.Unavailable
	}
	u.Finally = func() { o.gate.Release(1) }
	texts, err := o.feed.Do(within, u)
	if err != nil {
		return api.Answers{}, err
	}
	return api.Answers{Texts: texts, Point: api.Point{Policy: u.Policy}}, nil
}

// Await returns at once: the state has whatever was answered.
func (o *Office) Await(context.Context, api.Kind) (api.Point, error) { return api.Point{}, nil }

func (o *Office) numbers() state.Numbers { return o.state.Numbers() }

// admit returns a unit of commands, and of questions between them.
func (o *Office) admit(calls []*api.Call) (*feed.Unit, error) {
	o.state.Touch(calls)
	u := feed.NewUnit(calls...)
	if err := o.numbering.require(o.numbers().All); err != nil {
		return nil, err
	}
	return u, o.record.Admit(u)
}

// doInTurn is Do while no command of others is done.
func (o *Office) doInTurn(ctx context.Context, b api.Batch) (api.Answers, error) {
	var answers api.Answers
	err := o.inTurn(ctx, func(t *turn) (err error) {
		if b.Rule.Policy > 0 && b.Rule.Policy != o.numbers().Policy {
			return api.Outdated
		}
		answers.Texts, err = b.Rule.Run(b.Calls, t.ask)
		answers.Policy = o.numbers().Policy
		return err
	})
	return answers, err
}

// Settle returns when all commands are done that were asked before, also those that nobody waits for any more.
func (o *Office) Settle(ctx context.Context) error {
	return o.inTurn(ctx, func(*turn) error { return nil })
}

// A turn is a part of the order in which no command of others is done.
type turn struct {
	office *Office
	ctx    context.Context
	// life is that of the replay: nothing is done by a later one, since the policy may have changed then.
	life int64
	// asked has the units that aren't finished.
	asked sync.WaitGroup
}

// inTurn calls a function when all commands before are done. Those of others wait until it returns, so it must wait for little but
// its answers. It isn't called if the context has ended before.
func (o *Office) inTurn(ctx context.Context, do func(*turn) error) error {
	within, cancel := context.WithTimeout(ctx, o.AnswerTimeout)
	defer cancel()
	if err := o.gate.Acquire(within, wholeGate); err != nil {
		return api.Unavailable
	}
	t := &turn{office: o, ctx: within, life: o.feed.Life()}
	defer func() {
		go func() {
			t.asked.Wait() // Nobody may wait any more for what was asked last.
			o.gate.Release(wholeGate)
		}()
	}()
	if within.Err() != nil {
		return api.Unavailable
	}
	return do(t)
}

// ask returns the answers to some calls, with nothing of others between them.
func (t *turn) ask(calls ...*api.Call) ([][]byte, error) {
	o := t.office
	if api.NewBatch(api.Question, calls...).Kind != api.Command {
		return t.askState(calls)
	}
	u, err := o.admit(calls)
	if err != nil {
		return nil, err
	}
	t.asked.Add(1)
	u.Finally, u.Life = t.asked.Done, t.life
	return o.feed.Do(t.ctx, u)
}

// askState returns the answers of the state to questions. Those of one moment may be only some, but the moment is the same for all.
func (t *turn) askState(calls []*api.Call) (answers [][]byte, err error) {
	for len(answers) < len(calls) && err == nil {
		var some [][]byte
		some, _, err = t.office.state.Ask(calls[len(answers):]...)
		answers = append(answers, some...)
	}
	return answers, err
}
