package endpoints

import (
	"context"
	"net/http"
	"time"

	"rbac-node/internal/api"
)

// askingTimeout is for how long several questions of a request are asked, or one that takes long.
const askingTimeout = 10 * time.Second

// errAnswers is the refusal of a batch whose answers are too long.
var errAnswers = api.BadRequestSince(http.StatusRequestEntityTooLarge, "the answers to questions have more than %d bytes: ask less at once",
	api.MaxAnswerBytes)

// askOne returns the answer to a call, which waits for its turn if it may take long. Such calls have slots of their own: those who read long
// lists slowly don't keep others from asking what a user may do.
func (e *Endpoints) askOne(r *request, rule api.Rule, call *api.Call) (answers [][]byte, err error) {
	if !call.IsLong() {
		return e.ask(r, rule, call)
	}
	if r.slot, err = e.questions.enter(r.ctx, r.visit.Name()); err != nil {
		return nil, err
	}
	answers, _, err = e.askEach(r.ctx, r, rule, []*api.Call{call})
	if err == nil && len(answers[0]) <= api.MaxBodyBytes {
		r.slot.leave() // Nobody waits until a short answer is read.
		r.slot = nil
	}
	return answers, err
}

// askEach returns the answers to questions, up to the first that is refused if the rule says so, and whether all are of one moment. Those
// that take long are asked one after another, in turns with other requests and while the context goes on.
func (e *Endpoints) askEach(ctx context.Context, r *request, rule api.Rule, calls []*api.Call) (answers [][]byte, isOne bool, err error) {
	if _, err := e.office.Await(r.ctx, r.kind); err != nil {
		return nil, false, err
	}
	var first, last api.Point
	for size, isLong := 0, false; len(answers) < len(calls); {
		piece := nextOf(calls[len(answers):])
		if isLong = isLong || piece[0].IsLong(); isLong && len(answers) > 0 && ctx.Err() != nil {
			return nil, false, api.Unavailable
		}
		found, err := e.askPiece(ctx, r, rule, piece, isLong)
		if err != nil {
			return nil, false, err
		}
		if last = found.Point; len(answers) == 0 {
			first = last
		}
		for _, text := range found.Texts {
			answers, size = append(answers, text), size+len(text)
			if rule.IsStopped && !api.IsAccepted(text) {
				calls = calls[:len(answers)]
				break
			}
		}
		if size > api.MaxAnswerBytes && len(answers) > 1 {
			return nil, false, errAnswers
		}
		isLong = len(found.Texts) < len(piece)
	}
	first.SetHead(r.w.Header()) // What it says of the age holds for all.
	if last.Policy != first.Policy {
		api.ForgetPolicy(r.w.Header())
	}
	return answers, last.Number == first.Number, nil
}

// nextOf returns the first of some questions if it may take long, and otherwise all up to the first that may.
func nextOf(calls []*api.Call) []*api.Call {
	count := 1
	for !calls[0].IsLong() && count < len(calls) && !calls[count].IsLong() {
		count++
	}
	return calls[:count]
}

// askPiece asks questions at one moment, and may return the answers to the first ones alone. The state has all that they have to see.
func (e *Endpoints) askPiece(ctx context.Context, r *request, rule api.Rule, calls []*api.Call, isLong bool) (found api.Answers, err error) {
	b := api.NewBatch(api.Local, calls...)
	b.Rule = rule
	ask := func() (err error) {
		found, err = api.Do(r.ctx, e.office, b)
		return err
	}
	if !isLong {
		err = ask()
		return found, err
	}
	if err = e.enter(ctx, r); err == nil {
		err = r.slot.make(ctx, ask)
	}
	return found, err
}

// askAtOnce returns the answers to questions of one moment. If the office changes while they are asked, they are asked again.
func (e *Endpoints) askAtOnce(r *request, rule api.Rule, calls []*api.Call) ([][]byte, error) {
	ctx, cancel := r.whileThere()
	defer cancel()
	for {
		answers, isOne, err := e.askEach(ctx, r, rule, calls)
		if err != nil || isOne {
			return answers, err
		}
		if ctx.Err() != nil {
			return nil, api.Unavailable
		}
	}
}
