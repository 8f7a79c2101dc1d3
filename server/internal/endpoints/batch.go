package endpoints

import (
	"context"
	"net/http"
	"net/url"

	"rbac-node/internal/api"
)

// batch does the lines of a body in their order, with nothing between them. If a line can't be read or may not be done, none is.
func (e *Endpoints) batch(r *request) (int, error) {
	isStopped, err := readStop(r.RequestURI)
	if err != nil {
		return 0, err
	}
	var calls []*api.Call
	leave, err := e.readLarge(r, func(body []byte) (err error) {
		calls, err = api.ParseBatch(body)
		return err
	})
	defer leave()
	ctx, cancel := r.whileThere()
	defer cancel()
	if err == nil && hasLong(calls) {
		err = e.enter(ctx, r)
	}
	if err == nil {
		err = r.may(calls...)
	}
	if err != nil {
		return 0, err
	}
	rule, err := api.RuleOf(r.Request)
	if err != nil {
		return 0, err
	}
	rule.IsStopped = isStopped
	answers, err := e.do(ctx, r, rule, calls)
	if err != nil {
		return 0, err
	}
	r.visit.Done()
	return writeLines(r.w, answers), nil
}

// do returns the answers to the lines of a batch, up to the first that is refused if that ends them.
func (e *Endpoints) do(ctx context.Context, r *request, rule api.Rule, lines []*api.Call) (answers [][]byte, err error) {
	switch {
	case len(lines) == 0:
	case api.NewBatch(r.kind, lines...).Kind == api.Command:
		answers, err = e.doCommands(r, rule, lines)
	default:
		answers, _, err = e.askEach(ctx, r, rule, lines)
	}
	if err != nil {
		return nil, err
	}
	for i, answer := range answers {
		if lines[i].Function == checkAccess || lines[i].Function == api.DecideByUser {
			e.decided(r, lines[i], answer)
		}
		if rule.IsStopped && !api.IsAccepted(answer) {
			answers = answers[:i+1]
			break
		}
	}
	return shortened(lines, answers), nil
}

// doCommands does commands, with what is asked between them.
func (e *Endpoints) doCommands(r *request, rule api.Rule, lines []*api.Call) (answers [][]byte, err error) {
	for _, line := range lines {
		if line.Function == api.DecideByUser && rule.IsStopped {
			// Several machines don't log whether such a line is refused.
			return nil, notRead("with stop=first a batch of commands has no %s", api.DecideByUser)
		}
	}
	ask := func() (err error) {
		answers, err = e.ask(r, rule, lines...)
		return err
	}
	if r.slot == nil {
		err = ask()
		return answers, err
	}
	err = r.slot.make(r.ctx, ask)
	return answers, err
}

func hasLong(calls []*api.Call) bool {
	for _, call := range calls {
		if call.IsLong() {
			return true
		}
	}
	return false
}

// shortened returns answers in which those to questions have not too many bytes together: one that is beyond that is refused by itself,
// since the commands are done. The only answer of a batch has no limit.
func shortened(lines []*api.Call, answers [][]byte) [][]byte {
	size := 0
	for i, answer := range answers {
		if lines[i].Kind == api.Command {
			continue
		}
		if size += len(answer); size > api.MaxAnswerBytes && len(answers) > 1 {
			answers[i] = api.RefusalText(errAnswers.Code, errAnswers.Name)
		}
	}
	return answers
}

// readStop reads from the target of a request whether a batch ends after the first line that is refused.
func readStop(target string) (bool, error) {
	at, err := url.ParseRequestURI(target)
	if err != nil {
		return false, errNoQuery
	}
	switch at.RawQuery {
	case "":
		return false, nil
	case "stop=first":
		return true, nil
	}
	return false, notRead("a batch has no query but stop=first")
}

func writeLines(w http.ResponseWriter, lines [][]byte) int {
	var text []byte
	for _, line := range lines {
		text = append(append(text, line...), '\n')
	}
	return api.WriteLines(w, text)
}
