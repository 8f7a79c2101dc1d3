package endpoints

import (
	"net/http"

	"rbac-node/internal/api"
)

// mostTried is how many bytes the lines of commands that are tried have at most.
const mostTried = 262_144

// whatIf answers what commands would change. They are done over a clone of the office.
func (e *Endpoints) whatIf(r *request) (int, error) {
	office, err := e.knownTo(r, api.WhatIf)
	if err != nil {
		return 0, err
	}
	commands, err := readTried(r)
	if err != nil {
		return 0, err
	}
	result, err := e.trials.Try(r.ctx, office, r.visit.Done, commands)
	if err != nil {
		return 0, err
	}
	api.Point{Policy: result.Revision}.SetHead(r.w.Header())
	return r.replyValue(result)
}

// readTried reads the commands that are to be tried, which are lines as those of a batch.
func readTried(r *request) ([]*api.Call, error) {
	body, err := api.ReadBody(r.Request, mostTried)
	if err != nil {
		return nil, err
	}
	calls, err := api.ParseBatch(body)
	if err != nil {
		return nil, err
	}
	for _, call := range calls {
		if call.Kind != api.Command {
			refused := api.BadRequestSince(http.StatusBadRequest, "%s is no command, and changes nothing", call.Function)
			return nil, &api.LineError{Number: call.Number, Refusal: refused}
		}
	}
	if len(calls) == 0 {
		return nil, notRead("the body has no command")
	}
	return calls, nil
}
