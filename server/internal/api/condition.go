package api

import (
	"context"
	"net/http"
	"strconv"
)

// The fields of a request and of its answer that name a revision of the policy.
const conditionField, policyField = "If-Policy-Revision", "Policy-Revision"

// A Rule says which calls of a batch are done. Without one all are, whatever is answered to those before.
type Rule struct {
	// Policy is the revision that the policy has to have when the turn of the batch comes, or 0. Otherwise nothing is done.
	Policy int64 `json:"policy,omitempty"`
	// IsStopped says that no call is done after one that is refused.
	IsStopped bool `json:"stop,omitempty"`
	// IsOpening says that the calls open a session: createSession, addActiveRole for each role that is wanted, and deleteSession. The
	// last one is done only if roles are wanted and none was accepted.
	IsOpening bool `json:"open,omitempty"`
	// Expected is what the office has to answer to a call before those of an opening, if there is one. Otherwise nothing more is done.
	Expected string `json:"expect,omitempty"`
}

// RuleOf returns the rule that a request names: an office does its calls only if the policy still has that revision, and answers Outdated
// otherwise.
func RuleOf(r *http.Request) (rule Rule, err error) {
	values, has := r.Header[conditionField]
	if !has {
		return rule, nil
	}
	if len(values) != 1 {
		return rule, BadRequestSince(http.StatusBadRequest, "%s is there more than once, or can't be judged here", conditionField)
	}
	revision, err := strconv.ParseUint(values[0], 10, 63)
	if err != nil {
		return rule, BadRequestSince(http.StatusBadRequest, "%s has to be a number", conditionField)
	}
	if revision == 0 {
		return rule, Outdated // No policy has it.
	}
	rule.Policy = int64(revision)
	return rule, nil
}

// Do does a batch. Questions change nothing, so whether the policy is the wanted one can be judged when they are answered.
func Do(ctx context.Context, office Office, b Batch) (Answers, error) {
	if b.Kind == Command {
		return office.Do(ctx, b)
	}
	wanted := b.Rule.Policy
	b.Rule = Rule{}
	answers, err := office.Do(ctx, b)
	if err == nil && wanted > 0 && answers.Policy != wanted {
		return Answers{}, Outdated
	}
	return answers, err
}

// An asking returns the answers to some calls, with nothing of others between them, when all before them have been answered.
type asking func(calls ...*Call) ([][]byte, error)

// Run does calls as the rule says, whatever its revision is, and returns the answers to those that were done.
func (r Rule) Run(calls []*Call, ask asking) (answers [][]byte, err error) {
	switch {
	case r.IsOpening:
		return r.open(calls, ask)
	case r.IsStopped:
		return untilRefused(calls, ask)
	}
	return ask(calls...)
}

// untilRefused asks for calls until one is refused. Questions change nothing, so those that follow one another are asked at once.
func untilRefused(calls []*Call, ask asking) (answers [][]byte, err error) {
	for len(calls) > 0 {
		count := 1
		for calls[0].Kind == Question && count < len(calls) && calls[count].Kind == Question {
			count++
		}
		found, err := ask(calls[:count]...)
		if err != nil {
			return nil, err
		}
		for _, answer := range found {
			answers = append(answers, answer)
			if !IsAccepted(answer) {
				return answers, nil
			}
		}
		calls = calls[count:]
	}
	return answers, nil
}

// open opens a session with as many of its roles as are accepted one after the other. If none of several is, there is no session.
func (r Rule) open(calls []*Call, ask asking) (answers [][]byte, err error) {
	next := func(count int) ([][]byte, error) {
		found, err := ask(calls[:count]...)
		answers, calls = append(answers, found...), calls[count:]
		return found, err
	}
	if r.Expected != "" {
		if found, err := next(1); err != nil || string(found[0]) != r.Expected {
			return answers, err
		}
	}
	found, err := next(1)
	if roles := len(calls) - 1; err != nil || !IsAccepted(found[0]) || roles < 1 {
		return answers, err
	}
	if found, err = next(len(calls) - 1); err != nil {
		return answers, err
	}
	for _, answer := range found {
		if IsAccepted(answer) {
			return answers, nil
		}
	}
	_, err = next(1)
	return answers, err
}
