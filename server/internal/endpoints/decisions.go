package endpoints

import (
	"net/http"
	"strings"

	"rbac-node/internal/api"
)

// checkAccess is the function that decides about a session.
const checkAccess = "checkAccess"

// deciding returns the call that decides about a session, or about a user in some session, if a user is named. That has to be allowed to
// the caller.
func deciding(asked api.Arguments) (*api.Call, error) {
	if asked.User != "" {
		return decidingByUser(asked), nil
	}
	return api.NewCallWith(checkAccess, asked)
}

func decidingByUser(asked api.Arguments) *api.Call {
	return api.NewOther(api.DecideByUser, "user", asked.User, "operation", asked.Operation, "object", asked.Object)
}

// readAsked reads what is to be decided about what is at one of some keys, of which one has to be there. What the office says of an empty
// name is for the office to say.
func readAsked(fields api.Fields, keys ...string) (*api.Call, error) {
	var asked api.Arguments
	texts := map[string]*string{"session": &asked.Session, "user": &asked.User, "operation": &asked.Operation, "object": &asked.Object}
	count := 0
	for key, text := range texts {
		if !fields.Has(key) {
			continue
		}
		var err error
		if *text, err = api.TextAt(fields, key); err != nil {
			return nil, err
		}
		if has(keys, key) {
			count++
		}
	}
	if count != 1 {
		return nil, notRead("one key has to be there: %s", strings.Join(keys, " or "))
	}
	for _, key := range []string{"operation", "object"} {
		if !fields.Has(key) {
			return nil, notRead("%s is missing", key)
		}
	}
	if fields.Has("user") {
		return decidingByUser(asked), nil
	}
	return api.NewCallWith(checkAccess, asked)
}

// check refuses what lacks an operation or an object, with the name of what is missing.
func check(asked api.Arguments, operation, object string) error {
	switch "" {
	case asked.Operation:
		return notRead("%s is missing", operation)
	case asked.Object:
		return notRead("%s is missing", object)
	}
	return nil
}

// decideByUser answers whether a user may do an operation on an object in some session.
func (e *Endpoints) decideByUser(r *request) (int, error) {
	fields, err := readObject(r)
	if err != nil {
		return 0, err
	}
	call, err := readAsked(fields, "user")
	if err == nil {
		err = r.may(call) // Before the revision, as for each function.
	}
	if err != nil {
		return 0, err
	}
	rule, err := api.RuleOf(r.Request)
	if err != nil {
		return 0, err
	}
	answers, err := e.askAll(r, rule, call)
	if err != nil {
		return 0, err
	}
	return r.reply(api.StatusOf(answers[0]), answers[0]), nil
}

// decideAll decides calls of a caller at one place in the order.
func (e *Endpoints) decideAll(r *request, calls ...*api.Call) ([]api.Decision, error) {
	answers, err := e.askAll(r, api.Rule{}, calls...)
	if err != nil {
		return nil, err
	}
	decisions := make([]api.Decision, len(calls))
	for i, answer := range answers {
		decisions[i] = api.DecisionOf(calls[i], answer)
	}
	return decisions, nil
}

// askAll returns the answers to calls of a caller that decide, at one place in the order, if the policy is as a rule says.
func (e *Endpoints) askAll(r *request, rule api.Rule, calls ...*api.Call) ([][]byte, error) {
	if err := r.may(calls...); err != nil {
		return nil, err
	}
	ask := e.askAtOnce
	if len(calls) == 1 {
		ask = func(r *request, rule api.Rule, calls []*api.Call) ([][]byte, error) { return e.ask(r, rule, calls...) }
	}
	answers, err := ask(r, rule, calls)
	if err != nil {
		return nil, err
	}
	for i, answer := range answers {
		e.decided(r, calls[i], answer)
	}
	return answers, nil
}

// The fields of a request to decide.
const (
	sessionField, userField     = "Office-Session", "Office-User"
	operationField, objectField = "Office-Operation", "Office-Object"
)

// decide answers a request by its status alone: 204 if it is allowed, and 403 if it isn't. What is asked is in its header.
func (e *Endpoints) decide(r *request) (int, error) {
	asked, err := readFields(r.Header)
	if err != nil {
		return 0, err
	}
	if asked.Session+asked.User == "" {
		return r.status(http.StatusForbidden), nil // Nobody has logged in.
	}
	call, err := deciding(asked)
	if err != nil {
		return 0, err
	}
	decisions, err := e.decideAll(r, call)
	if err != nil {
		return 0, err
	}
	if decisions[0].IsAllowed {
		return r.status(http.StatusNoContent), nil
	}
	return r.status(http.StatusForbidden), nil
}

// readFields reads what is to be decided from a header. The session and the user may be left out: a gateway leaves out what has no
// value.
func readFields(header http.Header) (asked api.Arguments, err error) {
	for name, text := range map[string]*string{
		sessionField: &asked.Session, userField: &asked.User, operationField: &asked.Operation, objectField: &asked.Object,
	} {
		values := header[name]
		if len(values) > 1 {
			return asked, notRead("%s is there more than once", name)
		}
		*text = header.Get(name)
	}
	if asked.Session != "" && asked.User != "" {
		return asked, notRead("%s and %s exclude each other", sessionField, userField)
	}
	return asked, check(asked, operationField, objectField)
}
