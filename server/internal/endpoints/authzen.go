package endpoints

import (
	"encoding/json"
	"fmt"
	"net/http"
	"strings"

	"rbac-node/internal/api"
)

// The shapes of the Authorization API 1.0 of OpenID. A subject asks for an action on a resource.

// An evaluation is what one evaluation names. What it doesn't name has an empty text.
type evaluation struct{ subjectType, subjectID, action, resourceType, resourceID string }

// A part of an evaluation is a text at a key of an object, which is at another key.
type part struct {
	above, key string
	text       *string
}

func (asked *evaluation) parts() []part {
	return []part{
		{"subject", "type", &asked.subjectType}, {"subject", "id", &asked.subjectID}, {"action", "name", &asked.action},
		{"resource", "type", &asked.resourceType}, {"resource", "id", &asked.resourceID},
	}
}

// A semantic says which of several evaluations are answered: all of them, or those up to the first with a decision.
type semantic struct{ hasLast, last bool }

var semantics = map[string]semantic{
	"execute_all": {}, "deny_on_first_deny": {hasLast: true}, "permit_on_first_permit": {hasLast: true, last: true},
}

func (e *Endpoints) evaluation(r *request) (int, error) {
	fields, err := readObject(r)
	if err != nil {
		return 0, err
	}
	return e.evaluateOne(r, fields)
}

// evaluateOne answers the evaluation that the fields of a body are.
func (e *Endpoints) evaluateOne(r *request, fields api.Fields) (int, error) {
	asked, err := readEvaluation(fields, evaluation{})
	if err != nil {
		return 0, err
	}
	if err := asked.check(); err != nil {
		return 0, err
	}
	call, err := asked.call()
	if err != nil {
		return 0, err
	}
	if call == nil {
		return 0, notRead("subject.type is session or user, and resource.type has no colon")
	}
	decisions, err := e.decideAll(r, call)
	if err != nil {
		return 0, err
	}
	return r.reply(http.StatusOK, appendDecision(nil, decisions[0])), nil
}

// evaluations answers several evaluations at one place in the order. A body without any is one evaluation.
func (e *Endpoints) evaluations(r *request) (int, error) {
	var fields api.Fields
	leave, err := e.readLarge(r, func(body []byte) (err error) {
		fields, err = api.FieldsOf(string(body))
		return err
	})
	defer leave()
	if err != nil {
		return 0, err
	}
	var list []string
	if value := fields.At("evaluations"); value != "" {
		if list, err = api.Items(value); err != nil {
			return 0, notRead("evaluations has to be a list of objects")
		}
	}
	if len(list) == 0 {
		return e.evaluateOne(r, fields)
	}
	if len(list) > api.MaxBatchLines {
		return 0, api.BadRequestSince(http.StatusRequestEntityTooLarge, "evaluations has at most %d of them", api.MaxBatchLines)
	}
	wanted, err := readSemantic(fields.At("options"))
	if err != nil {
		return 0, err
	}
	evaluations, err := readEvaluations(fields, list)
	if err != nil {
		return 0, err
	}
	decisions, err := e.evaluateAll(r, evaluations)
	if err != nil {
		return 0, err
	}
	return r.reply(http.StatusOK, evaluated(decisions, wanted)), nil
}

// evaluateAll decides evaluations. One about a subject or a resource of an unknown sort is refused by itself.
func (e *Endpoints) evaluateAll(r *request, evaluations []evaluation) ([]api.Decision, error) {
	decisions := make([]api.Decision, len(evaluations))
	var calls []*api.Call
	var places []int
	for i, one := range evaluations {
		call, err := one.call()
		switch {
		case err != nil:
			return nil, err
		case call != nil:
			calls, places = append(calls, call), append(places, i)
		default:
			decisions[i].Code, decisions[i].Name = errNotRead.Code, errNotRead.Name
		}
	}
	if len(calls) == 0 {
		return decisions, nil
	}
	found, err := e.decideAll(r, calls...)
	if err != nil {
		return nil, err
	}
	for i, place := range places {
		decisions[place] = found[i]
	}
	return decisions, nil
}

func evaluated(decisions []api.Decision, wanted semantic) []byte {
	text := []byte(`{"evaluations":[`)
	for i, one := range decisions {
		if i > 0 {
			text = append(text, ',')
		}
		text = appendDecision(text, one)
		if wanted.hasLast && one.IsAllowed == wanted.last {
			break
		}
	}
	return append(text, `]}`...)
}

func appendDecision(text []byte, d api.Decision) []byte {
	switch {
	case d.IsAllowed:
		return append(text, `{"decision":true}`...)
	case d.Code == 0:
		return append(text, `{"decision":false}`...)
	}
	status := api.StatusOf(api.RefusalText(d.Code, d.Name))
	return append(text, fmt.Sprintf(`{"context":{"code":%d,"error":{"message":"%s","status":%d}},"decision":false}`, d.Code, d.Name, status)...)
}

// readObject reads the body of a request about one thing, which is an object of JSON.
func readObject(r *request) (api.Fields, error) {
	body, err := api.ReadBody(r.Request, api.MaxBodyBytes)
	if err != nil {
		return nil, err
	}
	return api.FieldsOf(string(body))
}

func readSemantic(options string) (wanted semantic, err error) {
	if options == "" {
		return wanted, nil
	}
	fields, err := api.FieldsOf(options)
	if err != nil {
		return wanted, notRead("options has to be an object")
	}
	if !fields.Has("evaluations_semantic") {
		return wanted, nil
	}
	name, err := api.TextAt(fields, "evaluations_semantic")
	if err != nil {
		return wanted, err
	}
	wanted, known := semantics[name]
	if !known {
		return wanted, notRead("evaluations_semantic is execute_all, deny_on_first_deny or permit_on_first_permit")
	}
	return wanted, nil
}

// readEvaluations reads the evaluations of a list. What one of them leaves out is taken from the body.
func readEvaluations(fields api.Fields, list []string) ([]evaluation, error) {
	general, err := readEvaluation(fields, evaluation{})
	if err != nil {
		return nil, err
	}
	evaluations := make([]evaluation, len(list))
	for i, one := range list {
		fields, err := api.FieldsOf(one)
		if err != nil {
			return nil, err
		}
		if evaluations[i], err = readEvaluation(fields, general); err != nil {
			return nil, err
		}
		if err := evaluations[i].check(); err != nil {
			return nil, err
		}
	}
	return evaluations, nil
}

// readEvaluation reads an evaluation. What it leaves out is taken from another one.
func readEvaluation(fields api.Fields, other evaluation) (evaluation, error) {
	for _, one := range other.parts() {
		value := fields.At(one.above)
		if value == "" {
			continue
		}
		named, err := api.FieldsOf(value)
		if err != nil {
			return other, notRead("%s has to be an object", one.above)
		}
		if *one.text, err = api.Text(named.At(one.key)); err != nil {
			return other, notRead("%s.%s has to be a text", one.above, one.key)
		}
	}
	return other, nil
}

func (asked evaluation) check() error {
	for _, one := range asked.parts() {
		if *one.text == "" {
			return notRead("%s.%s is missing", one.above, one.key)
		}
	}
	return nil
}

// call returns the call that decides, or nil if the office knows no such subjects or resources. The object is the id of the resource if its
// type is "object", and otherwise TYPE:ID. So a type has no colon: otherwise two resources could be one object.
func (asked evaluation) call() (*api.Call, error) {
	wanted := api.Arguments{Operation: asked.action, Object: asked.resourceID}
	if asked.resourceType != "object" {
		wanted.Object = asked.resourceType + ":" + asked.resourceID
	}
	switch asked.subjectType {
	case "session":
		wanted.Session = asked.subjectID
	case "user":
		wanted.User = asked.subjectID
	}
	if wanted.Session+wanted.User == "" || strings.Contains(asked.resourceType, ":") {
		return nil, nil
	}
	return deciding(wanted)
}

// configurationPath is where clients of AuthZEN look for the end points.
const configurationPath = "/.well-known/authzen-configuration"

// ServeConfiguration says where the end points of AuthZEN are, to anybody. It does nothing for another path, or if nobody has said
// where clients find the front.
func (e *Endpoints) ServeConfiguration(w http.ResponseWriter, r *http.Request) bool {
	if r.RequestURI != configurationPath || e.PublicURL == "" {
		return false
	}
	if r.Method != http.MethodGet {
		w.Header().Set("Allow", http.MethodGet)
		api.Write(w, http.StatusMethodNotAllowed, []byte(`{"code":34,"error":"BadRequest"}`))
		return true
	}
	text, _ := json.Marshal(map[string]string{ // Texts can be written.
		"policy_decision_point":       e.PublicURL,
		"access_evaluation_endpoint":  e.PublicURL + "/access/v1/evaluation",
		"access_evaluations_endpoint": e.PublicURL + "/access/v1/evaluations",
	})
	api.Write(w, http.StatusOK, text)
	return true
}
