package endpoints

import (
	"crypto/rand"
	"encoding/hex"
	"encoding/json"
	"fmt"
	"net/http"
	"strings"

	"rbac-node/internal/api"
	"rbac-node/internal/state"
)

// randomBytes is how many random bytes the name of a session has. It is written with twice as many digits.
const randomBytes = 16

// noRoom is what the office answers to a login if it has as many sessions as it may have, and EndsSessions says what to do.
const (
	noRoom       = `{"code":32,"error":"TooMany","kind":"session"}`
	EndsSessions = "an application ends a session at the logout, and the front ends those that nobody uses: --session-idle, --session-age"
)

// noUser is the code with which every request about a user who doesn't exist is refused.
const noUser = 2

// A made session is what is answered about one.
type made struct {
	Left    []left   `json:"left"`
	Roles   []string `json:"roles"`
	Session string   `json:"session"`
}

// A left role is one that isn't activated in a session, and why.
type left struct {
	Code  int    `json:"code"`
	Error string `json:"error"`
	Kind  string `json:"kind,omitempty"`
	Role  string `json:"role"`
	Set   string `json:"set,omitempty"`
}

// An opening is the making of a session.
type opening struct {
	*request
	endpoints *Endpoints
	rule      api.Rule
	user      string
	// wanted has the roles that the client has named, if it has named any.
	wanted  []string
	hasList bool
	made    made
}

// mostOpenings is how often a session is tried whose user is assigned to other roles when its turn comes.
const mostOpenings = 10

// makeSession makes a session with a random name and as many of a user's roles as the caller may give and the office accepts.
func (e *Endpoints) makeSession(r *request) (int, error) {
	fields, err := readObject(r)
	if err != nil {
		return 0, err
	}
	o, err := readOpening(fields)
	if err != nil {
		return 0, err
	}
	o.request, o.endpoints = r, e
	if o.rule, err = api.RuleOf(r.Request); err != nil {
		return 0, err
	}
	refused, err := o.open()
	if err != nil {
		return 0, err
	}
	if refused != nil {
		return r.reply(api.StatusOf(refused), refused), nil
	}
	return r.replyValue(o.made)
}

func readOpening(fields api.Fields) (*opening, error) {
	o := &opening{made: made{Left: []left{}, Roles: []string{}}}
	var err error
	if o.user, err = api.TextAt(fields, "user"); err != nil {
		return nil, err
	}
	if !fields.Has("roles") {
		return o, nil
	}
	o.hasList = true
	listed, err := api.Texts(fields.At("roles"))
	if err != nil {
		return nil, notRead("roles has to be a list of texts")
	}
	for _, role := range listed {
		if !has(o.wanted, role) {
			o.wanted = append(o.wanted, role)
		}
	}
	if len(o.wanted) > api.MaxBatchCommands {
		return nil, notRead("roles has at most %d roles", api.MaxBatchCommands)
	}
	return o, nil
}

// open makes the session, or returns how the office refuses it. The roles that the user is assigned to are asked before: if they are
// others when the turn of the session comes, nothing is done, and it is tried again with those.
func (o *opening) open() (refused []byte, err error) {
	if o.hasList {
		answers, err := o.do(o.wanted)
		if err != nil {
			return nil, err
		}
		return o.read(answers)
	}
	assigned, err := api.NewCall("assignedRoles", "user", o.user)
	if err != nil {
		return nil, err
	}
	answers, err := o.endpoints.ask(o.request, api.Rule{}, assigned)
	for tried := 0; err == nil && tried < mostOpenings; tried++ {
		var roles []string
		if !api.IsAccepted(answers[0]) {
			return answers[0], o.mayMakeAny()
		}
		if err = api.ValueOf(answers[0], &roles); err != nil {
			return nil, err
		}
		o.rule.Expected = string(answers[0])
		if answers, err = o.do(roles, assigned); err == nil && len(answers) > 1 {
			return o.read(answers[1:])
		}
	}
	if err == nil {
		err = api.Unavailable
	}
	return nil, err
}

// mayMakeAny refuses a caller who may only make sessions for some roles: it isn't told who is a user, or why there is no session.
func (o *opening) mayMakeAny() error {
	create, err := o.call("createSession")
	if err != nil {
		return err
	}
	return o.may(create)
}

// do opens the session with those of some roles that the caller may give. Some calls come before.
func (o *opening) do(roles []string, before ...*api.Call) ([][]byte, error) {
	o.made.Left = []left{}
	var err error
	if o.made.Roles, err = o.mayGive(roles); err != nil {
		return nil, err
	}
	if len(o.made.Roles) == 0 {
		if err := o.mayMakeAny(); err != nil {
			return nil, err
		}
	}
	calls := before
	add := func(function string, pairs ...string) {
		call, failed := o.call(function, pairs...)
		if failed == nil {
			failed = o.sign(call)
		}
		if failed != nil && err == nil {
			err = failed
		}
		calls = append(calls, call)
	}
	add("createSession")
	for _, role := range o.made.Roles {
		add("addActiveRole", "role", role)
	}
	add("deleteSession")
	if err != nil {
		return nil, err
	}
	o.rule.IsOpening = true
	return o.endpoints.ask(o.request, o.rule, calls...)
}

// read reads the answers to createSession and to the activation of each role. If none of several was accepted, there is no session.
func (o *opening) read(answers [][]byte) (refused []byte, err error) {
	if !api.IsAccepted(answers[0]) {
		return o.refusal(answers[0])
	}
	tried := o.made.Roles
	o.made.Roles = []string{}
	for i, role := range tried {
		answer := answers[i+1]
		if api.IsAccepted(answer) {
			o.made.Roles = append(o.made.Roles, role)
			continue
		}
		refused = answer
		one := left{Role: role}
		if err := json.Unmarshal(answer, &one); err != nil {
			return nil, fmt.Errorf("the answer %s: %w", answer, err)
		}
		o.made.Left = append(o.made.Left, one)
	}
	if len(o.made.Roles) > 0 {
		return nil, nil
	}
	return refused, nil
}

// refusal returns how createSession refuses the last of the roles, after a refusal of a session without any. That the role doesn't exist, or
// that the user isn't authorized for it, comes before the lock, which is reported only to callers who may assign one of the user's roles.
func (o *opening) refusal(refused []byte) ([]byte, error) {
	if code, _ := api.CodeOf(refused); code == noUser || len(o.made.Roles) == 0 {
		return refused, nil
	}
	if _, err := o.endpoints.office.Await(o.ctx, o.kind); err != nil {
		return nil, err
	}
	last := o.made.Roles[len(o.made.Roles)-1]
	err := o.endpoints.office.State().Look(func(v *state.View) {
		switch {
		case !v.HasRole(last):
			refused = api.RefusalText(4, "NoRole")
		case !has(v.Names("authorizedRoles", "user", o.user), last):
			refused = api.RefusalText(29, "NotAuthorized")
		}
	})
	return refused, err
}

// mayGive returns those of some roles that the caller may give to a session. The others are left out. They are named if the client has
// named them, or may ask which roles the user has.
func (o *opening) mayGive(roles []string) (given []string, err error) {
	assigned := api.NewOther("assignedRoles", "user", o.user)
	isNamed := o.hasList || o.may(assigned) == nil
	for _, role := range roles {
		call, err := o.call("createSession")
		if err != nil {
			return nil, err
		}
		call.Roles = []string{role}
		switch err := o.may(call); {
		case err == nil:
			given = append(given, role)
		case err != api.Forbidden:
			return nil, err
		case isNamed:
			o.made.Left = append(o.made.Left, left{Code: api.Forbidden.Code, Error: api.Forbidden.Name, Role: role})
		}
	}
	return given, nil
}

// call makes a call about the session, whose name is chosen with the first one.
func (o *opening) call(function string, pairs ...string) (*api.Call, error) {
	if o.made.Session == "" {
		random := make([]byte, randomBytes)
		if _, err := rand.Read(random); err != nil {
			return nil, fmt.Errorf("the name of a session: %w", err)
		}
		o.made.Session = hex.EncodeToString(random)
	}
	return api.NewCall(function, append(pairs, "user", o.user, "session", o.made.Session)...)
}

// sessionsPath is where sessions are, by their digests.
const sessionsPath = "/sessions/"

// deleteSession ends the session with a digest.
func (e *Endpoints) deleteSession(r *request) (int, error) {
	s, err := e.known(r)
	if err != nil {
		return 0, err
	}
	session, isThere := s.ByDigest(strings.TrimPrefix(r.URL.Path, sessionsPath))
	call, err := api.NewCall("deleteSession", "user", session.User, "session", session.Name)
	if err == nil {
		err = r.may(call)
	}
	if err != nil {
		return 0, err
	}
	rule, err := api.RuleOf(r.Request)
	if err != nil {
		return 0, err
	}
	text := api.RefusalText(noSession.Code, noSession.Name)
	if isThere {
		answers, err := e.ask(r, rule, call)
		if err != nil {
			return 0, err
		}
		text = answers[0]
	}
	return r.reply(api.StatusOf(text), text), nil
}

// noSession is what the office answers about a session that doesn't exist.
var noSession = api.Refusal{Status: http.StatusConflict, Code: 26, Name: "NoSession"}
