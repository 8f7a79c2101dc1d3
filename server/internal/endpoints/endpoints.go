// Package endpoints answers requests from an office: for its functions, and for what no function does, such as batches, decisions by status
// alone, and the interfaces that others speak.
package endpoints

import (
	"context"
	"errors"
	"net/http"
	"net/url"
	"strconv"
	"strings"
	"time"

	"github.com/prometheus/client_golang/prometheus"

	"rbac-node/internal/api"
	"rbac-node/internal/callers"
	"rbac-node/internal/recorded"
	"rbac-node/internal/state"
	"rbac-node/internal/trial"
)

// An Office is what the endpoints ask.
type Office interface {
	api.Office
	// Await returns when the state has all that questions of a kind have to see.
	Await(ctx context.Context, kind api.Kind) (api.Point, error)
	// State returns what is known of the office, or nil. IsReady reports whether the office answers, and Health its condition.
	State() *state.State
	IsReady() bool
	Health() api.Health
	// Record returns the record, or nil if nothing is recorded.
	Record() recorded.Reader
	// Note keeps an entry in the record that is no command, and returns its number.
	Note(ctx context.Context, entry *api.Call) (number int64, err error)
	// Settle returns when all commands are done that were asked before, also those that nobody waits for any more.
	Settle(ctx context.Context) error
}

// Options are what the front sets.
type Options struct {
	// PublicURL is where clients find the front, or empty.
	PublicURL string
	// LogDecision is called with each decision about access, unless it is nil.
	LogDecision func(decided api.Decision)
	// Denied is called if a caller may not do something: a call, or nil if its body wasn't read.
	Denied  func(r *http.Request, visit *callers.Visit, call *api.Call)
	Metrics prometheus.Registerer
}

// Endpoints answer requests from an office.
type Endpoints struct {
	Options
	figures
	// life is the context of requests: they are done also if the client has ended its side of the connection, as `rbac serve` does them.
	life   context.Context
	office Office
	at     map[string]endpoint
	// tickets let reports be read, and slots large answers be made. questions has slots for long questions, and bodies for large bodies.
	tickets                  *tickets
	slots, questions, bodies *slots
	snapshotted              snapshotted
	cloned                   cloned
	trials                   trial.Turn
}

// New returns endpoints that answer until the context ends.
func New(life context.Context, office Office, options Options) *Endpoints {
	e := &Endpoints{
		Options: options, figures: newFigures(options.Metrics), life: life, office: office,
		tickets: newTickets(), slots: newSlots(), questions: newSlots(), bodies: newSlots(), cloned: newCloned(), trials: trial.NewTurn(),
	}
	e.add()
	return e
}

// A request is one that is being answered.
type request struct {
	*http.Request
	w   http.ResponseWriter
	ctx context.Context
	// visit is nil if there are no callers.
	visit *callers.Visit
	// kind is how questions are to be answered.
	kind api.Kind
	// denied is the last call that the caller may not do.
	denied *api.Call
	// slot is nil unless the request needs one.
	slot *slot
}

// whileThere returns a context that ends when the client is gone or has ended its side of the connection, or has waited for long.
func (r *request) whileThere() (context.Context, context.CancelFunc) {
	return context.WithTimeout(r.Context(), askingTimeout)
}

// An endpoint is what is at a path: how a request is counted, its methods, and what answers it and returns the status, or an error
// that is answered. A caller needs one of the operations before a body that isn't small is read, if there are any: what the body names
// is judged later.
type endpoint struct {
	kind       api.Kind
	methods    []string
	answer     func(*request) (int, error)
	operations []string
}

// What needs some right to what a body may name.
var (
	decisions  = []string{checkAccess, api.DecideByUser}
	explaining = append(state.SeparatingFunctions(), decisions...)
	batching   = append(api.Functions(), api.DecideByUser)
)

func (e *Endpoints) add() {
	e.at = map[string]endpoint{
		"/v1/batch":              {"batch", post, e.batch, batching},
		"/v1/decideByUser":       {"decision", post, e.decideByUser, decisions[1:]},
		"/decide":                {"decision", getOrPost, e.decide, nil},
		"/access/v1/evaluation":  {"decision", post, e.evaluation, decisions},
		"/access/v1/evaluations": {"batch", post, e.evaluations, decisions},
		"/explain":               {"question", post, e.explain, explaining},
		"/sessions":              {"command", post, e.makeSession, []string{"createSession"}},
		severalLists:             {"list", post, e.lists, nil},
		"/snapshot":              {"list", get, e.snapshot, nil},
		"/watch":                 {"watch", get, e.watch, nil},
		"/caller":                {"question", get, e.caller, nil},
		"/record":                {"list", get, e.record, nil},
		"/record/links":          {"list", get, e.links, nil},
		"/room":                  {"list", get, e.room, nil},
		"/picture":               {"picture", get, e.picture, nil},
		"/what-if":               {"trial", post, e.whatIf, nil},
		"/reviews":               {"command", post, e.endReview, nil},
	}
}

func (e *Endpoints) find(target string) (found endpoint, has bool) {
	path, _, _ := strings.Cut(target, "?")
	if strings.HasPrefix(path, sessionsPath) {
		return endpoint{"command", []string{http.MethodDelete}, e.deleteSession, nil}, true
	}
	if strings.HasPrefix(path, listsPath) {
		return endpoint{"list", get, e.list, nil}, true
	}
	if strings.HasPrefix(path, reportsPath) {
		return endpoint{"report", post, e.report, nil}, true
	}
	found, has = e.at[path]
	return found, has
}

var get, post, getOrPost = []string{http.MethodGet}, []string{http.MethodPost}, []string{http.MethodGet, http.MethodPost}

// Serve answers a request of a caller, or of anybody if there are no callers. What is for no endpoint is for a function.
func (e *Endpoints) Serve(w http.ResponseWriter, r *http.Request, visit *callers.Visit) {
	start, asked := time.Now(), &request{Request: r, w: w, ctx: e.life, visit: visit}
	defer func() { asked.slot.leave() }()
	status, err := 0, error(nil)
	at, isThere := e.find(r.RequestURI)
	if isThere {
		status, err = at.serve(asked)
	} else {
		at.kind, status, err = e.function(asked)
	}
	visit.Done()
	if err != nil {
		refused := api.RefusalOf(err)
		if visit != nil && refused == api.Forbidden {
			e.Denied(r, visit, asked.denied)
		}
		var line *api.LineError
		if errors.As(err, &line) {
			w.Header().Set("Office-Line", strconv.Itoa(line.Number))
		}
		status = api.Refuse(w, refused, at.methods...)
	}
	e.Note(at.kind, status, start)
}

func (at endpoint) serve(r *request) (status int, err error) {
	if r.kind, err = api.KindOfQuestions(r.Request); err != nil {
		return 0, err
	}
	if !has(at.methods, r.Method) {
		return 0, api.BadRequest(http.StatusMethodNotAllowed)
	}
	if at.operations != nil {
		if err := r.mayAny(at.operations...); err != nil {
			return 0, err
		}
	}
	return at.answer(r)
}

// function answers a request for a function of the office, and returns how it is counted.
func (e *Endpoints) function(r *request) (kind api.Kind, status int, err error) {
	name, kind, err := api.FunctionOf(r.Request)
	if err == nil {
		err = r.mayAny(name)
	}
	if err != nil {
		return kind, 0, err
	}
	call, err := api.ReadCall(r.Request, name)
	if err == nil {
		err = r.may(call)
	}
	if err != nil {
		return kind, 0, err
	}
	rule, err := api.RuleOf(r.Request)
	if err != nil {
		return kind, 0, err
	}
	r.kind = kind
	answers, err := e.askOne(r, rule, call)
	if err != nil {
		return kind, 0, err
	}
	if call.Function == checkAccess {
		e.decided(r, call, answers[0])
	}
	return kind, r.reply(api.StatusOf(answers[0]), answers[0]), nil
}

// errNotHere is the refusal of what this front doesn't have, such as a record.
var errNotHere = api.BadRequest(http.StatusNotFound)

// errNotRead is the refusal of a request that can't be read, and notRead the same with what is wrong.
var errNotRead = api.BadRequest(http.StatusBadRequest)

func notRead(why string, values ...any) error {
	return api.BadRequestSince(http.StatusBadRequest, why, values...)
}

// mostEchoed is how many bytes of what a client has sent are sent back at most, in the head of an answer.
const mostEchoed = 100

// echoed returns what a client has sent, or its beginning, in signs that a head may have.
func echoed(text string) string {
	if len(text) > mostEchoed {
		return strconv.QuoteToASCII(text[:mostEchoed]) + ".."
	}
	return strconv.QuoteToASCII(text)
}

// noSuch is the refusal of a path that ends with the name of nothing.
func noSuch(kind, name string) error {
	refused := api.UnknownFunction
	refused.Why = "there is no " + kind + " " + echoed(name)
	return refused
}

// errNoQuery is the refusal of a query that isn't one.
var errNoQuery = notRead("the query isn't written as a URL has it")

// readQuery calls a function with each key of a query and its value, until that fails.
func readQuery(text string, set func(key, value string) error) error {
	values, err := url.ParseQuery(text)
	if err != nil {
		return errNoQuery
	}
	for key, given := range values {
		if len(given) != 1 {
			return notRead("%s is there more than once", echoed(key))
		}
		if err := set(key, given[0]); err != nil {
			return err
		}
	}
	return nil
}

// readLimit reads how many rows an answer has at most.
func readLimit(text string) (int, error) {
	limit, err := strconv.Atoi(text)
	if err != nil || limit < 1 || limit > mostRows {
		return 0, notRead("limit is a number from 1 to %d", mostRows)
	}
	return limit, nil
}

func has(methods []string, method string) bool {
	for _, one := range methods {
		if one == method {
			return true
		}
	}
	return false
}

// known returns what is known of the office, if it answers: nothing is said about an office that may have changed. The head of the
// answer says how old that may be.
func (e *Endpoints) known(r *request) (*state.State, error) {
	if !e.office.IsReady() {
		return nil, api.Unavailable
	}
	at, err := e.office.Await(r.ctx, r.kind)
	if err != nil {
		return nil, err
	}
	api.Point{Newest: at.Newest}.SetHead(r.w.Header())
	return e.office.State(), nil
}

// knownTo is known for a caller that may do an operation.
func (e *Endpoints) knownTo(r *request, operation string) (*state.State, error) {
	if err := r.may(api.NewOther(operation)); err != nil {
		return nil, err
	}
	return e.known(r)
}

// ask does calls as a rule says. The head of the answer says where in the order they were done.
func (e *Endpoints) ask(r *request, rule api.Rule, calls ...*api.Call) ([][]byte, error) {
	b := api.NewBatch(r.kind, calls...)
	b.Rule = rule
	answers, err := api.Do(r.ctx, e.office, b)
	if err != nil {
		return nil, err
	}
	answers.SetHead(r.w.Header())
	return answers.Texts, nil
}

// mayAny refuses the request of a caller that has none of some operations, unless its body is small.
func (r *request) mayAny(operations ...string) error {
	if r.ContentLength <= api.SmallBody {
		return nil
	}
	return r.visit.MayAny(operations...)
}

// may refuses calls unless the caller may do all of them, and writes on commands who asks for them and why.
func (r *request) may(calls ...*api.Call) error {
	for _, call := range calls {
		if err := r.sign(call); err != nil {
			return err
		}
	}
	err := r.visit.May(calls...)
	for i := 0; err != nil && i < len(calls); i++ {
		if r.visit.May(calls[i]) != nil {
			r.denied = calls[i]
			break
		}
	}
	return err
}

func (r *request) reply(status int, text []byte) int {
	r.visit.Done()
	if string(text) == noRoom {
		r.w.Header().Set(api.WhyField, EndsSessions)
	}
	return api.Write(r.w, status, text)
}

func (r *request) status(status int) int {
	r.visit.Done()
	if status != http.StatusNoContent {
		r.w.Header().Set("Content-Length", "0")
	}
	r.w.WriteHeader(status)
	return status
}
