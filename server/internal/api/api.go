// Package api answers requests over HTTP as `rbac serve` does.
package api

import (
	"bytes"
	"context"
	"errors"
	"fmt"
	"io"
	"net/http"
	"strconv"
	"strings"
	"time"

	"rbac-node/internal/boottime"
)

// A Kind is how a request is answered.
type Kind string

// A command is done by all copies of an office in one order. The state that answers a question has everything that was
// answered anywhere before the question came; a local one is answered from the state at hand.
const (
	Command  Kind = "command"
	Question Kind = "question"
	Local    Kind = "local"
	// Entry is what is recorded in the one order and changes nothing.
	Entry Kind = "entry"
)

// Answers are what the program answered to the calls of a batch that were done, and where in the order.
type Answers struct {
	Texts [][]byte
	Point
}

// A Point is a place in the order of an office. On several machines Revision is that of a command's entry in the log, in which it has
// a place, or that of the last entry before a question.
type Point struct {
	Revision int64
	Place    int
	// Newest is a moment at which the state that answered a question was the newest one.
	Newest boottime.Moment
	// Policy is the revision of the policy after a command, or that of the state that answered a question, or 0 if it isn't known.
	Policy int64
	// Number is that of the last command before a question: two questions with the same are of one moment.
	Number int64
}

// ForgetPolicy takes back what the head of an answer says of the policy.
func ForgetPolicy(head http.Header) { delete(head, policyField) }

// SetHead says in an answer where in the order it is from, as far as that is known. That of one machine has a policy alone.
func (p Point) SetHead(head http.Header) {
	if p.Policy > 0 {
		head[policyField] = []string{strconv.FormatInt(p.Policy, 10)}
	}
	if p.Revision > 0 {
		head.Set("Office-Revision", strconv.FormatInt(p.Revision, 10))
	}
	switch {
	case p.Newest > 0:
		// The age is that at this time or a later one, also if the process is paused before the answer is written.
		head.Set("Date", time.Now().UTC().Format(http.TimeFormat))
		head.Set("Office-Age", strconv.FormatFloat(boottime.Since(p.Newest).Seconds(), 'f', 3, 64))
	case p.Revision > 0:
		head.Set("Office-Place", strconv.Itoa(p.Place))
	}
}

// A Refusal is what is answered without the office: an HTTP status, a code and its name, and what is wrong with the request, if more is
// to be said than that.
type Refusal struct {
	Status, Code int
	Name, Why    string
}

func (r Refusal) Error() string {
	if r.Why == "" {
		return r.Name
	}
	return r.Name + ": " + r.Why
}

// RefusalOf returns how an error is answered.
func RefusalOf(err error) Refusal {
	refused := Unavailable
	_ = errors.As(err, &refused)
	return refused
}

var (
	// Unavailable means that there was no answer in time. A command may be done or not.
	Unavailable = Refusal{Status: http.StatusServiceUnavailable, Code: 60, Name: "Unavailable"}
	// Diverged means that the snapshot of this node is not that of most nodes at the same revision.
	Diverged = Refusal{Status: http.StatusServiceUnavailable, Code: 61, Name: "Diverged"}
	// Unauthorized means that the request doesn't show who asks.
	Unauthorized = Refusal{Status: http.StatusUnauthorized, Code: 62, Name: "Unauthorized"}
	// Forbidden means that the caller may not do this.
	Forbidden = Refusal{Status: http.StatusForbidden, Code: 63, Name: "Forbidden"}
	// TooManyRequests means that the caller has too many requests at once.
	TooManyRequests = Refusal{Status: http.StatusTooManyRequests, Code: 64, Name: "TooManyRequests"}
	// ForeignOrigin means that a page of a foreign site has made a browser send the request.
	ForeignOrigin = Refusal{Status: http.StatusForbidden, Code: 65, Name: "ForeignOrigin"}
	// ForeignHost means that the request was sent to a name that isn't one of this machine.
	ForeignHost = Refusal{Status: http.StatusMisdirectedRequest, Code: 66, Name: "ForeignHost"}
	// Outdated means that the policy has changed since the revision that the request names.
	Outdated = Refusal{Status: http.StatusPreconditionFailed, Code: 67, Name: "Outdated"}
	// UnknownFunction means that nothing is at a path.
	UnknownFunction = Refusal{Status: http.StatusNotFound, Code: 35, Name: "UnknownFunction"}
)

// BadRequest is the refusal of a request that can't be read.
func BadRequest(status int) Refusal { return Refusal{Status: status, Code: 34, Name: "BadRequest"} }

// BadRequestSince is BadRequest with what is wrong.
func BadRequestSince(status int, why string, values ...any) Refusal {
	refused := BadRequest(status)
	refused.Why = fmt.Sprintf(why, values...)
	return refused
}

// tooLong is the refusal of a body with more bytes than it may have.
func tooLong(most int64) Refusal {
	return BadRequestSince(http.StatusRequestEntityTooLarge, "the body has more than %d bytes", most)
}

// WhyField is the field of an answer that says what is wrong with a request, or what to do.
const WhyField = "Office-Why"

// An Office does batches of calls. An error that is no Refusal is answered as Unavailable. If all are questions, it may answer only the
// first ones, which are of one moment.
type Office interface {
	Do(ctx context.Context, b Batch) (Answers, error)
}

// These are limits of `rbac serve`. A longer import, which it accepts, would make a line that no replay accepts.
const MaxBodyBytes, maxFields = 65_536, 64

// Allowed and Denied are what the office answers to a question about access that it decides.
const Allowed, Denied = `{"ok":true,"value":true}`, `{"ok":true,"value":false}`

// Refuse answers a request without the office, and returns the status. If nothing else is said, only POST is allowed.
func Refuse(w http.ResponseWriter, refused Refusal, methods ...string) int {
	head := w.Header()
	if refused.Why != "" {
		head[WhyField] = []string{refused.Why}
	}
	switch refused.Status {
	case http.StatusUnauthorized:
		head.Set("WWW-Authenticate", "Bearer")
	case http.StatusMethodNotAllowed:
		if len(methods) == 0 {
			methods = []string{http.MethodPost}
		}
		head.Set("Allow", strings.Join(methods, ", "))
	case http.StatusNotImplemented, http.StatusLengthRequired:
		Close(w)
	}
	return Write(w, refused.Status, RefusalText(refused.Code, refused.Name))
}

// Close ends the connection behind the answer: nobody may take what follows for the next request.
func Close(w http.ResponseWriter) { w.Header().Set("Connection", "close") }

// Write answers a request with a text of JSON, and returns the status.
func Write(w http.ResponseWriter, status int, text []byte) int {
	return WriteAs(w, status, "application/json", text)
}

// WriteLines answers a request with lines of JSON.
func WriteLines(w http.ResponseWriter, text []byte) int {
	return WriteAs(w, http.StatusOK, "application/jsonl", text)
}

// WriteAs answers a request with a text of a type, and returns the status.
func WriteAs(w http.ResponseWriter, status int, kind string, text []byte) int {
	head := w.Header()
	head["Content-Type"] = []string{kind}
	head["Content-Length"] = []string{strconv.Itoa(len(text))}
	w.WriteHeader(status)
	_, _ = w.Write(text) // If it fails, the client is gone.
	return status
}

// StatusOf returns the status of an answer of the office.
func StatusOf(answer []byte) int {
	if IsAccepted(answer) {
		return http.StatusOK
	}
	switch code, _ := CodeOf(answer); code {
	case 1, 34, 36:
		return http.StatusBadRequest
	case 35:
		return http.StatusNotFound
	}
	return http.StatusConflict
}

// SmallBody is how many bytes of a body are read before it is known whether the caller may do anything of that kind.
const SmallBody = 4096

// FunctionOf returns the function that a request is for, and how it is to be answered. It judges the head in the order of `rbac serve`.
func FunctionOf(r *http.Request) (name string, kind Kind, err error) {
	// A ServeMux would redirect paths that it would write differently.
	name = strings.TrimPrefix(r.RequestURI, "/v1/")
	called, known := functions[name]
	known = known && name != r.RequestURI
	if kind = called.kind; !known {
		kind = "none"
	}
	if err := judgeHead(r, known); err != nil {
		return name, kind, err
	}
	ofQuestions, err := KindOfQuestions(r)
	if kind == Question {
		kind = ofQuestions
	}
	return name, kind, err
}

// ReadCall reads the body of a request for a function, and makes a call of the two.
func ReadCall(r *http.Request, name string) (*Call, error) {
	body, err := readAll(r)
	if err != nil {
		return nil, BadRequest(http.StatusBadRequest)
	}
	return parseBody(name, body)
}

// consistencyField is the field of a request that says how new the state has to be that answers a question.
const consistencyField = "Consistency"

// KindOfQuestions returns how the questions of a request are to be answered, or refuses what it says of that.
func KindOfQuestions(r *http.Request) (Kind, error) {
	switch r.Header.Get(consistencyField) {
	case "", "linearizable":
		return Question, nil
	case string(Local):
		return Local, nil
	}
	return Question, BadRequestSince(http.StatusBadRequest, "Consistency is linearizable or local")
}

// judgeHead refuses a head that `rbac serve` would refuse.
func judgeHead(r *http.Request, known bool) error {
	fields := 1 // The library keeps Host apart.
	for _, values := range r.Header {
		fields += len(values)
	}
	switch {
	case fields > maxFields:
		return BadRequest(http.StatusRequestHeaderFieldsTooLarge)
	case len(r.TransferEncoding) == 0 && !known:
		return UnknownFunction
	case r.ContentLength == 0 && r.Header.Get("Content-Length") == "" && r.ProtoMajor == 1 && r.Method == http.MethodPost:
		return BadRequest(http.StatusLengthRequired)
	}
	return judgeBody(r, MaxBodyBytes)
}

// judgeBody refuses a request that isn't one by POST with a body of at most this many bytes.
func judgeBody(r *http.Request, most int64) error {
	switch {
	case len(r.TransferEncoding) > 0:
		return BadRequest(http.StatusNotImplemented)
	case r.Method != http.MethodPost:
		return BadRequest(http.StatusMethodNotAllowed)
	case r.ContentLength < 0:
		return BadRequest(http.StatusLengthRequired)
	case r.ContentLength > most:
		return tooLong(most)
	}
	return nil
}

// ReadBody returns the body of a request by POST, which may have at most this many bytes.
func ReadBody(r *http.Request, most int64) ([]byte, error) {
	if err := judgeBody(r, most); err != nil {
		return nil, err
	}
	body, err := readAll(r)
	if err != nil {
		return nil, BadRequest(http.StatusBadRequest)
	}
	return body, nil
}

// readAll reads the body of a request that says how long it is. It takes little memory before the client has sent some of it.
func readAll(r *http.Request) ([]byte, error) {
	if r.ContentLength <= SmallBody {
		body := make([]byte, r.ContentLength)
		_, err := io.ReadFull(r.Body, body)
		return body, err
	}
	var body bytes.Buffer
	body.Grow(SmallBody)
	_, err := body.ReadFrom(r.Body)
	return body.Bytes(), err
}
