package rbacclient

import (
	"errors"
	"fmt"
	"strings"
)

// Reason is why a decision allows or denies, or why a call has no result. docs/howto/integrate.md, section 1, has what to do.
type Reason string

// The reasons.
const (
	Allowed         Reason = "allowed"
	Denied          Reason = "denied"
	EndedSession    Reason = "ended_session"
	UnknownName     Reason = "unknown_name"
	Refused         Reason = "refused"
	InvalidRequest  Reason = "invalid_request"
	Unauthenticated Reason = "unauthenticated"
	Forbidden       Reason = "forbidden"
	Unavailable     Reason = "unavailable"
	Unreachable     Reason = "unreachable"
	Untrusted       Reason = "untrusted"
	Unanswered      Reason = "unanswered"
	Unexpected      Reason = "unexpected"
)

// Decision is whether a session may do something, and why. Its zero value denies.
type Decision struct {
	Reason Reason
	Code   int    // that of the refusal, if there was one
	Detail string // what the log has about it
}

// Allowed reports whether to allow: only after the one answer that allows.
func (d Decision) Allowed() bool {
	return d.Reason == Allowed
}

// IsDecided reports whether the office has decided. If not, the reason is to be reported.
func (d Decision) IsDecided() bool {
	return d.Reason == Allowed || d.Reason == Denied
}

// Error says why a call has no result. A command was not done unless MayBeDone: after a lost answer that is unknown, and stays so if no
// server can be reached afterwards. Its text has no name of a session, no token, and nothing of an answer but numbers.
type Error struct {
	Reason    Reason
	MayBeDone bool
	Code      int                    // the refusal's code of docs/reference/api.md, or 0 if the server didn't refuse the request
	Name      string                 // the refusal's name
	Details   map[string]interface{} // the refusal's further key, if any
	Err       error                  // what caused it, if the server didn't refuse the request
}

func (e *Error) Error() string {
	if e.Code == 0 {
		return fmt.Sprintf("rbacclient: %s: %v", e.Reason, e.Err)
	}
	// What a server sends is no text of a log: the name is that of docs/reference/api.md, and the name of a set is only in Details.
	name := refusals[e.Code].name
	if name == "" {
		name = "(a later refusal)"
	}
	text := fmt.Sprintf("rbacclient: refused: %d %s", e.Code, name)
	for key, value := range e.Details {
		if number, isNumber := value.(int); isNumber {
			text += fmt.Sprintf(" %s %d", key, number)
		}
	}
	return text
}

func (e *Error) Unwrap() error {
	return e.Err
}

// IsRefused reports whether an error is a refusal with this code.
func IsRefused(err error, code int) bool {
	var own *Error
	return errors.As(err, &own) && own.Code == code && code != 0
}

// reasons has those of the refusals that a decision can get, by their codes. All others are Refused.
var reasons = map[int]Reason{
	26: EndedSession,
	6:  UnknownName, 33: UnknownName,
	1: InvalidRequest, 34: InvalidRequest, 35: InvalidRequest, 36: InvalidRequest,
	62: Unauthenticated,
	63: Forbidden, 65: Forbidden, 66: Forbidden,
	40: Unavailable, 41: Unavailable, 42: Unavailable, 60: Unavailable, 61: Unavailable, 64: Unavailable,
}

// reasonsOfStatuses has those of answers that aren't rbac's, by their statuses: a proxy sends them.
var reasonsOfStatuses = map[int]Reason{
	401: Unauthenticated,
	403: Forbidden,
	429: Unavailable, 502: Unavailable, 503: Unavailable, 504: Unavailable,
}

// refusal is the error of a refused request.
func refusal(code int, name string, details map[string]interface{}) *Error {
	reason, isKnown := reasons[code]
	if !isKnown {
		reason = Refused
	}
	return &Error{Reason: reason, MayBeDone: code == 41 || code == 60 || code == 61, Code: code, Name: name, Details: details}
}

// failed is the error of a request without an answer of rbac.
func failed(reason Reason, mayBeDone bool, err error) *Error {
	return &Error{Reason: reason, MayBeDone: mayBeDone, Err: err}
}

// asError returns an error as one of this package.
func asError(err error) *Error {
	var own *Error
	if errors.As(err, &own) {
		return own
	}
	return failed(InvalidRequest, false, err)
}

// undecided is the decision if the question has no answer. No other refusal is an answer to it, but that of a user who isn't known.
func undecided(err error) Decision {
	own := asError(err)
	reason := own.Reason
	switch {
	case own.Code == noUser:
		reason = UnknownName
	case reason == Refused:
		reason = Unexpected
	}
	return Decision{Reason: reason, Code: own.Code, Detail: strings.TrimPrefix(own.Error(), "rbacclient: ")}
}

// DecisionOf returns the decision that a result of CheckAccess is: it allows only if there is no error.
func DecisionOf(isAllowed bool, err error) Decision {
	switch {
	case err != nil:
		return undecided(err)
	case isAllowed:
		return Decision{Reason: Allowed}
	}
	return Decision{Reason: Denied}
}

// RefusedError returns the error of a refusal with a code and a name of docs/reference/api.md.
func RefusedError(code int, name string) *Error {
	return refusal(code, name, nil)
}
