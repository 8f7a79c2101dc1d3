package rbacclient

import (
	"context"
	"encoding/json"
	"errors"
	"fmt"
	"strings"
	"unicode/utf8"
)

// The answers that decide, and that of a command without a value.
const (
	allowedText = `{"ok":true,"value":true}`
	deniedText  = `{"ok":true,"value":false}`
	doneText    = `{"ok":true}`
)

// longestAnswer is how many bytes a body may have.
const longestAnswer = 4 << 20

// Permission is the name of an object and that of an operation.
type Permission struct {
	Object, Operation string
}

// RefusedRecord is a record of an import that was refused, counted from 1, and the code of the refusal.
type RefusedRecord struct {
	Record, Code int
}

// ImportReport is what an import did. If its answer was lost and the client repeated it, what it had done before counts as Already.
type ImportReport struct {
	Already, Assigned int
	Refused           []RefusedRecord
}

// argument is a key of a request with its value: a string, a []string or a uint32.
type argument struct {
	key   string
	value interface{}
}

// body writes the body of a request.
func body(function string, arguments []argument) ([]byte, error) {
	if function == "importAssignments" {
		return []byte(arguments[0].value.(string)), nil
	}
	if strings.HasPrefix(function, endsSession) {
		return nil, nil
	}
	text := []byte{'{'}
	for i, argument := range arguments {
		if i > 0 {
			text = append(text, ',')
		}
		text = append(append(append(text, '"'), argument.key...), `":`...)
		name, isText := argument.value.(string)
		switch {
		case isText && strings.IndexFunc(name, isSpecial) < 0:
			text = append(append(append(text, '"'), name...), '"')
		case utf8.ValidString(fmt.Sprint(argument.value)):
			text = append(text, written(argument.value)...)
		default:
			return nil, failed(InvalidRequest, false, errors.New("a name is not UTF-8"))
		}
	}
	return append(text, '}'), nil
}

// isSpecial reports whether a letter in a name may need an escape, or may be none.
func isSpecial(letter rune) bool {
	return letter < ' ' || letter == '"' || letter == '\\' || letter == utf8.RuneError
}

// separators are letters that JSON of Go has escaped, and that of rbac hasn't.
var separators = strings.NewReplacer(`\\`, `\\`, `\u2028`, "\u2028", `\u2029`, "\u2029")

// written returns a value as rbac writes it in JSON.
func written(value interface{}) string {
	var text strings.Builder
	encoder := json.NewEncoder(&text)
	encoder.SetEscapeHTML(false)
	_ = encoder.Encode(value) // What is written here has a form in JSON.
	return separators.Replace(strings.TrimSuffix(text.String(), "\n"))
}

// isExactly reads a value, and reports whether a text is what rbac writes for that value.
func isExactly(text []byte, value interface{}) bool {
	return json.Unmarshal(text, value) == nil && written(value) == string(text)
}

// list is a list in an answer, which may be empty, but is there.
type list[T any] []T

var errNoList = errors.New("there is no list")

func (l *list[T]) UnmarshalJSON(text []byte) error {
	if string(text) == "null" {
		return errNoList
	}
	return json.Unmarshal(text, (*[]T)(l))
}

// reportText is what an import did.
type reportText struct {
	Already  uint32 `json:"already"`
	Assigned uint32 `json:"assigned"`
	Refused  list[struct {
		Code   uint32 `json:"code"`
		Record uint32 `json:"record"`
	}] `json:"refused"`
}

// sessionText is what the front answers about a session that it has opened.
type sessionText struct {
	Left list[struct {
		Code  uint32  `json:"code"`
		Error string  `json:"error"`
		Kind  *string `json:"kind,omitempty"`
		Role  string  `json:"role"`
		Set   *string `json:"set,omitempty"`
	}] `json:"left"`
	Roles   list[string] `json:"roles"`
	Session string       `json:"session"`
}

// isRight reports whether the session has a name, and each role that was left out a name and one reason.
func (s *sessionText) isRight() bool {
	for _, one := range s.Left {
		if one.Kind != nil && one.Set != nil || one.Role == "" || one.Error == "" {
			return false
		}
	}
	return s.Session != ""
}

// left returns the roles that were left out.
func (s *sessionText) left() []LeftOut {
	left := []LeftOut{}
	for _, one := range s.Left {
		left = append(left, LeftOut{one.Role, int(one.Code), one.Error, detailsOf(map[string]*string{"kind": one.Kind, "set": one.Set}, nil)})
	}
	return left
}

// detailsOf returns those further keys of a refusal that are there, or nil.
func detailsOf(texts map[string]*string, numbers map[string]*uint32) (details map[string]interface{}) {
	add := func(key string, value interface{}) {
		if details == nil {
			details = map[string]interface{}{}
		}
		details[key] = value
	}
	for key, text := range texts {
		if text != nil {
			add(key, *text)
		}
	}
	for key, number := range numbers {
		if number != nil {
			add(key, int(*number))
		}
	}
	return details
}

// ask calls a function whose answer has a value of a type.
func ask[T any](ctx context.Context, c *Client, function string, arguments ...argument) (value T, err error) {
	err = c.call(ctx, function, 0, arguments, func(status int, text []byte) *Error {
		var answer struct {
			OK    bool `json:"ok"`
			Value *T   `json:"value"`
		}
		if status != 200 || !isExactly(text, &answer) || !answer.OK || answer.Value == nil {
			return readRefusal(status, text)
		}
		value = *answer.Value
		return nil
	})
	return value, err
}

// readRefusal returns the refusal that an answer is, or an error that says that it is none.
func readRefusal(status int, text []byte) *Error {
	var r struct {
		Code    uint32  `json:"code"`
		Error   string  `json:"error"`
		Set     *string `json:"set,omitempty"`
		Kind    *string `json:"kind,omitempty"`
		Record  *uint32 `json:"record,omitempty"`
		Version *uint32 `json:"version,omitempty"`
	}
	isRight, code := isExactly(text, &r), int(r.Code)
	details := detailsOf(map[string]*string{"set": r.Set, "kind": r.Kind}, map[string]*uint32{"record": r.Record, "version": r.Version})
	if isRight && len(details) <= 1 && refusals[code].isFrom(status, r.Error) {
		return refusal(code, r.Error, details)
	}
	reason, isListed := reasonsOfStatuses[status]
	if !isListed {
		reason = Unexpected
	}
	return failed(reason, true, fmt.Errorf("no answer of rbac: status %d, %d bytes", status, len(text)))
}

// refusalKind is what is known of a refusal: its name, and the statuses of its answers.
type refusalKind struct {
	name     string
	statuses []int
}

// isFrom reports whether an answer that refuses with a status and a name is such a refusal. One that isn't known has the status 409.
func (k refusalKind) isFrom(status int, name string) bool {
	if k.name == "" {
		return status == 409
	}
	for _, one := range k.statuses {
		if one == status {
			return name == k.name
		}
	}
	return false
}
