package api

import (
	"bytes"
	"encoding/json"
	"fmt"
)

// RefusalText returns a refusal as the office writes it.
func RefusalText(code int, name string) []byte {
	return []byte(fmt.Sprintf(`{"code":%d,"error":"%s"}`, code, name))
}

// IsAccepted reports whether the office accepted what it answers.
func IsAccepted(answer []byte) bool { return bytes.HasPrefix(answer, []byte(`{"ok":true`)) }

// CodeOf returns the code and the name of a refusal, or 0.
func CodeOf(answer []byte) (code int, name string) {
	if IsAccepted(answer) {
		return 0, ""
	}
	var refused struct {
		Code  int
		Error string
	}
	_ = json.Unmarshal(answer, &refused)
	return refused.Code, refused.Error
}

// ValueOf reads the value of an answer.
func ValueOf(answer []byte, value any) error {
	found := struct{ Value any }{value}
	return json.Unmarshal(answer, &found)
}

// A Decision is the answer to a question about access: may a session, or a user in some session, do an operation on an object?
type Decision struct {
	// Caller is who has asked. One of Session and User is empty.
	Caller, Session, User, Operation, Object string
	IsAllowed                                bool
	// Code and Name are those of the refusal if the office refused to decide, which denies.
	Code int
	Name string
}

// DecisionOf returns the decision that an answer to a call is.
func DecisionOf(call *Call, answer []byte) Decision {
	d := Decision{Session: call.Session, User: call.User, Operation: call.Operation, Object: call.Object, IsAllowed: string(answer) == Allowed}
	d.Code, d.Name = CodeOf(answer)
	return d
}
