package endpoints

import (
	"unicode/utf8"

	"rbac-node/internal/api"
	"rbac-node/internal/callers"
)

const (
	// reasonField is the field in which a client says why it asks for a command, and longestReason the most bytes of that.
	reasonField   = "Office-Reason"
	longestReason = 256
	// openCaller is who asks if everybody who can connect may do everything.
	openCaller = "open"
)

// sign writes on a command who asks for it and why.
func (r *request) sign(call *api.Call) error {
	if !call.IsRecorded() {
		return nil
	}
	call.Caller = r.caller()
	reasons := r.Header[reasonField]
	if len(reasons) == 0 {
		return nil
	}
	if len(reasons) > 1 || !isReason(reasons[0]) {
		return errNotRead
	}
	call.Reason = reasons[0]
	return nil
}

// caller returns who asks.
func (r *request) caller() string {
	if r.visit != nil {
		return r.visit.Caller
	}
	if user := callers.PeerOf(r.Request); user != "" {
		return user
	}
	return openCaller
}

// isReason reports whether a text can be recorded: it is short, and it is valid text without control characters.
func isReason(text string) bool {
	if len(text) > longestReason || !utf8.ValidString(text) {
		return false
	}
	for _, letter := range text {
		if letter < ' ' || 0x7f <= letter && letter < 0xa0 || letter == '\u2028' || letter == '\u2029' {
			return false
		}
	}
	return true
}
