package record

import (
	"net/http"
	"strings"

	"rbac-node/internal/api"
	"rbac-node/internal/feed"
	"rbac-node/internal/office"
	"rbac-node/internal/state"
)

const (
	// longestName is how many bytes the office lets a name have.
	longestName = 64
	session     = "session"
)

// recordedText returns what is recorded in place of the text that names a session. The office refuses a text that is no name
// whatever else it has, so an empty one is refused in the same way.
func recordedText(text string) string {
	if len(text) == 0 || len(text) > longestName || strings.IndexFunc(text, office.IsControl) >= 0 {
		return ""
	}
	return state.DigestOf(text)
}

// recordedLine returns the line that is recorded for a command. It refuses one that would be longer than the replay accepts.
func recordedLine(call *api.Call) ([]byte, error) {
	if !call.Has(session) {
		return call.Line, nil
	}
	line, err := call.LineWith(session, recordedText(call.Session))
	if err != nil {
		return line, api.Refusal{Status: http.StatusRequestEntityTooLarge, Code: 34, Name: "BadRequest"}
	}
	return line, nil
}

// Admit writes the lines that are recorded for a unit, or refuses it.
func (r *Record) Admit(u *feed.Unit) (err error) {
	u.Recorded = make([][]byte, len(u.Calls))
	for _, i := range u.Commands() {
		if u.Recorded[i], err = recordedLine(u.Calls[i]); err != nil {
			return err
		}
	}
	return nil
}
