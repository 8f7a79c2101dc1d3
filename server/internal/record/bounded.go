package record

import (
	"crypto/sha256"
	"encoding/hex"
	"encoding/json"
	"regexp"
	"strconv"
	"strings"
	"unicode/utf8"
)

const (
	// mostRefused is how many bytes a request may have that is refused and recorded whole.
	mostRefused = 1024
	// begunBytes is how many bytes of a longer one are recorded.
	begunBytes = 256
)

// boundedKeys are the keys of names that are recorded of a longer request too, so that it is found by them.
var boundedKeys = []string{"user", "role", "asc", "desc", "object", "operation", "set", session}

// boundedForm is how a longer request begins that was refused. The office has no function with the key bytes.
var boundedForm = regexp.MustCompile(`^\{"fn":"[a-zA-Z]+","bytes":[0-9]+,"sha256":"[0-9a-f]{64}","begins":"`)

// bound leaves of a long request that was refused its function, its size, its digest, its beginning and the names in it. Such a
// request changes nothing, so no rerun needs it. Whoever may send commands could fill the disk with them otherwise.
func (e *entry) bound() {
	if len(e.request) > mostRefused && isRefusal(e.answer) && e.isCommand() {
		e.shorten()
	}
}

// shorten leaves of a request what bound says.
func (e *entry) shorten() {
	var asked map[string]json.RawMessage
	if json.Unmarshal([]byte(e.request), &asked) != nil {
		return
	}
	var line strings.Builder
	line.WriteString(`{"fn":` + string(asked["fn"]) + "," + shownStart(e.request))
	for _, key := range boundedKeys {
		var name string
		if json.Unmarshal(asked[key], &name) == nil && 0 < len(name) && len(name) <= longestName {
			line.WriteString(`,"` + key + `":` + quoted(name))
		}
	}
	line.WriteByte('}')
	// The log of several machines may have lines that no node has written, such as a function with an escape.
	if text := line.String(); boundedForm.MatchString(text) {
		e.request = text
	}
}

// shownStart returns what is shown of a long text, as keys of JSON.
func shownStart(text string) string {
	begins := text
	if len(begins) > begunBytes {
		begins = begins[:begunBytes]
	}
	for !utf8.ValidString(begins) {
		begins = begins[:len(begins)-1]
	}
	sum := sha256.Sum256([]byte(text))
	return `"bytes":` + strconv.Itoa(len(text)) + `,"sha256":"` + hex.EncodeToString(sum[:]) + `","begins":` + quoted(begins)
}

// isBounded reports whether the entry is a request that was refused, of which only the beginning is recorded. The replay doesn't get it.
func (e *entry) isBounded() bool { return boundedForm.MatchString(e.request) && isRefusal(e.answer) }

// isRefusal reports whether an answer is that of a command that was refused.
func isRefusal(answer string) bool { return strings.HasPrefix(answer, `{"code":`) }
