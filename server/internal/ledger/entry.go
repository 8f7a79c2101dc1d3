package ledger

import (
	"bytes"
	"encoding/json"

	"rbac-node/internal/api"
)

// A Unit is what is asked for at once: lines with nothing of others between them.
type Unit struct {
	// At is when a node got it, Caller is who asks, and Reason why, if that was said.
	Caller string `json:"by"`
	At     string `json:"at"`
	Reason string `json:"why,omitempty"`
	// Rule says which of the lines are done, if not all are.
	Rule *api.Rule `json:"rule,omitempty"`
	// Bounds says that of a long request that is refused only the beginning is recorded. Whoever appends the unit says so, and not
	// whoever records it: so all nodes have the same record, whatever version each of them is, and also if they read the log again.
	Bounds bool `json:"bounds,omitempty"`
	// Lines are requests, which begin with `{"fn":`, and ends of reviews, which begin with `{"record":`.
	Lines [][]byte `json:"-"`
}

// A Place names an entry of the log. Without an ID it is a revision alone, such as that of a snapshot.
type Place struct {
	Revision int64
	ID       string
	// key is that of the entry below the prefix.
	key string
}

// Size returns how many bytes the unit takes in an entry, with the line that says who asks.
func (u *Unit) Size() int {
	head, _ := json.Marshal(u) // It has nothing that can't be written.
	size := len(head) + 1
	for _, line := range u.Lines {
		size += len(line) + 1
	}
	return size
}

// An Entry is a batch of units with its place in the order.
type Entry struct {
	Place
	Units []Unit
}

// Lines returns the lines of all units. The place of a line is its number among them.
func (e *Entry) Lines() (lines [][]byte) {
	for _, u := range e.Units {
		lines = append(lines, u.Lines...)
	}
	return lines
}

// beginsUnit begins the first line of a unit. No request begins so.
var beginsUnit = []byte(`{"by":`)

// textOf writes units: each begins with a line that says who has asked for its lines, when and why.
func textOf(units []Unit) (string, error) {
	var lines [][]byte
	for _, u := range units {
		head, err := json.Marshal(u)
		if err != nil {
			return "", err
		}
		lines = append(append(lines, head), u.Lines...)
	}
	return string(bytes.Join(lines, []byte("\n"))), nil
}

// entryOf reads an entry. All nodes read what no node has written in the same way.
func entryOf(place Place, text []byte) Entry {
	e := Entry{Place: place}
	for _, line := range bytes.Split(text, []byte("\n")) {
		if bytes.HasPrefix(line, beginsUnit) {
			var u Unit
			if json.Unmarshal(line, &u) != nil {
				u = Unit{}
			}
			e.Units = append(e.Units, u)
			continue
		}
		if len(e.Units) == 0 {
			e.Units = []Unit{{}}
		}
		last := &e.Units[len(e.Units)-1]
		last.Lines = append(last.Lines, line)
	}
	return e
}
