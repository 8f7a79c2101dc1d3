// Package recorded has what is asked of the record of an office, and what it answers.
package recorded

import (
	"context"
	"encoding/json"
	"errors"
	"io"
	"net/http"
	"strings"
	"time"

	"rbac-node/internal/api"
)

// TimeLayout is how the time of an entry is written, in UTC.
const TimeLayout = "2006-01-02T15:04:05.000Z"

// ReviewPrefix is how the request of an entry begins that says that somebody has ended a review of who has what.
const ReviewPrefix = `{"record":"reviewed",`

// Accepted is the answer of an entry that is no command.
const Accepted = `{"ok":true}`

// A Filter chooses entries. An empty text chooses all.
type Filter struct {
	User, Role, Object, Operation, Function, Caller, Since, Until string
	// Set is a separation of duty set, Session the digest of a session's name, and Reason a part of the reason.
	Set, Session, Reason string
	IsRefused            bool
}

// timeLayouts are how a time of a filter may be written, in UTC and with a Z behind it or without.
var timeLayouts = []string{"2006", "2006-01", "2006-01-02", "2006-01-02T15", "2006-01-02T15:04", "2006-01-02T15:04:05"}

var errTime = errors.New("a time is written as in 2026-11-27 or 2026-11-27T09:30, in UTC")

// ParseTime returns a time of a filter as entries have it. An empty text chooses all.
func ParseTime(text string) (string, error) {
	if text == "" {
		return "", nil
	}
	for _, layout := range timeLayouts {
		if at, err := time.Parse(layout, strings.TrimSuffix(text, "Z")); err == nil {
			return at.Format(TimeLayout), nil
		}
	}
	return "", errTime
}

// A Query asks for the newest entries that a filter chooses.
type Query struct {
	Filter
	// Before is the number that the entries come before, or 0.
	Before int64
	Limit  int
}

// An Entry is a command of the record, or says how a part of the record begins, or that a review has ended.
type Entry struct {
	// Answer is JSON. It is empty if nothing is known yet.
	Answer json.RawMessage `json:"answer,omitempty"`
	At     string          `json:"at"`
	Caller string          `json:"caller"`
	// IsFound says that a start of the front has found out the answer.
	IsFound bool            `json:"found,omitempty"`
	N       int64           `json:"number"`
	Reason  string          `json:"reason,omitempty"`
	Request json.RawMessage `json:"request"`
}

// A Page has entries, the newest first.
type Page struct {
	Entries []Entry
	// HasMore says that there are older ones that the filter chooses.
	HasMore bool
	// Head is the number and the link of the last entry that has an answer, and First the number of the first one that is here.
	Head  string
	First int64
}

// Links are entries, the oldest first, as the texts whose digest, after the link before them, is the link of the entry. They show
// that one head continues another.
type Links struct {
	Entries [][]string `json:"entries"`
	// First is the first entry of the file that they begin in: what comes before it may have been moved away. Head is durable.
	First int64  `json:"first"`
	Head  string `json:"head"`
}

// A Command is one of the log with its answer, or an entry of it that is no command.
type Command struct {
	Call               *api.Call
	Caller, At, Reason string
	Answer             []byte
	// IsBounded says that only the beginning of the request is recorded if it is long and was refused.
	IsBounded bool
}

// A Reader reads a record.
type Reader interface {
	// Recorded returns entries, and Links the next ones after an entry, up to the head.
	Recorded(ctx context.Context, query Query) (Page, error)
	Links(ctx context.Context, after int64) (Links, error)
}

// A Fetch gives the records of other nodes that begin with an entry up to a number to a function, until that accepts one.
type Fetch func(ctx context.Context, most int64, accept func(text io.Reader) error) error

// ErrLater is returned by a Fetch if a node may give its record later.
var ErrLater = errors.New("another node may give its record later")

// FirstField is the field in the head of a reply that has the number of the first entry of a record that is sent.
const FirstField = "Record-First"

// A Follower is the record of a node, which gets the commands of the log in their order.
type Follower interface {
	Reader
	// Resume goes on after the head that the office in the file has, which a snapshot gave. That may have been fetched from another node,
	// and so may be what is missing before it.
	Resume(ctx context.Context, head string, isFetched bool, from Fetch) error
	// ServeHTTP sends the record to another node.
	http.Handler
	// HasBegun reports whether there is a record, and Begin begins one with the office as it was at Resume.
	HasBegun() bool
	Begin(ctx context.Context, at string) error
	// Admit refuses a command that can't be recorded.
	Admit(call *api.Call) error
	// Add adds a command, and returns the number of its entry. It doesn't wait; Room waits until there is room for many more.
	Add(c Command) (number int64)
	Room()
	// Added returns the head after all that was added, or an empty text. Keep makes the entries up to a head durable.
	Added() string
	Keep(ctx context.Context, head string) error
	// Divide may let the record go on in another file after a head that was kept, with which a snapshot was made.
	Divide(ctx context.Context, snapshot, head string)
	// Why says why entries wait instead of being written, or is empty.
	Why() string
	// Failed is closed when the record can't go on, and Failure says why.
	Failed() <-chan struct{}
	Failure() error
	// Close writes what was added. Nothing is added afterwards.
	Close() error
}
