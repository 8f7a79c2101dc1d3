package rbacclient

import (
	"fmt"
	"log"
	"strconv"
	"strings"
	"sync"
	"time"
)

const (
	// lineInterval passes between two lines of the same reason, and mostLines is how many lines there are in as much time at most.
	lineInterval, mostLines = time.Second, 10
	// mostOfName and mostOfText are how many bytes of a name, and of another text, a line shows.
	mostOfName, mostOfText = 80, 200
)

// LogLines decides which lines about failures are written: each change of the reason, and otherwise one a second, which counts the others.
// Its zero value is ready.
type LogLines struct {
	mu          sync.Mutex
	reason      Reason
	leftOut     int
	written     int
	last, start time.Time
}

// Due reports whether a line about this reason is to be written now, and what it ends with.
func (l *LogLines) Due(now time.Time, reason Reason) (end string, isDue bool) {
	l.mu.Lock()
	defer l.mu.Unlock()
	if now.Sub(l.start) >= lineInterval {
		l.start, l.written = now, 0
	}
	if reason == l.reason {
		isDue = now.Sub(l.last) >= lineInterval
	} else {
		isDue = l.written < mostLines
	}
	if !isDue {
		l.leftOut++
		return "", false
	}
	if l.leftOut > 0 {
		end = fmt.Sprintf(" (and %d more since the last line)", l.leftOut)
	}
	l.reason, l.last, l.leftOut = reason, now, 0
	l.written++
	return end, true
}

// Tally counts decisions by their reasons, and logs those that the office hasn't made. Its zero value is ready.
type Tally struct {
	lines  LogLines
	mu     sync.Mutex
	counts map[Reason]uint64
}

// Keep counts a decision, and logs it if the office hasn't made it. The log has no names of sessions.
func (t *Tally) Keep(to *log.Logger, decision Decision, operation, object string) {
	t.mu.Lock()
	if t.counts == nil {
		t.counts = map[Reason]uint64{}
	}
	t.counts[decision.Reason]++
	t.mu.Unlock()
	if decision.IsDecided() {
		return
	}
	if end, isDue := t.lines.Due(time.Now(), decision.Reason); isDue {
		to.Printf("no decision about %s on %s: %s: %s%s", shown(operation), shown(object), decision.Reason, decision.Detail, end)
	}
}

// Counts returns how many decisions there were, by their reasons.
func (t *Tally) Counts() map[Reason]uint64 {
	t.mu.Lock()
	defer t.mu.Unlock()
	copied := make(map[Reason]uint64, len(t.counts))
	for reason, count := range t.counts {
		copied[reason] = count
	}
	return copied
}

// shown is a name as a line shows it: in quotes, in printable ASCII, and not more of it than a name of an office has.
func shown(name string) string {
	if len(name) > mostOfName {
		name = name[:mostOfName]
	}
	return strconv.QuoteToASCII(name)
}

// shownError is an error of the system, or about a certificate, whose text is one line of printable ASCII.
type shownError struct{ error }

func (e shownError) Error() string {
	text := e.error.Error()
	if len(text) > mostOfText {
		text = text[:mostOfText]
	}
	quoted := strconv.QuoteToASCII(text)
	return strings.ReplaceAll(quoted[1:len(quoted)-1], `\"`, `"`)
}

func (e shownError) Unwrap() error {
	return e.error
}
