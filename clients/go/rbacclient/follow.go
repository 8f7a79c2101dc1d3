package rbacclient

import (
	"bufio"
	"bytes"
	"context"
	"errors"
	"fmt"
	"io"
	"net/http"
	"strconv"
	"time"
)

const (
	longestSnapshot = 256 << 20
	// longestLine is how long the line of an event may be: a command, and what is before it.
	longestLine = 65_536 + 64
)

// Outdated is the code of the refusal of a number after which not all commands are known.
const Outdated = 67

// Snapshot is an office as it was: the lines that make it. Sessions have digests for names.
type Snapshot struct {
	Number   uint64    // how many commands had been accepted
	Revision uint64    // how many of them aren't about one session
	Asked    time.Time // what had been accepted before is in it
	Lines    [][]byte
}

// Places returns how many addresses there are.
func (c *Client) Places() int {
	return len(c.addresses)
}

// Snapshot returns what is in the office, by the front at the address with this number. It is for callers with the right snapshot.
func (c *Client) Snapshot(ctx context.Context, place int) (*Snapshot, error) {
	ctx, cancel := context.WithTimeout(ctx, c.timeout)
	defer cancel()
	asked := time.Now()
	response, err := c.get(ctx, c.addresses[place], "/snapshot")
	if err != nil {
		return nil, err
	}
	body, err := readBody(response, longestSnapshot)
	if err != nil {
		return nil, err
	}
	if response.StatusCode != http.StatusOK {
		return nil, readRefusal(response.StatusCode, body)
	}
	number, hasNumber := numberOf(response.Header, "Office-Number")
	revision, hasRevision := numberOf(response.Header, "Policy-Revision")
	if !hasNumber || !hasRevision || len(body) > 0 && body[len(body)-1] != '\n' {
		return nil, failed(Unexpected, false, errors.New("no snapshot: it has no number, no revision, or half of a line"))
	}
	c.saw(revision)
	lines := bytes.Split(body, []byte{'\n'})
	return &Snapshot{Number: number, Revision: revision, Asked: asked, Lines: lines[:len(lines)-1]}, nil
}

// Event is an accepted command, or the newest number if there is no line.
type Event struct {
	Number uint64
	Line   []byte
	// Moment is a time before which the newest number was not yet written: the number is that of an office of then or later.
	Moment time.Time
	// Revision is that of the policy at the newest number, if HasRevision: an older front doesn't say it.
	Revision    uint64
	HasRevision bool
}

// Watch has the commands that an office accepts after a number, as they come. Only Close may be called by another goroutine.
type Watch struct {
	Asked time.Time // when it was asked for

	cancel  context.CancelFunc
	lines   *bufio.Scanner
	timer   *time.Timer
	silence time.Duration
}

// Watch watches the commands after a number. It is for callers with the right watch. A watch that says nothing for this long has
// ended: the front writes the newest number each second.
func (c *Client) Watch(ctx context.Context, place int, after uint64, silence time.Duration) (*Watch, error) {
	ctx, cancel := context.WithCancel(ctx)
	w := &Watch{Asked: time.Now(), cancel: cancel, silence: silence, timer: time.AfterFunc(silence, cancel)}
	response, err := c.get(ctx, c.addresses[place], "/watch?after="+strconv.FormatUint(after, 10))
	if err != nil {
		w.Close()
		return nil, err
	}
	if response.StatusCode != http.StatusOK {
		defer w.Close()
		if response.StatusCode == http.StatusGone {
			return nil, refusal(Outdated, "Outdated", nil)
		}
		body, err := readBody(response, longestAnswer)
		if err != nil {
			return nil, err
		}
		return nil, readRefusal(response.StatusCode, body)
	}
	if response.Header.Get("Content-Type") != "text/event-stream" || response.ContentLength >= 0 || len(response.TransferEncoding) > 0 {
		w.Close()
		return nil, failed(Unexpected, false, errors.New("the answer to /watch is no watch"))
	}
	w.lines = bufio.NewScanner(response.Body)
	w.lines.Buffer(make([]byte, 0, 4096), longestLine)
	return w, nil
}

// Close ends the watch.
func (w *Watch) Close() {
	w.timer.Stop()
	w.cancel()
}

// Next returns the next event. The line is valid until the next call.
func (w *Watch) Next() (Event, error) {
	w.timer.Reset(w.silence)
	fields := map[string][]byte{}
	for w.lines.Scan() {
		line := w.lines.Bytes()
		if len(line) == 0 {
			return w.event(fields)
		}
		name, value, isField := bytes.Cut(line, []byte(": "))
		if _, isThere := fields[string(name)]; !isField || isThere || !isWord(name) {
			return Event{}, noEvent("a line is no field, or a field is there twice")
		}
		fields[string(name)] = append([]byte{}, value...)
	}
	err := w.lines.Err()
	if errors.Is(err, bufio.ErrTooLong) {
		return Event{}, failed(Unexpected, false, err)
	}
	if err == nil {
		err = io.EOF
	}
	return Event{}, failed(Unanswered, false, fmt.Errorf("the watch has ended: %w", shownError{err}))
}

// event returns the event that has these fields. Those with other names are ignored.
func (w *Watch) event(fields map[string][]byte) (Event, error) {
	data, isThere := fields["data"]
	kind, isOther := fields["event"]
	switch {
	case !isThere:
		return Event{}, noEvent("it has no command and no number")
	case !isOther:
		number, isNumber := parseNumber(string(fields["id"]))
		if !isNumber {
			return Event{}, noEvent("its number is none")
		}
		return Event{Number: number, Line: data}, nil
	case string(kind) != "newest":
		return Event{}, noEvent("its type is unknown")
	}
	event := Event{Moment: w.Asked}
	var isNumber bool
	if event.Number, isNumber = parseNumber(string(data)); !isNumber {
		return Event{}, noEvent("its number is none")
	}
	if revision, isTold := fields["revision"]; isTold {
		if event.Revision, event.HasRevision = parseNumber(string(revision)); !event.HasRevision {
			return Event{}, noEvent("its revision is none")
		}
	}
	if elapsed, isTold := fields["elapsed"]; isTold {
		milliseconds, isNumber := parseNumber(string(elapsed))
		if !isNumber {
			return Event{}, noEvent("its time is none")
		}
		if milliseconds > longestElapsed {
			milliseconds = longestElapsed
		}
		event.Moment = w.Asked.Add(time.Duration(milliseconds) * time.Millisecond)
	}
	return event, nil
}

// longestElapsed is a year in milliseconds: what a front says that is longer than that is longer than any watch.
const longestElapsed = 365 * 24 * 3_600_000

// noEvent is the error of what isn't one event as the front writes it.
func noEvent(why string) *Error {
	return failed(Unexpected, false, errors.New("no event: "+why))
}

// isWord reports whether a name has letters alone.
func isWord(name []byte) bool {
	for _, one := range name {
		if one|0x20 < 'a' || one|0x20 > 'z' {
			return false
		}
	}
	return len(name) > 0
}

// get sends a request without a body over a new connection, and returns the head of the answer. The connection is closed when the
// context ends, which the caller has to do.
func (c *Client) get(ctx context.Context, address *address, path string) (*http.Response, error) {
	token, failure := c.present()
	if failure != nil {
		return nil, failure
	}
	conn, failure := address.dial(ctx)
	if failure != nil {
		return nil, failure
	}
	go func() {
		<-ctx.Done()
		conn.Close()
	}()
	if _, err := conn.Write(address.request(http.MethodGet, path, token, nil, false)); err != nil {
		return nil, conn.lost(ctx, err)
	}
	response, err := conn.readHead()
	if err != nil {
		return nil, conn.lost(ctx, err)
	}
	return response, nil
}

// readBody reads a body of a stated length.
func readBody(response *http.Response, longest int64) ([]byte, error) {
	if response.ContentLength < 0 || response.ContentLength > longest {
		return nil, failed(Unexpected, true, fmt.Errorf("the answer has a length of %d", response.ContentLength))
	}
	body := make([]byte, response.ContentLength)
	if _, err := io.ReadFull(response.Body, body); err != nil {
		return nil, failed(Unanswered, true, err)
	}
	return body, nil
}

// numberOf returns the number in a field of a head, and whether there is exactly one.
func numberOf(head http.Header, name string) (uint64, bool) {
	values := head.Values(name)
	if len(values) != 1 {
		return 0, false
	}
	return parseNumber(values[0])
}

// parseNumber returns the number that a text of digits is.
func parseNumber(text string) (uint64, bool) {
	number, err := strconv.ParseUint(text, 10, 63)
	return number, err == nil && len(text) <= 18
}
