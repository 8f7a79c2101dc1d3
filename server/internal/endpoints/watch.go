package endpoints

import (
	"bufio"
	"context"
	"fmt"
	"net"
	"net/http"
	"strconv"
	"sync/atomic"
	"time"

	"rbac-node/internal/api"
	"rbac-node/internal/state"
)

const (
	// numberField is the field of an answer that has the number of the last accepted command.
	numberField = "Office-Number"
	// mostWatches is how many may watch at once, and mostAtOnce how many commands are written at once.
	mostWatches, mostAtOnce = 256, 500
	// watchInterval is how often the newest number is written, and the right to watch judged again.
	watchInterval = time.Second
	// reachTimeout is how long a watch waits for a number that this node doesn't have yet. A node that is behind for longer is not ready.
	reachTimeout = 10 * time.Second
)

// watchHead is the head of the answer. Its end is that of the connection.
const watchHead = "HTTP/1.1 200 OK\r\nContent-Type: text/event-stream\r\nCache-Control: no-store\r\nConnection: close\r\n\r\n"

// outdated is the refusal of a number after which not all commands are known.
var outdated = api.Refusal{Status: http.StatusGone, Code: api.Outdated.Code, Name: api.Outdated.Name}

// snapshot answers the lines that make an office with what is in this one, in which sessions have their digests for names.
func (e *Endpoints) snapshot(r *request) (int, error) {
	s, err := e.knownTo(r, api.Snapshot)
	if err != nil {
		return 0, err
	}
	if err := e.enter(over, r); err != nil {
		return 0, err
	}
	if err := r.slot.snapshot(r.ctx); err != nil {
		return 0, err
	}
	var text []byte
	var numbers state.Numbers
	err = r.slot.make(r.ctx, func() (err error) {
		text, numbers, err = e.snapshotted.of(s)
		return err
	})
	if err != nil {
		return 0, err
	}
	r.isAt(numbers)
	r.visit.Done()
	r.w.Header().Set(numberField, strconv.FormatInt(numbers.All, 10))
	return api.WriteLines(r.w, text), nil
}

// A watch writes the accepted commands to a client as they come.
type watch struct {
	*request
	endpoints *Endpoints
	state     *state.State
	conn      net.Conn
	lines     *bufio.Writer
	// after is the number of the last command that was written.
	after int64
	// began is when the request was read, and due when the newest number is to be written next.
	began, due time.Time
	gone       chan struct{}
}

// watching counts those who watch.
var watching atomic.Int64

// watch answers the commands after a number, as server-sent events, until the client or its right to them is gone.
func (e *Endpoints) watch(r *request) (int, error) {
	began := time.Now()
	s, err := e.knownTo(r, api.Watch)
	if err != nil {
		return 0, err
	}
	after, err := readAfter(r)
	if err != nil {
		return 0, err
	}
	if err := reach(r, s, after); err != nil {
		return 0, err
	}
	r.visit.Done()
	if watching.Add(1) > mostWatches {
		watching.Add(-1)
		return 0, api.TooManyRequests
	}
	defer watching.Add(-1)
	hijacker, can := r.w.(http.Hijacker)
	if !can {
		return 0, api.BadRequest(http.StatusBadRequest)
	}
	conn, buffered, err := hijacker.Hijack()
	if err != nil {
		return 0, err
	}
	defer conn.Close()
	w := &watch{request: r, endpoints: e, state: s, conn: conn, lines: buffered.Writer, after: after, began: began, due: began}
	w.gone = make(chan struct{})
	w.run(buffered.Reader)
	return http.StatusOK, nil
}

// reach waits until the state has a number, which a client may have got from a node that is ahead of this one. It refuses a number after
// which not all commands are known, and one that nothing has given.
func reach(r *request, s *state.State, number int64) error {
	within, cancel := context.WithTimeout(r.ctx, reachTimeout)
	defer cancel()
	for {
		found, known := s.After(number, 0)
		switch {
		case known:
			return nil
		case number <= found.Newest || r.kind != api.Local || within.Err() != nil:
			return outdated
		}
		select {
		case <-found.Changed:
		case <-within.Done():
		}
	}
}

// readAfter reads the number that a client has got last: Last-Event-ID, which a browser sends, or after.
func readAfter(r *request) (int64, error) {
	text := r.Header.Get("Last-Event-ID")
	err := readQuery(r.URL.RawQuery, func(key, value string) error {
		if key != "after" {
			return notRead("a watch has no key %s", echoed(key))
		}
		if text == "" {
			text = value
		}
		return nil
	})
	if err != nil {
		return 0, err
	}
	after, err := strconv.ParseUint(text, 10, 63)
	if err != nil {
		return 0, notRead("after, or Last-Event-ID, has to be a number from 0")
	}
	return int64(after), nil
}

// run writes until the client is gone, the right to watch is, or the office ends.
func (w *watch) run(from *bufio.Reader) {
	// The times of requests are over. Each write has a time of its own.
	_, _ = w.conn.SetReadDeadline(time.Time{}), w.conn.SetWriteDeadline(time.Time{})
	go func() {
		defer close(w.gone)
		_, _ = from.ReadByte() // A client sends nothing more: whatever comes ends the watch.
	}()
	_, _ = w.lines.WriteString(watchHead)
	ticker := time.NewTicker(watchInterval)
	defer ticker.Stop()
	for w.write() {
		found, known := w.state.After(w.after, 0)
		changed := found.Changed
		if !known || found.Newest > w.after {
			changed = always
		}
		if !w.endpoints.office.IsReady() {
			changed = nil
		}
		select {
		case <-changed:
		case <-ticker.C:
		case <-w.gone:
			return
		case <-w.endpoints.life.Done():
			return
		}
	}
}

// always is closed.
var always = func() <-chan struct{} {
	closed := make(chan struct{})
	close(closed)
	return closed
}()

// write writes the next commands, and once a second the newest number, if there are no more, with the revision of the policy, so that a
// client sees whether its copy lacks a command, and the time since the request: so a client that knows when it has asked knows how old
// its copy is, however long the connection has held the event up. It returns false if the watch has ended. While the office doesn't answer it writes nothing, so that clients notice.
func (w *watch) write() bool {
	if !w.endpoints.office.IsReady() {
		return true
	}
	var found state.Watched
	known, now := true, time.Now()
	// The commands are read while the right holds, and no later change of the callers is in force.
	err := w.visit.Again(w.Request, api.Watch, func() { found, known = w.state.After(w.after, mostAtOnce) })
	if err != nil || !known {
		return false
	}
	for _, one := range found.Events {
		w.after = one.Number
		_, _ = w.lines.WriteString("id: " + strconv.FormatInt(one.Number, 10) + "\ndata: ")
		_, _ = w.lines.Write(one.Line)
		_, _ = w.lines.WriteString("\n\n")
	}
	if len(found.Events) == mostAtOnce {
		return w.lines.Flush() == nil
	}
	w.after = found.Newest // On several machines refused commands have numbers too.
	if !now.Before(w.due) {
		// A tick may come a little early, and the next one isn't to be waited for then.
		w.due = now.Add(watchInterval - watchInterval/10)
		elapsed := now.Sub(w.began).Milliseconds()
		_, _ = fmt.Fprintf(w.lines, "event: newest\ndata: %d\nrevision: %d\nelapsed: %d\n\n", found.Newest, found.Policy, elapsed)
	}
	return w.lines.Flush() == nil
}
