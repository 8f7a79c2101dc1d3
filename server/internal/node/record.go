package node

import (
	"context"
	"errors"
	"fmt"
	"io"
	"net/http"
	"strconv"
	"strings"

	"rbac-node/internal/api"
	"rbac-node/internal/faults"
	"rbac-node/internal/ledger"
	"rbac-node/internal/office"
	"rbac-node/internal/recorded"
)

// beginRecord begins the record before the first entry of the log.
func (n *Node) beginRecord(entry ledger.Entry) error {
	n.isRecorded = true
	if n.options.Record.HasBegun() {
		return nil
	}
	within, cancel := context.WithTimeout(context.Background(), checkTimeout)
	defer cancel()
	return n.options.Record.Begin(within, entry.Units[0].At)
}

// record records a command of the log with its answer, if it has a function, and returns the number of its entry.
func (n *Node) record(unit ledger.Unit, call *api.Call, answer []byte) (number int64) {
	if call.Function == "" {
		return 0
	}
	if faults.Has(faults.ForgetsCaller) && n.options.Name == "n1" && unit.Caller == "token:desk" {
		unit.Caller = ""
	}
	return n.options.Record.Add(recorded.Command{
		Call: call, Caller: unit.Caller, At: unit.At, Reason: unit.Reason, Answer: answer, IsBounded: unit.Bounds,
	})
}

// head returns the head of the record after all that was done.
func (n *Node) head() string {
	if !n.isRecorded {
		return ""
	}
	return n.options.Record.Added()
}

// keepsRecord reports whether the node keeps a record.
func (n *Node) keepsRecord() bool { return n.options.Record != recorded.Follower(noRecord{}) }

// A noRecord is in place of the record of a node that keeps none. It never begins, and nothing is asked of it.
type noRecord struct{ recorded.Follower }

func (noRecord) Resume(context.Context, string, bool, recorded.Fetch) error { return nil }
func (noRecord) ServeHTTP(w http.ResponseWriter, r *http.Request)           { http.NotFound(w, r) }
func (noRecord) HasBegun() bool                                             { return false }
func (noRecord) Begin(context.Context, string) error                        { return nil }
func (noRecord) Admit(*api.Call) error                                      { return nil }
func (noRecord) Add(recorded.Command) int64                                 { return 0 }
func (noRecord) Room()                                                      {}
func (noRecord) Added() string                                              { return office.NoRecord }
func (noRecord) Keep(context.Context, string) error                         { return nil }
func (noRecord) Divide(context.Context, string, string)                     {}
func (noRecord) Why() string                                                { return "" }
func (noRecord) Failed() <-chan struct{}                                    { return nil }
func (noRecord) Close() error                                               { return nil }

// Record returns the record, or nil if the node has none.
func (n *Node) Record() recorded.Reader {
	if !n.options.Record.HasBegun() {
		return nil
	}
	return n.options.Record
}

// Records serves the record to other nodes.
func (n *Node) Records() http.Handler { return n.options.Record }

// fetchRecord gives the records of other nodes to a function, until that accepts one. It passes over those that begin later.
func (n *Node) fetchRecord(ctx context.Context, most int64, accept func(text io.Reader) error) error {
	n.stage.Store("a record of another node is fetched")
	state, err := n.shared.State(ctx)
	if err != nil {
		return err
	}
	failed := errNobodyGives
	for _, member := range state.Members {
		if member.Name == n.options.Name {
			continue
		}
		err := n.fetchFrom(ctx, member.Peer, most, accept)
		if err == nil {
			n.log.Info("fetched the record", "from", member.Name)
			return nil
		}
		n.log.Warn("no record from this node", "from", member.Name, "error", err)
		if !errors.Is(failed, recorded.ErrLater) {
			failed = err
		}
	}
	return failed
}

var errNobodyGives = errors.New("no other node is registered")

func (n *Node) fetchFrom(ctx context.Context, peer string, most int64, accept func(text io.Reader) error) error {
	request, err := http.NewRequestWithContext(ctx, http.MethodGet, strings.TrimSuffix(peer, "/")+"/record", nil)
	if err != nil {
		return err
	}
	reply, err := n.options.Fetch.Do(request)
	if err != nil {
		return fmt.Errorf("%w: %v", recorded.ErrLater, err)
	}
	defer reply.Body.Close()
	switch reply.StatusCode {
	case http.StatusOK:
	case http.StatusServiceUnavailable:
		return fmt.Errorf("get %s: %w", request.URL, recorded.ErrLater)
	default:
		return fmt.Errorf("get %s: %s", request.URL, reply.Status)
	}
	if first, err := strconv.ParseInt(reply.Header.Get(recorded.FirstField), 10, 64); err != nil || first > most {
		return fmt.Errorf("its record begins with entry %q", reply.Header.Get(recorded.FirstField))
	}
	return accept(reply.Body)
}

// Note appends an entry that is no command to the log, with which all nodes record it, and returns its number. It is refused if this node
// keeps no record, or if one of an earlier version runs: that would have another record.
func (n *Node) Note(ctx context.Context, entry *api.Call) (int64, error) {
	if !n.keepsRecord() {
		return 0, api.BadRequest(http.StatusNotFound)
	}
	within, cancel := context.WithTimeout(ctx, n.options.AnswerTimeout)
	defer cancel()
	state, err := n.shared.State(within)
	if err != nil {
		return 0, err
	}
	for _, life := range state.Lives {
		if !life.HasReviews {
			return 0, api.BadRequestSince(http.StatusNotFound, "a node of an earlier version runs, which can't record this")
		}
	}
	answers, err := n.Do(within, api.Batch{Kind: api.Command, Calls: []*api.Call{entry}})
	if err != nil {
		return 0, err
	}
	return strconv.ParseInt(string(answers.Texts[0]), 10, 64)
}

var errNotRecorded = errors.New("it was made by a node without a record")
