package node

import (
	"bytes"
	"fmt"
	"strconv"

	"rbac-node/internal/api"
	"rbac-node/internal/faults"
	"rbac-node/internal/ledger"
	"rbac-node/internal/office"
	"rbac-node/internal/recorded"
	"rbac-node/internal/state"
)

// A part of an entry is the calls that are done as one rule says.
type part struct {
	calls []*api.Call
	rule  api.Rule
	// places has the place in the entry of each call, or -1 for a question that is asked here only.
	places []int
	// unit says who has asked for them and when.
	unit ledger.Unit
	// own is the request of this node, or nil.
	own *request
}

// partsOf returns the parts of an entry, which may be that of a batch of this node.
func (n *Node) partsOf(entry ledger.Entry, own *batch) (parts []part) {
	place := 0
	if own != nil {
		for i, r := range own.requests {
			p := part{calls: r.batch.Calls, rule: r.batch.Rule, own: r, unit: entry.Units[i]}
			for _, call := range p.calls {
				if p.rule == (api.Rule{}) && call.Kind == api.Question {
					p.places = append(p.places, -1)
					continue
				}
				p.places = append(p.places, place)
				place++
			}
			parts = append(parts, p)
		}
		return parts
	}
	for _, u := range entry.Units {
		p := part{unit: u}
		if u.Rule != nil {
			p.rule = *u.Rule
		}
		for _, line := range u.Lines {
			if len(line) > api.MaxLineBytes || len(bytes.TrimSpace(line)) == 0 {
				n.log.Error("a line of the log is no command", "revision", entry.Revision, "place", place)
			} else {
				p.calls, p.places = append(p.calls, callOf(line)), append(p.places, place)
			}
			place++ // All nodes skip it. No node has written it.
		}
		parts = append(parts, p)
	}
	return parts
}

// callOf reads a line of the log. The office gets the line as it is, also if no node has written it, unless it is the end of a review.
func callOf(line []byte) *api.Call {
	if bytes.HasPrefix(line, []byte(recorded.ReviewPrefix)) {
		if _, err := api.FieldsOf(string(line)); err == nil {
			return api.NewEntry(api.Review, line)
		}
	}
	call, err := api.ParseLine(line)
	if err != nil {
		return &api.Call{Kind: api.Command, Line: line}
	}
	call.Line = line
	return call
}

// ruleOf returns the rule of a batch, or nil if it has none.
func ruleOf(b api.Batch) *api.Rule {
	if b.Rule == (api.Rule{}) {
		return nil
	}
	return &b.Rule
}

// logged returns the calls of a batch that the log gets: questions only if it depends on their answers what is done.
func logged(b api.Batch) (calls []*api.Call) {
	for _, call := range b.Calls {
		if call.IsRecorded() || ruleOf(b) != nil {
			calls = append(calls, call)
		}
	}
	return calls
}

// apply does an entry, unless it has been done. All nodes come to the same numbers and to the same places of snapshots: each place is
// reached from the one before it, and snapshots are only of places.
func (n *Node) apply(entry ledger.Entry) {
	if entry.Revision <= n.revision {
		return
	}
	if n.err = n.beginRecord(entry); n.err != nil {
		return
	}
	n.options.Record.Room()
	found, _ := n.pending.LoadAndDelete(entry.ID)
	own, _ := found.(*batch)
	parts, before := n.partsOf(entry, own), n.count
	for _, line := range entry.Lines() {
		n.bytes += int64(len(line))
		n.count++
	}
	replies, err := n.change(entry.Revision, parts, before)
	if err != nil {
		n.err = fmt.Errorf("the office in this process: %w", err)
		return
	}
	n.revision = entry.Revision
	n.applied.Store(&place{entry.Place, n.count})
	for i, p := range parts {
		if p.own != nil {
			p.own.reply <- replies[i]
		}
	}
	if own != nil {
		close(own.done)
	}
	if before/n.options.SnapshotCommands != n.count/n.options.SnapshotCommands || n.bytes >= n.options.SnapshotBytes {
		n.bytes = 0
		n.takeSnapshot()
	}
	waiting := n.held
	n.held = nil
	for _, one := range waiting {
		n.perform(one)
	}
}

// change does the parts of an entry with nothing of others between them. The number of commands is that before the entry.
func (n *Node) change(revision int64, parts []part, before int64) ([]reply, error) {
	replies := make([]reply, len(parts))
	return replies, n.state.Change(revision, n.beginning.First+n.count, func(c state.Change) (err error) {
		for i := 0; i < len(parts) && err == nil; i++ {
			replies[i], err = n.do(c, &parts[i], before)
			replies[i].answers.Revision = revision
		}
		return err
	})
}

// do does the calls of a part as its rule says, and returns the answers.
func (n *Node) do(c state.Change, p *part, before int64) (reply, error) {
	if p.rule.Policy > 0 && p.rule.Policy != c.Policy() {
		return reply{err: api.Outdated}, nil
	}
	next := 0
	texts, err := p.rule.Run(p.calls, func(calls ...*api.Call) ([][]byte, error) {
		texts := make([][]byte, len(calls))
		for i, call := range calls {
			text, err := n.answer(c, p.unit, call, n.beginning.First+before+int64(p.places[next])+1)
			if err != nil {
				return nil, err
			}
			texts[i] = text
			next++
		}
		return texts, nil
	})
	at := api.Point{Policy: c.Policy()}
	for _, place := range p.places {
		if place >= 0 {
			at.Place = place
			break
		}
	}
	return reply{answers: api.Answers{Texts: texts, Point: at}}, err
}

// answer does a call of a unit, which has a number if it is in the log, and records it. What is only recorded gets the number of its entry.
func (n *Node) answer(c state.Change, unit ledger.Unit, call *api.Call, number int64) ([]byte, error) {
	if call.Kind == api.Entry {
		return strconv.AppendInt(nil, n.record(unit, call, []byte(recorded.Accepted)), 10), nil
	}
	if faults.Has(faults.LeavesOut) && n.options.Name == "n2" && bytes.Contains(call.Line, []byte(`"user":"lost`)) {
		return []byte(`{"ok":true}`), nil
	}
	text, err := c.Do(call, number)
	if err == nil && call.Kind != api.Question {
		n.record(unit, call, text)
	}
	return text, err
}

// begin sets the numbers of a snapshot.
func (n *Node) begin(s office.Snapshot) {
	first := n.beginning.First
	n.state.Advance(state.Numbers{All: first + s.Count, Policy: s.PolicyIn(first), Revision: s.Revision})
}
