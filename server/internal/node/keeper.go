package node

import (
	"context"
	"errors"
	"fmt"
	"os"
	"path/filepath"
	"time"

	"rbac-node/internal/ledger"
	"rbac-node/internal/office"
)

const (
	// lookInterval is the time between two looks at what other nodes report, and lookTimeout how long one may take.
	lookInterval, lookTimeout = time.Second, 10 * time.Second
	// checkTimeout is how long the checks and the digest of one office may take.
	checkTimeout = 10 * time.Minute
	// leaveFileTimeout is how long the end of a node may take to leave its office in a file: the service is killed some time later.
	leaveFileTimeout = 15 * time.Second
)

// A frozen office is to become a snapshot. The lines make it.
type frozen struct {
	lines    []byte
	snapshot office.Snapshot
}

// takeSnapshot freezes the office; a goroutine writes the file. A pending snapshot is replaced: the newest place always gets one, since
// there may be no later command for a long time.
func (n *Node) takeSnapshot() {
	if why := n.options.Record.Why(); why != "" {
		n.noteSnapshot(n.revision, errors.New(why)) // It would take up room that a start needs.
		return
	}
	one, err := n.freeze()
	if err != nil {
		n.noteSnapshot(n.revision, err)
		return
	}
	select {
	case earlier := <-n.frozen:
		n.log.Warn("no snapshot: the one before is not finished yet", "revision", earlier.snapshot.Revision)
	default:
	}
	n.frozen <- one
}

// freeze returns what is in the office after the last entry that was done, with its digest.
func (n *Node) freeze() (one frozen, err error) {
	one.snapshot = office.Snapshot{Revision: n.revision, Count: n.count, Record: n.head(), Policy: n.state.Numbers().Policy, First: n.beginning.First}
	if one.snapshot.Digest, err = n.state.Digest(); err != nil {
		return one, err
	}
	all, err := n.state.Freeze()
	if err == nil {
		one.lines, err = all.OfficeLines()
	}
	return one, err
}

// leaveOffice leaves the office in a file when the node has ended in order: whoever goes back to one machine may use it.
func (n *Node) leaveOffice() {
	within, cancel := context.WithTimeout(context.Background(), leaveFileTimeout)
	defer cancel()
	one, err := n.freeze()
	if err == nil {
		err = n.makeFile(func() error { return n.store.Leave(within, one.lines, n.options.File(), n.options.HangTimeout) })
	}
	if err != nil {
		n.log.Error("the office is left in no file", "why", err)
	}
}

// makeFile makes the file of the office in an empty folder.
func (n *Node) makeFile(do func() error) error {
	folder := filepath.Dir(n.options.File())
	if err := os.RemoveAll(folder); err != nil {
		return fmt.Errorf("old office: %w", err)
	}
	if err := os.MkdirAll(folder, 0o700); err != nil {
		return fmt.Errorf("office: %w", err)
	}
	return do()
}

// noteSnapshot notes whether the snapshot of a place was made. Without it the node goes on, and takes one at the next place.
func (n *Node) noteSnapshot(revision int64, err error) {
	n.isFailing.Store(err != nil)
	if err != nil {
		n.log.Error("no snapshot: the log can't be trimmed until there is one of a later place", "revision", revision, "why", err)
	}
}

// maintain finishes snapshots, and checks again and again what all nodes report about theirs. A full etcd refuses what is
// registered, but all else goes on.
func (n *Node) maintain(ctx context.Context) error {
	ticker := time.NewTicker(lookInterval)
	defer ticker.Stop()
	for {
		if !n.isRegistered {
			n.isRegistered = n.attempt(ctx, "the snapshots are not registered", n.announce)
		}
		n.attempt(ctx, "the log is not trimmed", n.trimLog)
		select {
		case one := <-n.frozen:
			err := n.finish(ctx, one)
			if ctx.Err() != nil {
				return nil
			}
			if errors.Is(err, office.ErrOther) {
				return fmt.Errorf("the office in this process at revision %d: %w", one.snapshot.Revision, err)
			}
			n.noteSnapshot(one.snapshot.Revision, err)
			n.isRegistered = n.isRegistered && err != nil
		case <-ticker.C:
		case <-ctx.Done():
			return nil
		}
	}
}

// attempt does something that may fail, and reports whether it succeeded.
func (n *Node) attempt(ctx context.Context, otherwise string, do func(context.Context) error) bool {
	within, cancel := context.WithTimeout(ctx, lookTimeout)
	defer cancel()
	err := do(within)
	if err != nil && ctx.Err() == nil {
		n.log.Warn(otherwise, "error", err)
	}
	return err == nil
}

// finish makes what was in the office a snapshot, by the program. If its file has other rows, or it refuses a line, the office in this
// process isn't one.
func (n *Node) finish(ctx context.Context, one frozen) error {
	within, cancel := context.WithTimeout(ctx, checkTimeout)
	defer cancel()
	if one.snapshot.Record != "" {
		if err := n.options.Record.Keep(within, one.snapshot.Record); err != nil {
			return err
		}
	}
	s, err := n.store.Make(within, one.lines, one.snapshot, n.options.HangTimeout)
	if err != nil {
		return err
	}
	n.log.Info("snapshot", "revision", s.Revision, "commands", s.Count,
		"digest", s.Digest, "record", s.Record)
	if s.Record != "" {
		n.options.Record.Divide(within, n.store.Path(s), s.Record)
	}
	return nil
}

// announce writes to etcd which snapshots this node has.
func (n *Node) announce(ctx context.Context) error {
	found, err := n.store.List()
	if err != nil {
		return err
	}
	if len(found) > 0 {
		n.snapshot.Store(found[0].Revision)
	}
	return n.shared.Register(ctx, ledger.Member{Name: n.options.Name, Peer: n.options.Peer, Snapshots: found, Outvoted: n.outvoted})
}

// trimLog judges the snapshots of all nodes, and trims the log.
func (n *Node) trimLog(ctx context.Context) error {
	n.shared.UseLeader(ctx)
	state, err := n.shared.State(ctx)
	if err != nil {
		return err
	}
	for i, member := range state.Members { // They are in the order of their names.
		if member.Name == n.options.Name {
			n.rank.Store(int64(i))
		}
	}
	if err := n.judgeNodes(state); err != nil {
		return err
	}
	floor, err := n.shared.Trim(ctx, state, needless(except(state.Members, outvoted(state.Members))))
	if floor > 0 {
		n.log.Info("trimmed the log", "floor", floor)
	}
	return err
}

// needless returns the revision up to which nobody needs the log, or 0 if somebody needs all of it: each node has kept
// a snapshot of that revision or a later one, and a newer one as well.
func needless(members []ledger.Member) (revision int64) {
	for _, member := range members {
		if len(member.Snapshots) < 2 {
			return 0
		}
		if last := member.Snapshots[1].Revision; revision == 0 || last < revision {
			revision = last
		}
	}
	return revision
}
