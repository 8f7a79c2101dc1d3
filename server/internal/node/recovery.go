package node

import (
	"context"
	"errors"
	"fmt"
	"os"
	"path/filepath"
	"sort"

	"rbac-node/internal/faults"
	"rbac-node/internal/ledger"
	"rbac-node/internal/office"
	"rbac-node/internal/pause"
)

// recoverOffice makes the office from the newest snapshot that is good. It writes nothing to etcd, which may be full,
// but the number of the first command, if the log has none yet.
func (n *Node) recoverOffice(ctx context.Context) error {
	beginning, err := n.shared.Beginning(ctx)
	if err != nil {
		return err
	}
	n.beginning = beginning
	base, err := n.startSnapshot(ctx)
	if err != nil {
		return err
	}
	n.isRecorded = base.Record != ""
	if err := n.options.Record.Resume(ctx, base.Record, base.Copied, n.fetchRecord); err != nil {
		return err
	}
	if faults.Has(faults.NumbersByItself) {
		n.beginning.First = n.start.UnixNano()
	}
	n.begin(base)
	if err := n.state.Load(ctx, n.options.File()); err != nil {
		return err
	}
	if err := os.RemoveAll(filepath.Dir(n.options.File())); err != nil { // Soon it would be an old one.
		return fmt.Errorf("office: %w", err)
	}
	n.revision, n.count = base.Revision, base.Count
	n.applied.Store(&place{ledger.Place{Revision: base.Revision}, base.Count})
	n.log.Info("recovered", "revision", base.Revision, "commands", base.Count)
	n.stage.Store("not all of the log is applied yet")
	state, err := n.shared.State(ctx)
	if err != nil {
		return err
	}
	return n.judgeNodes(state)
}

// makeOffice makes the file of the office from a snapshot, or an empty one.
func (n *Node) makeOffice(ctx context.Context, base office.Snapshot) error {
	n.stage.Store(fmt.Sprintf("the office is made from the snapshot at revision %d", base.Revision))
	within, cancel := context.WithTimeout(ctx, checkTimeout)
	defer cancel()
	return n.makeFile(func() error {
		if base.Digest == "" {
			return office.Run(within, n.options.Program, "init", n.options.File())
		}
		return n.store.Restore(within, base, n.options.File())
	})
}

// startSnapshot returns the snapshot from which the log is to be followed, of which it has made the file. Without a digest it is the
// empty office at the beginning. A snapshot that is damaged is set aside.
func (n *Node) startSnapshot(ctx context.Context) (base office.Snapshot, err error) {
	state, err := n.shared.State(ctx)
	if err != nil {
		return base, err
	}
	found, err := n.store.List()
	if err != nil {
		return base, err
	}
	if len(found) > 0 && found[0].Revision > state.Revision {
		return base, fmt.Errorf("the snapshot is at revision %d and etcd only at %d: etcd was restored to an earlier time, "+
			"so move the snapshots of all nodes that are newer away", found[0].Revision, state.Revision)
	}
	for _, one := range found {
		if err := n.refuseOther(one); err != nil {
			return base, err
		}
	}
	for _, base = range append(found, office.Snapshot{}) {
		switch {
		case base.Record == office.NoRecord && n.keepsRecord():
			n.log.Info("this node was without a record, which it can't go on with")
		case base.Revision < state.Floor:
			n.log.Info("the log no longer has what this node lacks", "floor", state.Floor)
		default:
			err := n.makeOffice(ctx, base)
			if !errors.Is(err, office.ErrOther) {
				return base, err
			}
			n.log.Error("a snapshot is damaged, and isn't used", "why", err)
			if err := n.store.SetAside(base); err != nil {
				return base, err
			}
			continue
		}
		break
	}
	if base, err = n.fetch(ctx); err != nil {
		return base, err
	}
	return base, n.makeOffice(ctx, base)
}

// refuseOther refuses a snapshot of a log that etcd no longer has, unless the log of now had it too. Another node may have gone on from
// where etcd was restored, and have other commands at the same revisions.
func (n *Node) refuseOther(s office.Snapshot) error {
	if s.First == 0 || n.beginning.Has(s.First, s.Revision) {
		return nil
	}
	return fmt.Errorf("the snapshot at revision %d is of a log that etcd no longer has: etcd was restored to revision %d; keep this folder as "+
		"evidence, and start the node with an empty one", s.Revision, n.beginning.After)
}

// fetch returns a snapshot that it has fetched from another node. It asks all nodes until one has a snapshot that will
// do.
func (n *Node) fetch(ctx context.Context) (office.Snapshot, error) {
	n.stage.Store("a snapshot of another node is fetched")
	for {
		state, err := n.shared.State(ctx)
		if err != nil {
			return office.Snapshot{}, err
		}
		for _, one := range n.offers(state) {
			from := one.from.Name
			s, err := n.store.Fetch(ctx, n.options.Fetch, one.from.Peer, one.revision, func(offered office.Snapshot) error {
				return n.accept(ctx, from, offered)
			})
			if err == nil {
				n.log.Info("fetched a snapshot", "from", from, "revision", s.Revision)
				return s, nil
			}
			n.log.Warn("no snapshot from this node", "from", from, "revision", one.revision, "error", err)
		}
		if err := pause.For(ctx, lookInterval); err != nil {
			return office.Snapshot{}, err
		}
	}
}

// An offer is a snapshot for which another node can be asked: its newest one, or that at a revision if that is not 0.
type offer struct {
	from     ledger.Member
	revision int64
}

// offers returns the newest snapshots of all other nodes, and then earlier ones after which the log continues, the newest of them first:
// if nodes differ at the last place, they may agree at an earlier one. From there this node comes to the last place by itself.
func (n *Node) offers(state ledger.State) (newest []offer) {
	var earlier []offer
	for _, member := range state.Members {
		if member.Name == n.options.Name {
			continue
		}
		newest = append(newest, offer{member, 0})
		for i := 1; i < len(member.Snapshots); i++ {
			if revision := member.Snapshots[i].Revision; revision >= state.Floor {
				earlier = append(earlier, offer{member, revision})
			}
		}
	}
	sort.SliceStable(earlier, func(i, j int) bool { return earlier[i].revision > earlier[j].revision })
	return append(newest, earlier...)
}

// accept refuses a snapshot that another node offers unless the node has registered it, the log continues after it, and
// no node has registered another digest at its revision: one of two nodes that differ is wrong, and nobody knows here
// which. A node that is outvoted is known to be wrong. The other nodes may not have come to that revision yet, so it also refuses
// all snapshots of a node that most others contest, but for one that those have too with whom it differs at another place.
func (n *Node) accept(ctx context.Context, name string, offered office.Snapshot) error {
	state, err := n.shared.State(ctx)
	if err != nil {
		return err
	}
	if offered.Record == office.NoRecord && n.keepsRecord() {
		return errNotRecorded
	}
	if err := n.refuseOther(offered); err != nil {
		return err
	}
	if offered.Revision < state.Floor {
		return fmt.Errorf("the snapshot is at revision %d, and the log begins after %d", offered.Revision, state.Floor)
	}
	out := outvoted(state.Members)
	if why := out[name]; why != "" {
		return errors.New(why)
	}
	isRegistered, right := false, except(state.Members, out)
	for _, member := range right {
		s, isThere := snapshotAt(member, offered)
		if !isThere {
			continue
		}
		if !s.IsSame(offered) {
			return fmt.Errorf("the snapshot at revision %d differs from that of %s", offered.Revision, member.Name)
		}
		if member.Name != name {
			continue
		}
		if why := difference(name, member.Snapshots, right); why != "" && !sharedByContesting(offered, member, right) {
			return errors.New(why)
		}
		isRegistered = true
	}
	if !isRegistered {
		return fmt.Errorf("the snapshot at revision %d is not registered in etcd", offered.Revision)
	}
	return nil
}

// sharedByContesting reports whether each node has a snapshot that differs from a member at any place: what is wrong with one of them came
// after it.
func sharedByContesting(s office.Snapshot, member ledger.Member, others []ledger.Member) bool {
	for _, other := range others {
		for _, own := range member.Snapshots {
			witness, is := snapshotAt(other, own)
			if !is || witness.IsSame(own) {
				continue
			}
			if shared, has := snapshotAt(other, s); !has || !shared.IsSame(s) {
				return false
			}
		}
	}
	return true
}

// makers returns how many nodes have made a snapshot themselves.
func makers(s office.Snapshot, members []ledger.Member) (count int) {
	for _, member := range members {
		if made, is := snapshotAt(member, s); is && !made.Copied && made.IsSame(s) {
			count++
		}
	}
	return count
}
