package node

import (
	"errors"
	"fmt"
	"os"
	"path/filepath"
	"strings"

	"rbac-node/internal/disk"
	"rbac-node/internal/ledger"
	"rbac-node/internal/office"
)

// outvotedName is the file in the folder of a node that says that the node was outvoted, and why.
const outvotedName = "outvoted"

// readOutvoted reads whether this node was outvoted in an earlier run.
func (n *Node) readOutvoted() error {
	text, err := os.ReadFile(filepath.Join(n.options.Data, outvotedName))
	if errors.Is(err, os.ErrNotExist) {
		return nil
	}
	if err != nil {
		return fmt.Errorf("outvoted: %w", err)
	}
	n.outvoted, n.isOutvotedKept = strings.TrimSpace(string(text)), true
	n.differs.Store(n.outvoted)
	return nil
}

// keepOutvoted notes in the folder of the node that it was outvoted, so that it stays so until it has another folder. What fails
// is tried again.
func (n *Node) keepOutvoted() error {
	if n.outvoted == "" || n.isOutvotedKept {
		return nil
	}
	if err := disk.Write(filepath.Join(n.options.Data, outvotedName), n.outvoted+"\n"); err != nil {
		return fmt.Errorf("outvoted: %w", err)
	}
	n.isOutvotedKept = true
	return nil
}

// judgeNodes makes this node refuse to serve while most nodes do not have its snapshots or its settings. Once a majority of all has other
// snapshots, it refuses for good, and no other node is judged by it.
func (n *Node) judgeNodes(state ledger.State) error {
	own, err := n.store.List()
	if err != nil {
		return err
	}
	all := []ledger.Member{{Name: n.options.Name, Snapshots: own, Outvoted: n.outvoted}}
	for _, member := range state.Members {
		if member.Name != n.options.Name {
			all = append(all, member)
		}
	}
	out := outvoted(all)
	if why := out[n.options.Name]; why != n.outvoted {
		n.outvoted, n.isRegistered = why+": "+makeAnew, false
	}
	why := n.outvoted
	if why == "" {
		why = difference(n.options.Name, own, except(state.Members, out))
	}
	if why == "" {
		why = otherSettings(n.life, state.Lives)
	}
	if n.differs.Swap(why) != why && why != "" {
		n.log.Error("refusing to serve", "why", why)
	}
	return n.keepOutvoted()
}

// makeAnew says what to do with a node that was outvoted.
const makeAnew = "this node refuses until it is started with an empty folder"

// outvoted returns why nodes are outvoted, by their names: a majority of all nodes has made another snapshot of a place. A node that
// was outvoted once says so as long as it has its folder.
func outvoted(members []ledger.Member) map[string]string {
	found := map[string]string{}
	for _, member := range members {
		why := member.Outvoted
		for i := 0; i < len(member.Snapshots) && why == ""; i++ {
			if most := majorityAgainst(member.Snapshots[i], members); most != "" {
				why = differs(member.Snapshots[i], member.Name, most)
			}
		}
		if why != "" {
			found[member.Name] = why
		}
	}
	return found
}

// majorityAgainst returns the name of one of the nodes that have made another snapshot of a place than this one, if these have the same
// and are more than half of all.
func majorityAgainst(s office.Snapshot, members []ledger.Member) string {
	var trusted []ledger.Member
	for _, one := range members {
		if one.Outvoted == "" {
			trusted = append(trusted, one)
		}
	}
	for _, one := range members {
		witness, isThere := snapshotAt(one, s)
		if isThere && !witness.IsSame(s) && 2*makers(witness, trusted) > len(members) {
			return one.Name
		}
	}
	return ""
}

// except returns the nodes but for those that are outvoted.
func except(members []ledger.Member, out map[string]string) (rest []ledger.Member) {
	for _, member := range members {
		if out[member.Name] == "" {
			rest = append(rest, member)
		}
	}
	return rest
}

func differs(s office.Snapshot, name, other string) string {
	return fmt.Sprintf("at revision %d the snapshot of %s differs from that of %s", s.Revision, name, other)
}

// difference reports at which revision a snapshot of a node differs from another node's, if it does and is not that of
// a majority. A snapshot that was fetched is no second witness, so it does not count.
func difference(name string, own []office.Snapshot, members []ledger.Member) string {
	for _, s := range own {
		agree, differ, other := 0, 0, ""
		if !s.Copied {
			agree = 1
		}
		for _, member := range members {
			witness, isThere := snapshotAt(member, s)
			switch {
			case member.Name == name || !isThere:
			case !witness.IsSame(s):
				other = member.Name
				if !witness.Copied {
					differ++
				}
			case !witness.Copied:
				agree++
			}
		}
		if other != "" && agree <= differ {
			return differs(s, name, other)
		}
	}
	return ""
}

// otherSettings reports that most nodes that run take snapshots at other places than one of them, if they do: with no place in common
// wrong rows would be found nowhere. Of two nodes the one with the later name has to change.
func otherSettings(own ledger.Life, lives []ledger.Life) string {
	agree, differ := 1, []ledger.Life{}
	for _, life := range lives {
		switch {
		case life.Name == own.Name:
		case life.Settings == own.Settings:
			agree++
		default:
			differ = append(differ, life)
		}
	}
	if len(differ) < agree || len(differ) == agree && own.Name < differ[0].Name {
		return ""
	}
	return fmt.Sprintf("%s differs: it has %s, and %s has %s; start all nodes with the same",
		own.Name, own.Settings, differ[0].Name, differ[0].Settings)
}

// snapshotAt returns the snapshot that a node has of the place of another one: one that isn't the same, if there is one.
func snapshotAt(member ledger.Member, place office.Snapshot) (found office.Snapshot, is bool) {
	for _, s := range member.Snapshots {
		if s.IsOfPlace(place) && (!is || !s.IsSame(place)) {
			found, is = s, true
		}
	}
	return found, is
}
