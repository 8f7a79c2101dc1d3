package record

import (
	"errors"
	"fmt"
	"io"
	"sort"
)

// knownLinks are the links of entries that are known from elsewhere. One file of all heads serves the whole record, a part of it, and a
// record that was restored: only what contradicts a head is refused, and it is reported which heads tell nothing.
type knownLinks struct {
	links map[int64]knownLink
	// isPart says that only one file is read, and isBackup that the record may have gone on after it was copied: what comes after the end
	// isn't missing then.
	isPart, isBackup bool
	// newest is the newest entry that has the link that is known, and found are all of these.
	newest int64
	found  []knownLink
	// restored is the last entry that says that a backup was restored, and lost are the known entries that the restore gave up.
	restored int64
	lost     []int64
	// givenUp is how many heads a later one says to be given up.
	givenUp int
}

// A knownLink is the link of an entry, and which of the heads says so, in the order in which they were noted.
type knownLink struct {
	n     int64
	chain string
	place int
}

func newKnownLinks(known []KnownHead) (*knownLinks, error) {
	heads, givenUp := standing(known)
	k := &knownLinks{links: map[int64]knownLink{}, givenUp: givenUp}
	for place, head := range heads {
		link, has := k.links[head.N]
		if has && link.chain != head.Chain {
			return nil, fmt.Errorf("entry %d has two known links: the chain was computed anew", head.N)
		}
		if !has { // One may be there again, as in a log that was added twice.
			k.links[head.N] = knownLink{head.N, head.Chain, place}
		}
	}
	return k, nil
}

// compare refuses an entry that has another link than the one that is known, unless a restore may have given that up.
func (k *knownLinks) compare(n int64, link string) error {
	switch known, has := k.links[n]; {
	case !has:
	case known.chain == link:
		k.newest = n
		k.found = append(k.found, known)
	case k.mayBeLost(known):
		k.lost = append(k.lost, n)
	default:
		return fmt.Errorf("entry %d has another link than the one that is known: the chain was computed anew", n)
	}
	return nil
}

// mayBeLost reports whether the last restore may have given up the entry that a head is of. It can't have if the record has an entry from
// after the restore of which a head was noted before this one: there was nothing left to give up then.
func (k *knownLinks) mayBeLost(known knownLink) bool {
	for _, one := range k.found {
		if one.n >= k.restored && one.place < known.place {
			return false
		}
	}
	return k.restored > 0
}

// end refuses a record that ends before a known entry, unless what came after the end is elsewhere, or was given up by a restore.
func (k *knownLinks) end(last int64) error {
	if k.isPart || k.isBackup {
		return nil
	}
	var after []int64
	mayBeLost := true
	for n, known := range k.links {
		if n > last {
			after = append(after, n)
			mayBeLost = mayBeLost && k.mayBeLost(known)
		}
	}
	sort.Slice(after, func(i, j int) bool { return after[i] < after[j] })
	if !mayBeLost {
		return fmt.Errorf("the record ends at entry %d: those from there to %d are missing", last, after[len(after)-1])
	}
	k.lost = append(k.lost, after...)
	return nil
}

// report prints what the heads don't show, and returns whether entries are missing that they are of.
func (k *knownLinks) report(out io.Writer, last int64) (isMissing bool) {
	if k.givenUp > 0 {
		fmt.Fprintf(out, "heads that a restore gave up, as a later head says: %d\n", k.givenUp)
	}
	if len(k.links) == 0 {
		return false
	}
	if len(k.lost) > 0 {
		fmt.Fprintf(out, "entries %d to %d, as they are known, are not here: the restore at entry %d gave them up\n",
			k.lost[0], k.lost[len(k.lost)-1], k.restored)
	}
	switch {
	case k.newest == 0:
		fmt.Fprintln(out, "no known head is of an entry that is here: none of these is protected")
	case k.newest < last:
		fmt.Fprintf(out, "entries %d to %d come after the newest known head: it doesn't protect them\n", k.newest+1, last)
	}
	return len(k.lost) > 0 || k.newest == 0
}

// errNoneKnown is returned if the heads show nothing of a backup.
var errNoneKnown = errors.New("no known head is of an entry of the backup, so nothing shows that it is honest")
