package reports

import (
	"math/bits"
	"sort"
	"strconv"

	"rbac-node/internal/state"
)

// A dutySet is a separation of duty set, and which of its members a role is or inherits from: a bit for each of them.
type dutySet struct {
	state.NamedSet
	kind  string
	masks map[int]uint32
}

func (s *dutySet) mask(r *roles, role int) (mask uint32) {
	mask, has := s.masks[role]
	if has {
		return mask
	}
	for i, member := range s.Roles {
		if r.has(role, r.numbers[member]) {
			mask |= 1 << i
		}
	}
	s.masks[role] = mask
	return mask
}

// A holding is a holder with members of a set.
type holding struct {
	set    *dutySet
	holder *holder
	// sort is `user` or `session`.
	sort  string
	left  int64
	count int
}

// near returns how near users and sessions are to separation of duty sets: the nearest first.
func near(office *state.Frozen, filter Filter) *Report {
	r := newRoles(office)
	report := &Report{
		Columns: []string{"left", "kind", "set", "cardinality", "holder", "name", "members", "member", "by"},
		Numbers: map[string]bool{"left": true, "cardinality": true, "members": true},
	}
	users, sessions := r.users(filter.User), r.sessions(filter.User)
	var found []holding
	for _, kind := range []string{"dynamic", "static"} {
		for _, one := range office.Graph.Sets(kind == "static") {
			if filter.Set != "" && one.Name != filter.Set {
				continue
			}
			set := &dutySet{one, kind, map[int]uint32{}}
			if kind == "dynamic" {
				found = report.collect(r, set, "session", sessions, filter, found)
			}
			found = report.collect(r, set, "user", users, filter, found)
		}
	}
	report.Write = func(add func(cells ...string) error) error {
		sort.SliceStable(found, func(i, j int) bool { return found[i].left < found[j].left })
		for _, one := range found {
			if err := one.write(r, add); err != nil {
				return err
			}
		}
		return nil
	}
	return report
}

// collect appends the holders who have members of a set, and counts their lines. Those that make too many lines are only counted.
func (report *Report) collect(r *roles, set *dutySet, sort string, holders []holder, filter Filter, found []holding) []holding {
	for i := range holders {
		all, lines := uint32(0), int64(0)
		for _, role := range holders[i].roles {
			mask := set.mask(r, role)
			all |= mask
			lines += int64(bits.OnesCount32(mask))
		}
		count := bits.OnesCount32(all)
		left := set.Cardinality - int64(count)
		if count == 0 || filter.HasLeft && left > filter.Left {
			continue
		}
		report.Lines += lines
		if report.Lines <= MostLines {
			found = append(found, holding{set, &holders[i], sort, left, count})
		}
	}
	return found
}

// write makes the lines of a holder: one for each member and each role that gives it.
func (h holding) write(r *roles, add func(cells ...string) error) error {
	left, cardinality := strconv.FormatInt(h.left, 10), strconv.FormatInt(h.set.Cardinality, 10)
	count := strconv.Itoa(h.count)
	for i, member := range h.set.Roles {
		for _, role := range h.holder.roles {
			if h.set.mask(r, role)&(1<<i) == 0 {
				continue
			}
			err := add(left, h.set.kind, h.set.Name, cardinality, h.sort, h.holder.name, count, member, r.name(role))
			if err != nil {
				return err
			}
		}
	}
	return nil
}
