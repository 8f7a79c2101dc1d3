package reports

import (
	"sort"

	"rbac-node/internal/state"
)

// A grant is one of a permission to a role. Permissions are numbered in their order.
type grant struct {
	object, operation string
	role, permission  int
}

// Given has the grants that a filter chooses, in the order of their permissions and roles, and which of them a role gives.
type given struct {
	*roles
	grants []grant
	// only is the number of a role that has to give a permission or to have it, or -1.
	only  int
	isAll bool
	// byRole counts the grants to each role, and counts has the sums of those that a role gives.
	byRole []int64
	counts map[int]int64
	lists  map[int][]int
}

// newGiven returns the grants that a filter chooses.
func newGiven(office *state.Frozen, filter Filter) *given {
	r := newRoles(office)
	g := &given{roles: r, only: r.number(filter.Role), isAll: filter.Role == "", counts: map[int]int64{}, lists: map[int][]int{}}
	g.byRole = make([]int64, len(office.Roles))
	permission := -1
	for i, row := range office.Grants {
		if i == 0 || office.Grants[i-1][0] != row[0] || office.Grants[i-1][1] != row[1] {
			permission++
		}
		role := r.number(row[2])
		if role < 0 || filter.Object != "" && row[0] != filter.Object || filter.Operation != "" && row[1] != filter.Operation {
			continue
		}
		g.grants = append(g.grants, grant{row[0], row[1], role, permission})
		g.byRole[role]++
	}
	return g
}

func (g *given) count(role int) int64 {
	count, has := g.counts[role]
	if has {
		return count
	}
	for junior, grants := range g.byRole {
		if grants > 0 && g.has(role, junior) && g.wants(role, junior) {
			count += grants
		}
	}
	g.counts[role] = count
	return count
}

// wants reports whether the filter chooses what a role gives by a junior.
func (g *given) wants(role, junior int) bool { return g.isAll || role == g.only || junior == g.only }

// of returns which of the grants a role gives. Each is in a line for each holder of the role: so there are no more than lines.
func (g *given) of(role int) []int {
	list, has := g.lists[role]
	if has || g.count(role) == 0 {
		return list
	}
	for i, one := range g.grants {
		if g.has(role, one.role) && g.wants(role, one.role) {
			list = append(list, i)
		}
	}
	g.lists[role] = list
	return list
}

// permissions returns who may do what, and by which role.
func permissions(office *state.Frozen, filter Filter) *Report {
	g := newGiven(office, filter)
	holders := g.users(filter.User)
	report := &Report{Columns: []string{"user", "locked", "object", "operation", "assigned", "granted", "violated"}}
	for _, one := range holders {
		for _, role := range one.roles {
			report.Lines += g.count(role)
		}
	}
	locked := map[string]bool{}
	for _, row := range office.Locked {
		locked[row[0]] = true
	}
	report.Write = func(add func(cells ...string) error) error {
		var ways []way
		for _, one := range holders {
			ways = g.waysOf(one, ways[:0])
			isLocked := "no"
			if locked[one.name] {
				isLocked = "yes"
			}
			for _, w := range ways {
				to := g.grants[w.grant]
				granted := g.name(to.role)
				if err := add(one.name, isLocked, to.object, to.operation, g.name(w.assigned), granted, g.violates(to.role)); err != nil {
					return err
				}
			}
		}
		return nil
	}
	return report
}

// A way is one in which a user has a permission: by an assigned role, and a grant to it or to a junior.
type way struct{ assigned, grant int }

// waysOf appends all ways of a user in the order of the permissions, the assigned roles and the granted ones.
func (g *given) waysOf(one holder, ways []way) []way {
	for _, role := range one.roles {
		for _, i := range g.of(role) {
			ways = append(ways, way{role, i})
		}
	}
	if len(one.roles) > 1 {
		sort.Slice(ways, func(i, j int) bool {
			a, b := ways[i], ways[j]
			if p, q := g.grants[a.grant].permission, g.grants[b.grant].permission; p != q {
				return p < q
			}
			if a.assigned != b.assigned {
				return a.assigned < b.assigned
			}
			return a.grant < b.grant
		})
	}
	return ways
}

// sessions returns what each session may do. A session without roles has a line, and so has a role without permissions, unless
// permissions are chosen.
func sessions(office *state.Frozen, filter Filter) *Report {
	g := newGiven(office, filter)
	holders := g.sessions(filter.User)
	hasEmpty := filter.Role == "" && filter.Object == "" && filter.Operation == ""
	report := &Report{Columns: []string{"digest", "user", "activated", "object", "operation", "granted"}}
	for _, one := range holders {
		if len(one.roles) == 0 && hasEmpty {
			report.Lines++
		}
		for _, role := range one.roles {
			count := g.count(role)
			if count == 0 && hasEmpty {
				count = 1
			}
			report.Lines += count
		}
	}
	report.Write = func(add func(cells ...string) error) error {
		for _, one := range holders {
			if err := g.writeSession(one, hasEmpty, add); err != nil {
				return err
			}
		}
		return nil
	}
	return report
}

func (g *given) writeSession(one holder, hasEmpty bool, add func(cells ...string) error) error {
	if len(one.roles) == 0 && hasEmpty {
		return add(one.name, one.user, "", "", "", "")
	}
	for _, role := range one.roles {
		active, list := g.name(role), g.of(role)
		if len(list) == 0 && hasEmpty {
			if err := add(one.name, one.user, active, "", "", ""); err != nil {
				return err
			}
		}
		for _, i := range list {
			to := g.grants[i]
			if err := add(one.name, one.user, active, to.object, to.operation, g.name(to.role)); err != nil {
				return err
			}
		}
	}
	return nil
}
