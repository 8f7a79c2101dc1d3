package state

import (
	"math/big"
	"sort"

	"rbac/clients/go/rbacoffice"
)

// A Graph has the inheritances and the separation of duty sets of an office at one moment. It never changes.
type Graph struct {
	// Edges are the immediate inheritances, and Static and Dynamic the sets, in the order of their names.
	Edges           []Row
	Static, Dynamic []NamedSet
}

// Graph returns the graph of the moment.
func (v *View) Graph() *Graph {
	if graph := v.state.graph.Load(); graph != nil {
		return graph
	}
	graph := &Graph{
		Edges:   v.all(rbacoffice.Inheritances),
		Static:  v.sets(rbacoffice.StaticCardinalities, rbacoffice.StaticMembers),
		Dynamic: v.sets(rbacoffice.DynamicCardinalities, rbacoffice.DynamicMembers),
	}
	if v.err == nil {
		v.state.graph.Store(graph) // Nobody changes the office meanwhile.
	}
	return graph
}

func (v *View) sets(cardinalities, members rbacoffice.Table) (found []NamedSet) {
	roles := map[string][]string{}
	for _, row := range v.all(members) {
		roles[row[0]] = append(roles[row[0]], row[1])
	}
	v.each(cardinalities, 0, func(row *rbacoffice.Row) bool {
		found = append(found, NamedSet{row.Names[0], roles[row.Names[0]], int64(row.Number)})
		return true
	})
	return found
}

// Sets returns the static or the dynamic sets in the order of their names.
func (g *Graph) Sets(isStatic bool) []NamedSet {
	if isStatic {
		return g.Static
	}
	return g.Dynamic
}

// Violated returns the first dynamic set, in the order of their names, of which too many members are among some roles, and these members.
func (g *Graph) Violated(isAmong func(role string) bool) (name string, members []string) {
	for _, set := range g.Dynamic {
		var held []string
		for _, role := range set.Roles {
			if isAmong(role) {
				held = append(held, role)
			}
		}
		if int64(len(held)) >= set.Cardinality {
			return set.Name, held
		}
	}
	return "", nil
}

// Below returns a role and its juniors, which librbac knows.
func (v *View) Below(role string) map[string]bool {
	found := map[string]bool{role: true}
	for _, junior := range v.of(rbacoffice.ClosurePairs, role) {
		found[junior] = true
	}
	return found
}

// Above returns, for each role of a list, those of some other roles that are this role or a senior of it, in the order of these.
func (v *View) Above(list, others []string) map[string][]string {
	found := map[string][]string{}
	for _, other := range others {
		below := v.Below(other)
		for _, role := range list {
			if below[role] {
				found[role] = append(found[role], other)
			}
		}
	}
	return found
}

// Blocked returns the first dynamic set of which a role with its juniors and some other roles has too many members, and these, or nothing.
// Such a role can't be activated in a session that has these others.
func (v *View) Blocked(role string, beside ...string) (set string, members []string) {
	below := v.Below(role)
	for _, one := range beside {
		below[one] = true
	}
	return v.Graph().Violated(func(role string) bool { return below[role] })
}

// juniors returns, for each role of a list that has all in their order, it and its juniors: a bit for each place in the list. Without the
// closure pairs, of which there may be half a million, nobody has to wait for that.
func (g *Graph) juniors(roles []Row) []*big.Int {
	places, direct, below := make(map[string]int, len(roles)), make([][]int, len(roles)), make([]*big.Int, len(roles))
	for i, row := range roles {
		places[row[0]] = i
	}
	for _, edge := range g.Edges {
		senior := places[edge[0]]
		direct[senior] = append(direct[senior], places[edge[1]])
	}
	var find func(role int) *big.Int
	find = func(role int) *big.Int {
		if below[role] == nil {
			below[role] = new(big.Int).SetBit(new(big.Int), role, 1)
			for _, junior := range direct[role] {
				below[role].Or(below[role], find(junior))
			}
		}
		return below[role]
	}
	for i := range roles {
		find(i)
	}
	return below
}

// A Part is a part of the role graph: some roles, the inheritances between them, and the sets with members among them.
type Part struct {
	Roles           []string
	Edges           [][2]string
	Static, Dynamic []NamedSet
	// Left is how many roles have been left out.
	Left int
}

// Whole returns the whole role graph.
func (v *View) Whole() Part { return v.Graph().part(firsts(v.all(rbacoffice.Roles))) }

// Around returns a role with its immediate seniors and juniors. It leaves out the last ones if there are more roles than may be.
func (g *Graph) Around(role string, most int) Part {
	var near []string
	for _, edge := range g.Edges {
		switch role {
		case edge[0]:
			near = append(near, edge[1])
		case edge[1]:
			near = append(near, edge[0])
		}
	}
	sort.Strings(near)
	left := 0
	if len(near) >= most {
		left = len(near) - most + 1
		near = near[:most-1]
	}
	part := g.part(append(near, role))
	part.Left = left
	return part
}

// Between returns the roles on the ways from some roles down to another one.
func (v *View) Between(seniors []string, junior string) Part {
	var roles []string
	isFound := map[string]bool{}
	for _, senior := range seniors {
		for role := range v.Below(senior) {
			if !isFound[role] {
				isFound[role] = true
				roles = append(roles, role)
			}
		}
	}
	return v.Graph().part(v.Above([]string{junior}, roles)[junior])
}

func (g *Graph) part(roles []string) Part {
	sort.Strings(roles)
	part, has := Part{Roles: roles}, make(map[string]bool, len(roles))
	for _, role := range roles {
		has[role] = true
	}
	for _, edge := range g.Edges {
		if has[edge[0]] && has[edge[1]] {
			part.Edges = append(part.Edges, [2]string{edge[0], edge[1]})
		}
	}
	part.Static, part.Dynamic = setsWith(g.Static, has), setsWith(g.Dynamic, has)
	return part
}

// setsWith returns the sets with members among some roles, with all of their members.
func setsWith(sets []NamedSet, has map[string]bool) (found []NamedSet) {
	for _, set := range sets {
		for _, role := range set.Roles {
			if has[role] {
				found = append(found, set)
				break
			}
		}
	}
	return found
}
