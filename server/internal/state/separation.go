package state

import (
	"errors"
	"math/bits"
	"sort"
	"strconv"
	"strings"

	"rbac/clients/go/rbacoffice"

	"rbac-node/internal/api"
)

// mostHolders is how many holders of a set's members are named.
const mostHolders = 100

// The kinds of sets.
const (
	Static, Dynamic = "static", "dynamic"
)

// A Conflict is a separation of duty set that a command would violate.
type Conflict struct {
	Cardinality int64 `json:"cardinality"`
	// Holders has those who would hold too many members, up to a bound, in the order of their names.
	Holders []Holder `json:"holders,omitempty"`
	Kind    string   `json:"kind"`
	Roles   []string `json:"roles"`
	Set     string   `json:"set"`
}

// A Holder is a user who would be authorized for too many members of a static set, or a session, by its digest, that would have too many
// of a dynamic one.
type Holder struct {
	Members []Held `json:"members"`
	Session string `json:"session,omitempty"`
	User    string `json:"user"`
}

// Held is a member, and the roles by which a holder has it: those that the user is assigned to, or that were activated.
type Held struct {
	By   []string `json:"by"`
	Role string   `json:"role"`
}

// separating has the commands that can be refused by separation of duty, and the kinds of sets that refuse them.
var separating = map[string][2]bool{ // static, dynamic
	"assignUser": {true, false}, "addInheritance": {true, true}, "createSession": {false, true}, "addActiveRole": {false, true},
	"createSsdSet": {true, false}, "addSsdRoleMember": {true, false}, "setSsdSetCardinality": {true, false},
	"createDsdSet": {false, true}, "addDsdRoleMember": {false, true}, "setDsdSetCardinality": {false, true},
}

// IsSeparating reports whether separation of duty can refuse a command.
func IsSeparating(function string) bool {
	_, is := separating[function]
	return is
}

// SeparatingFunctions returns the names of these commands in their order.
func SeparatingFunctions() (names []string) {
	for name := range separating {
		names = append(names, name)
	}
	sort.Strings(names)
	return names
}

// A holding is a user or a session with the roles that are judged.
type holding struct {
	user, digest string
	roles        []string
}

// A judgement is what has to be known about a command: the sets that it can violate, and those who would violate them.
type judgement struct {
	static, dynamic []NamedSet
	users, sessions []holding
	// above has for each member of the sets those of their roles that are this role or a senior of it then. One may come twice.
	above map[string][]string
}

// Conflicts returns the separation of duty sets that a command would violate now, static ones first, in the order of their names. A
// command that is refused before they are judged violates none.
func (s *State) Conflicts(call *api.Call) (found []Conflict, err error) {
	var judged judgement
	if err := s.Look(func(v *View) { judged = v.judge(call) }); err != nil {
		return nil, err
	}
	found = judged.conflicts(Static, judged.static, judged.users)
	return append(found, judged.conflicts(Dynamic, judged.dynamic, judged.sessions)...), nil
}

// judge reads what has to be known about a command.
func (v *View) judge(call *api.Call) (j judgement) {
	if call.Has("set") {
		j.static, j.dynamic = v.changedSet(call)
	} else {
		j.static, j.dynamic = v.violated(call)
	}
	if len(j.static) > 0 {
		j.users = v.usersAfter(call)
	}
	if len(j.dynamic) > 0 {
		j.sessions = v.sessionsAfter(call)
	}
	j.above = v.above(&j, call)
	return j
}

// above returns, for each member of the sets of a judgement, those roles that somebody is assigned to or that are activated, and that are
// this member or a senior of it after the command.
func (v *View) above(j *judgement, call *api.Call) map[string][]string {
	var members, roles []string
	for _, sets := range [][]NamedSet{j.static, j.dynamic} {
		for _, set := range sets {
			members = append(members, set.Roles...)
		}
	}
	for _, holders := range [][]holding{j.users, j.sessions} {
		for _, one := range holders {
			roles = append(roles, one.roles...)
		}
	}
	if members = sorted(members); call.Function != "addInheritance" {
		return v.Above(members, sorted(roles))
	}
	below := v.Below(call.Descendant)
	found := v.Above(sorted(append(members, call.Ascendant)), sorted(roles))
	seniors := found[call.Ascendant]
	for _, member := range members {
		if below[member] {
			found[member] = append(found[member], seniors...)
		}
	}
	return found
}

// violated returns the sets that a command would violate, which changes none of them, as librbac says.
func (v *View) violated(call *api.Call) (static, dynamic []NamedSet) {
	office, graph := v.state.office, v.Graph()
	switch call.Function {
	case "assignUser":
		names, err := office.AssignmentConflicts(call.User, call.Role)
		return v.named(graph.Static, names, err), nil
	case "addActiveRole":
		names, err := office.ActivationConflicts(call.User, call.Session, call.Role)
		return nil, v.named(graph.Dynamic, names, err)
	case "createSession":
		sets, err := office.CreationConflicts(call.User, call.Roles)
		var names []string
		for _, one := range sets {
			names = append(names, one.Set)
		}
		return nil, v.named(graph.Dynamic, names, err)
	}
	names := func(found []rbacoffice.Conflict, err error) (names []string, _ error) {
		for _, one := range found {
			names = append(names, one.Set)
		}
		return names, err
	}
	users, err := names(office.StaticConflicts(call.Ascendant, call.Descendant))
	static = v.named(graph.Static, users, err)
	sessions, err := names(office.DynamicConflicts(call.Ascendant, call.Descendant))
	return static, v.named(graph.Dynamic, sessions, err)
}

// named returns those of some sets that librbac names, both in the order of their names: none if it refuses the question.
func (v *View) named(sets []NamedSet, names []string, err error) (found []NamedSet) {
	var refused *rbacoffice.RefusedError
	if errors.As(err, &refused) || v.fail(err) {
		return nil
	}
	for _, one := range sets {
		if len(names) > 0 && one.Name == names[0] {
			found, names = append(found, one), names[1:]
		}
	}
	return found
}

// changedSet returns the set that a command makes or changes, as it would be then.
func (v *View) changedSet(call *api.Call) (static, dynamic []NamedSet) {
	isStatic := separating[call.Function][0]
	changed := NamedSet{Name: call.Set}
	for _, one := range v.Graph().Sets(isStatic) {
		if one.Name == call.Set {
			changed = one
		}
	}
	cardinality, _ := strconv.ParseInt(call.Cardinality, 10, 64) // One that is too large is the largest.
	switch function := call.Function; {
	case strings.HasPrefix(function, "create"):
		changed = NamedSet{call.Set, sorted(call.Roles), cardinality}
	case strings.HasPrefix(function, "add"):
		changed.Roles = sorted(append([]string{call.Role}, changed.Roles...))
	default:
		changed.Cardinality = cardinality
	}
	if isStatic {
		return []NamedSet{changed}, nil
	}
	return nil, []NamedSet{changed}
}

// sorted returns names in their order, each once.
func sorted(names []string) (found []string) {
	names = append([]string(nil), names...)
	sort.Strings(names)
	for i, name := range names {
		if i == 0 || names[i-1] != name {
			found = append(found, name)
		}
	}
	return found
}

// usersAfter returns the users with the roles that they would be assigned to, those whom a command can concern.
func (v *View) usersAfter(call *api.Call) (found []holding) {
	if user := call.User; call.Function == "assignUser" {
		return []holding{{user: user, roles: sorted(append(v.AssignedRoles(user), call.Role))}}
	}
	for _, row := range v.all(rbacoffice.Assignments) {
		if len(found) == 0 || found[len(found)-1].user != row[0] {
			found = append(found, holding{user: row[0]})
		}
		last := &found[len(found)-1]
		last.roles = append(last.roles, row[1])
	}
	return found
}

// sessionsAfter returns the sessions with the roles that would be activated, those that a command can concern.
func (v *View) sessionsAfter(call *api.Call) (found []holding) {
	name := call.Session
	switch call.Function {
	case "createSession":
		return []holding{{call.User, DigestOf(name), sorted(call.Roles)}}
	case "addActiveRole":
		active := v.of(rbacoffice.ActivatedRoles, name)
		return []holding{{call.User, DigestOf(name), sorted(append(active, call.Role))}}
	}
	for _, one := range v.Sessions() {
		found = append(found, holding{one.User, one.Digest, one.Active})
	}
	return found
}

// conflicts returns the sets of which one of some holders has too many members.
func (j *judgement) conflicts(kind string, sets []NamedSet, holders []holding) (found []Conflict) {
	for _, set := range sets {
		one, masks := Conflict{Cardinality: set.Cardinality, Kind: kind, Roles: set.Roles, Set: set.Name}, j.masks(set.Roles)
		for _, holder := range holders {
			if one.Cardinality < 1 || len(one.Holders) == mostHolders {
				break
			}
			all := uint64(0)
			for _, role := range holder.roles {
				all |= masks[role]
			}
			if int64(bits.OnesCount64(all)) >= one.Cardinality {
				one.Holders = append(one.Holders, Holder{held(one.Roles, holder.roles, masks), holder.digest, holder.user})
			}
		}
		if len(one.Holders) > 0 {
			found = append(found, one)
		}
	}
	return found
}

// masks returns which of some members each role has: a bit for each of them.
func (j *judgement) masks(members []string) map[string]uint64 {
	masks := map[string]uint64{}
	for i, member := range members {
		for _, role := range j.above[member] {
			masks[role] |= 1 << i
		}
	}
	return masks
}

// held returns which of some members are among roles and their juniors, and by which of the roles, as the masks of these say.
func held(members, roles []string, masks map[string]uint64) (found []Held) {
	for i, member := range members {
		one := Held{Role: member}
		for _, role := range roles {
			if masks[role]&(1<<i) != 0 {
				one.By = append(one.By, role)
			}
		}
		if len(one.By) > 0 {
			sort.Strings(one.By)
			found = append(found, one)
		}
	}
	return found
}
