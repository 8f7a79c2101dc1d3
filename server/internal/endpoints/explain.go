package endpoints

import (
	"rbac-node/internal/api"
	"rbac-node/internal/state"
)

// An explanation is why something is allowed, or not. What the caller has no right to is left out.
type explanation struct {
	Allowed bool `json:"allowed"`
	// Blocked has the roles with the permission that can't be activated: in no session, or, if a session is asked about, not beside the
	// roles that it has. By has those by which it is allowed, or would be if the user weren't locked.
	Blocked []blocked `json:"blocked,omitempty"`
	By      []source  `json:"by,omitempty"`
	// Inactive has the roles with the permission that the session could have, and doesn't.
	Inactive []source `json:"inactive,omitempty"`
	Locked   bool     `json:"locked,omitempty"`
}

// A source is a role to which the permission is granted directly, with the roles that the user is assigned to or that were activated
// in the session, and that are the role or a senior of it. Assigned is nil if the caller may not know it, which isn't an empty list.
type source struct {
	Activated []string  `json:"activated,omitempty"`
	Assigned  *[]string `json:"assigned,omitempty"`
	Role      string    `json:"role"`
}

// A blocked role is one that has too many members of a dynamic set among itself and its juniors, and the roles that a session has. Kind is
// that of the limit if a session has as many activated roles as it may have.
type blocked struct {
	Kind    string   `json:"kind,omitempty"`
	Members []string `json:"members,omitempty"`
	Role    string   `json:"role"`
	Set     string   `json:"set,omitempty"`
}

// explain answers why a session or a user may do an operation on an object, or not.
func (e *Endpoints) explain(r *request) (int, error) {
	fields, err := readObject(r)
	if err != nil {
		return 0, err
	}
	if fields.Has("command") {
		return e.explainCommand(r, fields.At("command"))
	}
	call, err := readAsked(fields, "session", "user")
	if err == nil {
		err = r.may(call)
	}
	if err != nil {
		return 0, err
	}
	ctx, cancel := r.whileThere()
	defer cancel()
	at, err := e.office.Await(r.ctx, r.kind)
	if err == nil {
		err = e.enter(ctx, r)
	}
	if err != nil {
		return 0, err
	}
	var seen facts
	e.office.State().Touch([]*api.Call{call})
	err = r.slot.make(ctx, func() error {
		return e.office.State().Look(func(v *state.View) {
			seen, at.Policy, at.Revision = factsOf(v, call), v.Numbers.Policy, v.Numbers.Revision
		})
	})
	if err != nil {
		return 0, err
	}
	at.SetHead(r.w.Header())
	switch {
	case !api.IsAccepted(seen.decision):
		return r.reply(api.StatusOf(seen.decision), seen.decision), nil
	case call.User != "":
		return r.replyValue(r.explainedUser(call.Arguments, seen))
	}
	return r.replyValue(r.explainedSession(call.Arguments, seen))
}

// Facts are what the office has to say about a decision at one moment.
type facts struct {
	decision []byte
	// granted has the roles that have the permission, and own those that the user is authorized for or that the session has.
	granted, own []string
	// assigned has, for each role that has the permission, the roles that the user is assigned to and that are this role or a senior of
	// it, and active those that were activated.
	assigned, active map[string][]string
	// blocked has those of the roles that can't be activated.
	blocked  map[string]blocked
	isLocked bool
	user     string
}

// factsOf asks the office about what a call decides. No role has a permission that doesn't exist.
func factsOf(v *state.View, call *api.Call) facts {
	seen := facts{decision: v.Answer(call), user: call.User, blocked: map[string]blocked{}}
	seen.granted = v.Names("permissionRoles", "object", call.Object, "operation", call.Operation)
	if call.User == "" {
		session, _ := v.Session(call.Session)
		seen.user, seen.active = session.User, v.Above(seen.granted, session.Active)
		seen.own = v.Names("sessionRoles", "session", call.Session)
		seen.block(v, len(session.Active) >= state.MostActivated, seen.own)
	} else {
		seen.isLocked, seen.own = v.IsLocked(call.User), v.Names("authorizedRoles", "user", call.User)
		seen.block(v, false, nil)
	}
	seen.assigned = v.Above(seen.granted, v.AssignedRoles(seen.user))
	return seen
}

// block notes which of the roles can't be activated beside some others, or not at all since there is no room for another one.
func (seen *facts) block(v *state.View, isFull bool, beside []string) {
	for _, role := range seen.granted {
		set, members := v.Blocked(role, beside...)
		switch {
		case set != "":
			seen.blocked[role] = blocked{Members: members, Role: role, Set: set}
		case isFull:
			seen.blocked[role] = blocked{Kind: state.ActiveRoleKind, Role: role}
		}
	}
}

// explainedUser explains a decision about a user. A session in which the user may do the operation has a role to which the permission is
// granted directly. It also may exist with this role alone.
func (r *request) explainedUser(q api.Arguments, seen facts) *explanation {
	shown := &explanation{Allowed: string(seen.decision) == api.Allowed}
	if !r.mayAsk("permissionRoles", q) || !r.mayAsk("authorizedRoles", q) || !r.mayAsk("assignedRoles", q) {
		return shown
	}
	// To whom a lock is shown is the one who may change it: no function answers it.
	shown.Locked = seen.isLocked && r.mayAsk("lockUserAccount", q)
	hasSets := r.mayAsk("dsdRoleSetRoles", q)
	for _, role := range seen.granted {
		if !has(seen.own, role) {
			continue
		}
		one, isBlocked := seen.blocked[role]
		switch {
		case !isBlocked:
			by := seen.assigned[role]
			shown.By = append(shown.By, source{Assigned: &by, Role: role})
		default:
			shown.Blocked = append(shown.Blocked, one.shown(hasSets))
		}
	}
	return shown
}

// shown is what of a blocked role somebody gets to know who may see the sets, or may not.
func (b blocked) shown(hasSets bool) blocked {
	if !hasSets {
		b.Members, b.Set = nil, ""
	}
	return b
}

// explainedSession explains a decision about a session: by which roles it has a permission, and by which it might.
func (r *request) explainedSession(q api.Arguments, seen facts) *explanation {
	shown := &explanation{Allowed: string(seen.decision) == api.Allowed}
	q.User = seen.user
	if !r.mayAsk("permissionRoles", q) || !r.mayAsk("sessionRoles", q) {
		return shown
	}
	showsRoles := r.mayAsk("assignedRoles", q) && r.mayAsk("authorizedRoles", q)
	hasSets := r.mayAsk("dsdRoleSetRoles", q)
	for _, role := range seen.granted {
		assigned := append([]string{}, seen.assigned[role]...)
		one := source{Activated: seen.active[role], Role: role}
		if showsRoles {
			one.Assigned = &assigned
		}
		switch {
		case has(seen.own, role):
			shown.By = append(shown.By, one)
		case !showsRoles || len(assigned) == 0:
		case seen.blocked[role].Role != "":
			shown.Blocked = append(shown.Blocked, seen.blocked[role].shown(hasSets))
		default:
			shown.Inactive = append(shown.Inactive, one)
		}
	}
	return shown
}

// mayAsk reports whether the caller may ask a function about what is named.
func (r *request) mayAsk(function string, q api.Arguments) bool {
	return r.may(&api.Call{Function: function, Kind: api.Question, Arguments: q}) == nil
}
