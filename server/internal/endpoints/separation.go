package endpoints

import (
	"rbac-node/internal/api"
	"rbac-node/internal/state"
)

// A separation is whether separation of duty refuses a command, and by which sets. What the caller has no right to is left out.
type separation struct {
	Conflicts []state.Conflict `json:"conflicts,omitempty"`
	Refused   bool             `json:"refused"`
}

// What a caller must be allowed in order to learn that a set is violated, and what in order to learn by whom. Nothing but a list says whose
// a session is.
var (
	ofSets = map[string][]string{
		state.Static: {"ssdRoleSetRoles", "ssdRoleSetCardinality"}, state.Dynamic: {"dsdRoleSetRoles", "dsdRoleSetCardinality"},
	}
	ofHolders = map[string][]string{state.Static: {"assignedRoles", "authorizedUsers"}, state.Dynamic: {api.Lists}}
)

// explainCommand answers by which separation of duty sets a command would be refused. It isn't done.
func (e *Endpoints) explainCommand(r *request, line string) (int, error) {
	call, err := api.ParseLine([]byte(line))
	if err != nil {
		return 0, err
	}
	if !state.IsSeparating(call.Function) {
		return 0, notRead("command: %s can't violate a separation of duty set", call.Function)
	}
	if err := r.may(call); err != nil {
		return 0, err
	}
	s, err := e.known(r)
	if err != nil {
		return 0, err
	}
	ctx, cancel := r.whileThere()
	defer cancel()
	if err := e.enter(ctx, r); err != nil {
		return 0, err
	}
	var found []state.Conflict
	err = r.slot.make(ctx, func() (err error) {
		found, err = e.cloned.conflicts(ctx, s, call)
		return err
	})
	if err != nil {
		return 0, err
	}
	shown := separation{Refused: len(found) > 0}
	for _, one := range found {
		if !r.mayAskAll(ofSets[one.Kind]...) {
			continue
		}
		if !r.mayAskAll(ofHolders[one.Kind]...) {
			one.Holders = nil
		}
		shown.Conflicts = append(shown.Conflicts, one)
	}
	return r.replyValue(shown)
}

// mayAskAll reports whether the visitor may ask some functions about everything.
func (r *request) mayAskAll(functions ...string) bool {
	for _, function := range functions {
		// A call that names nothing is allowed by the scope "office" alone.
		if r.may(api.NewOther(function)) != nil {
			return false
		}
	}
	return true
}
