package record

import (
	"errors"
	"fmt"
	"sort"

	"rbac/clients/go/rbacoffice"

	"rbac-node/internal/api"
)

// A way is one in which a user had access: by a session, or by a role that a session of the user could have alone.
type way struct{ user, object, operation, role, session string }

// A RefusedError is that of a question about the office as it was: what it names wasn't there.
type RefusedError struct{ Function, Answer string }

func (e *RefusedError) Error() string {
	return fmt.Sprintf("nobody had access: %s was answered with %s", e.Function, e.Answer)
}

// A permission is an object and an operation.
type permission [2]string

// access returns who had access. librbac says of each role that has a permission whether a session of the user could have it alone, and
// decides for each session that was there.
func (r *rerun) access(query AccessQuery) (ways []way, err error) {
	permissions := []permission{{query.Object, query.Operation}}
	if query.Object == "" || query.Operation == "" {
		if permissions, err = r.permissionsOf(query); err != nil {
			return nil, err
		}
	}
	var sessions []rbacoffice.Row
	err = r.eachRow(rbacoffice.Sessions, func(row *rbacoffice.Row) {
		if query.User == "" || row.Names[1] == query.User {
			sessions = append(sessions, *row)
		}
	})
	if err != nil {
		return nil, err
	}
	for _, p := range permissions {
		if ways, err = r.addRoles(ways, query.User, p); err == nil {
			ways, err = r.addSessions(ways, sessions, p)
		}
		if err != nil {
			return nil, err
		}
	}
	sort.Slice(ways, func(i, k int) bool { return ways[i].isBefore(ways[k]) })
	return ways, nil
}

func (w way) isBefore(other way) bool {
	a, b := [...]string{w.user, w.object, w.operation, w.role, w.session}, [...]string{other.user, other.object, other.operation, other.role, other.session}
	for i := range a {
		if a[i] != b[i] {
			return a[i] < b[i]
		}
	}
	return false
}

func (r *rerun) value(value any, function string, arguments ...string) error {
	call, err := api.NewCall(function, arguments...)
	if err != nil {
		return err
	}
	answer, err := r.office.Answer(call.Line)
	if err != nil {
		return err
	}
	if !api.IsAccepted(answer) {
		return &RefusedError{function, string(answer)}
	}
	return api.ValueOf(answer, value)
}

// permissionsOf returns the permissions of a user that a query chooses.
func (r *rerun) permissionsOf(query AccessQuery) (chosen []permission, err error) {
	var all []permission
	if err := r.value(&all, "userPermissions", "user", query.User); err != nil {
		return nil, err
	}
	for _, one := range all {
		if (query.Object == "" || one[0] == query.Object) && (query.Operation == "" || one[1] == query.Operation) {
			chosen = append(chosen, one)
		}
	}
	return chosen, nil
}

// addRoles adds the roles to which a permission is granted, each with the users whose session could have it alone, or with one user if it
// has a name.
func (r *rerun) addRoles(ways []way, user string, p permission) ([]way, error) {
	var roles []string
	if err := r.value(&roles, "permissionRoles", "object", p[0], "operation", p[1]); err != nil {
		return nil, err
	}
	users := []string{user}
	for _, role := range roles {
		if user == "" { // Then there is one permission, and no role is asked for twice.
			if err := r.value(&users, "authorizedUsers", "role", role); err != nil {
				return nil, err
			}
		}
		for _, name := range users {
			sets, err := r.office.CreationConflicts(name, []string{role})
			var refused *rbacoffice.RefusedError // Such as of a user who is locked, or who isn't authorized for the role.
			if err != nil && !errors.As(err, &refused) {
				return nil, err
			}
			if err == nil && len(sets) == 0 {
				ways = append(ways, way{user: name, object: p[0], operation: p[1], role: role})
			}
		}
	}
	return ways, nil
}

// addSessions adds those of some sessions that had access to a permission.
func (r *rerun) addSessions(ways []way, sessions []rbacoffice.Row, p permission) ([]way, error) {
	for _, session := range sessions {
		name, of := session.Names[0], session.Names[1]
		has, err := r.office.Check(name, p[1], p[0])
		if err != nil {
			return nil, err
		}
		if has {
			ways = append(ways, way{user: of, object: p[0], operation: p[1], session: name})
		}
	}
	return ways, nil
}
