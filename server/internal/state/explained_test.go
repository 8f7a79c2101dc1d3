package state

import (
	"fmt"
	"math/rand"
	"testing"

	"rbac/clients/go/rbacoffice"
)

// drawn returns a state with random inheritances, grants, assignments and dynamic sets. What the office refuses isn't there.
func drawn(t *testing.T, rng *rand.Rand) *State {
	t.Helper()
	const many = 8
	lines := []string{`{"fn":"addPermObj","object":"o"}`}
	add := func(format string, values ...any) { lines = append(lines, fmt.Sprintf(format, values...)) }
	for i := 0; i < many; i++ {
		add(`{"fn":"addUser","user":"u%d"}`, i)
		add(`{"fn":"addRole","role":"r%d"}`, i)
		add(`{"fn":"addPermission","object":"o","operation":"p%d"}`, i)
	}
	for i := 0; i < 2*many; i++ {
		add(`{"fn":"addInheritance","asc":"r%d","desc":"r%d"}`, rng.Intn(many), rng.Intn(many))
		add(`{"fn":"grantPermission","object":"o","operation":"p%d","role":"r%d"}`, rng.Intn(many), rng.Intn(many))
		add(`{"fn":"assignUser","user":"u%d","role":"r%d"}`, rng.Intn(many), rng.Intn(many))
	}
	for i := 0; i < 2; i++ {
		add(`{"fn":"createDsdSet","set":"d%d","roles":["r%d","r%d"],"cardinality":2}`, i, rng.Intn(many), rng.Intn(many))
	}
	s := begun(t)
	if _, err := s.Try(callsOf(t, lines...)); err != nil {
		t.Fatal(err)
	}
	return s
}

// What Above and Blocked find for an explanation begins with the reason that librbac gives.
func TestExplained(t *testing.T) {
	met := map[rbacoffice.Why]int{}
	for seed := int64(0); seed < 100; seed++ {
		s := drawn(t, rand.New(rand.NewSource(seed)))
		err := s.Look(func(v *View) {
			for _, user := range v.Users() {
				for _, permission := range v.all(rbacoffice.Permissions) {
					reason, err := s.office.ExplainUser(user, permission[1], permission[0])
					if found := explained(v, user, permission); err != nil || found != reason {
						t.Fatalf("seed %d, %s, %s: %v and not %v, %v", seed, user, permission, found, reason, err)
					}
					met[reason.Why]++
				}
			}
		})
		if err != nil {
			t.Fatal(err)
		}
	}
	for _, why := range []rbacoffice.Why{rbacoffice.Allowed, rbacoffice.NotGranted, rbacoffice.NotAuthorized, rbacoffice.Separated} {
		if met[why] == 0 {
			t.Errorf("the reason %d never came", why)
		}
	}
}

// explained returns the reason that the lists of an explanation give. No user is locked.
func explained(v *View, user string, permission Row) rbacoffice.Reason {
	granted := v.Names("permissionRoles", "object", permission[0], "operation", permission[1])
	isOwn, above := map[string]bool{}, v.Above(granted, v.AssignedRoles(user))
	for _, role := range v.Names("authorizedRoles", "user", user) {
		isOwn[role] = true
	}
	reason := rbacoffice.Reason{Why: rbacoffice.NotGranted}
	if len(granted) > 0 {
		reason.Why = rbacoffice.NotAuthorized
	}
	for _, role := range granted {
		set, _ := v.Blocked(role)
		switch {
		case isOwn[role] && set == "":
			return rbacoffice.Reason{Why: rbacoffice.Allowed, Names: [2]string{above[role][0], role}}
		case isOwn[role] && reason.Why == rbacoffice.NotAuthorized:
			reason = rbacoffice.Reason{Why: rbacoffice.Separated, Names: [2]string{role, set}}
		}
	}
	return reason
}
