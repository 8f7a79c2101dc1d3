package state

import (
	"fmt"
	"testing"

	"rbac/clients/go/rbacoffice"

	"rbac-node/internal/api"
	"rbac-node/internal/limits"
)

// long returns a name of 64 bytes.
func long(letter string, number int) string { return fmt.Sprintf("%s%063d", letter, number) }

// A maker makes the rows of an office.
type maker []rbacoffice.Row

func (m *maker) add(table rbacoffice.Table, number uint32, names ...string) {
	row := rbacoffice.Row{Table: table, Number: number}
	copy(row.Names[:], names)
	*m = append(*m, row)
}

// mostOf returns how many of a kind an office may have.
func mostOf(kind string) int { return limits.Of(kind, limits.Current) }

// apart is how many roles are in nobody's hands.
const apart = 2

var (
	users, roles, objects, permissions = mostOf("user"), mostOf("role"), mostOf("object"), mostOf("permission")
	grants, assignments, members       = mostOf("grant"), mostOf("assignment"), mostOf(memberKind)
)

// TestMasks has a bit for each member of the largest set.
func TestMasks(t *testing.T) {
	for version := 1; version <= limits.Newest(); version++ {
		if most := limits.Of(memberKind, version); uint64(1)<<(most-1) == 0 {
			t.Errorf("a set of version %d may have %d members", version, most)
		}
	}
}

// atLimits returns an office with as much of everything as there may be: a chain of all roles but two. The first user is assigned to
// all of the chain, the others to one of ten, and the first permission is granted to all of it.
func atLimits(b *testing.B) *State {
	var m maker
	for i := 0; i < users; i++ {
		m.add(rbacoffice.Users, 0, long("u", i))
		if i < assignments-roles {
			m.add(rbacoffice.Assignments, 0, long("u", roles+i), long("r", i%10))
		}
	}
	for i := 0; i < roles; i++ {
		m.add(rbacoffice.Roles, 0, long("r", i))
		if i < roles-apart {
			m.add(rbacoffice.Assignments, 0, long("u", 0), long("r", i))
			m.add(rbacoffice.Grants, 0, long("o", 0), long("p", 0), long("r", i))
		}
		for step := 1; step <= 4 && i+step < roles-apart; step++ {
			m.add(rbacoffice.Inheritances, 0, long("r", i), long("r", i+step))
		}
	}
	for i := 0; i < permissions; i++ {
		if i < objects {
			m.add(rbacoffice.Objects, 0, long("o", i))
		}
		m.add(rbacoffice.Permissions, 0, long("o", i%objects), long("p", i/objects))
	}
	for i := 0; i < grants-roles; i++ {
		at := 1 + i%(permissions-1)
		m.add(rbacoffice.Grants, 0, long("o", at%objects), long("p", at/objects), long("r", roles-apart-1-i/(permissions-1)))
	}
	m.addSets()
	m.addSessions()
	s := New(Numbers{})
	if err := s.Begin(append(m, rbacoffice.Closure(m)...), true); err != nil {
		b.Fatal(err)
	}
	b.Cleanup(s.Forget)
	return s
}

// addSets adds as many sets of each kind as there may be, which nobody violates: two of the members are in nobody's hands.
func (m *maker) addSets() {
	for i := 0; i < mostOf("ssdSet"); i++ {
		m.add(rbacoffice.DynamicCardinalities, uint32(members), long("d", i))
		m.add(rbacoffice.StaticCardinalities, uint32(members), long("s", i))
		for at := 0; at < members; at++ {
			member := long("r", at*(i%8+1)*3)
			if at < apart {
				member = long("r", roles-1-at)
			}
			m.add(rbacoffice.DynamicMembers, 0, long("d", i), member)
			m.add(rbacoffice.StaticMembers, 0, long("s", i), member)
		}
	}
}

func (m *maker) addSessions() {
	for i := 0; i < mostOf(sessionKind); i++ {
		m.add(rbacoffice.Sessions, 0, long("t", i), long("u", 0))
		for at := 0; at < MostActivated; at++ {
			m.add(rbacoffice.ActivatedRoles, 0, long("t", i), long("r", roles-apart-MostActivated+at))
		}
	}
}

// BenchmarkAtLimits measures what librbac is asked, and what holds the office or is made of it: run it with -benchtime 3x.
func BenchmarkAtLimits(b *testing.B) {
	s := atLimits(b)
	measured := func(name string, do func()) {
		b.Run(name, func(b *testing.B) {
			for i := 0; i < b.N; i++ {
				do()
			}
		})
	}
	for _, one := range [][]string{
		{"assignedUsers", "role", long("r", 5)}, {"authorizedUsers", "role", long("r", roles-apart-1)}, {"rolePermissions", "role", long("r", roles/2)},
		{"roleOperationsOnObject", "role", long("r", 0), "object", long("o", 0)}, {"assignedRoles", "user", long("u", 0)},
		{"authorizedRoles", "user", long("u", 0)}, {"userPermissions", "user", long("u", 0)}, {"userPermissions", "user", long("u", 5000)},
		{"userOperationsOnObject", "user", long("u", 0), "object", long("o", 0)}, {"sessionPermissions", "session", long("t", 5)},
		{"permissionRoles", "object", long("o", 0), "operation", long("p", 0)},
	} {
		call, err := api.NewCall(one[0], one[1:]...)
		if err != nil {
			b.Fatal(err)
		}
		measured(one[0], func() { _, _ = s.Answer(call) })
	}
	for _, one := range [][]string{
		{"assignUser", "user", long("u", 0), "role", long("r", 0)}, {"addInheritance", "asc", long("r", 0), "desc", long("r", roles-apart-1)},
		{"addActiveRole", "user", long("u", 0), "session", long("t", 5), "role", long("r", 100)},
	} {
		call, err := api.NewCall(one[0], one[1:]...)
		if err != nil {
			b.Fatal(err)
		}
		measured("Conflicts of "+one[0], func() { _, _ = s.Conflicts(call) })
	}
	measured("Freeze", func() { _, _ = s.Freeze() })
	measured("FreezeWithJuniors", func() { _, _ = s.FreezeWithJuniors() })
	measured("Clone", func() {
		clone, err := s.Clone()
		if err != nil {
			b.Fatal(err)
		}
		clone.Forget()
	})
	measured("Digest", func() { _, _ = s.Digest() })
	measured("Rows", func() { _ = s.Look(func(v *View) { v.Rows() }) })
}
