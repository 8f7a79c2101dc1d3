package callers

import (
	"sort"
	"strings"
	"testing"

	"rbac-node/internal/api"
)

func TestCheckCaller(t *testing.T) {
	for name, good := range map[string]bool{
		"token:shop": true, "token:a b": true, "cert:shop.example": true, "oidc:1234": true, "unix:0": true, "unix:4294967294": true,
		"": false, "shop": false, "token:": false, "cert:": false, "oidc:": false, "unix:": false, "unix:a": false, "unix:-1": false,
		"unix:01": false, "unix:65534": false, "unix:4294967296": false, "unix:1 ": false, "Token:shop": false, "tokens:shop": false,
	} {
		t.Run(name, func(t *testing.T) {
			if err := checkCaller(name); (err == nil) != good {
				t.Errorf("%v", err)
			}
		})
	}
}

func TestCheckScope(t *testing.T) {
	for scope, good := range map[string]bool{
		"office": true, "role clerk": true, "object safe": true, "object shop:": true, "user ann": true, "role  two": true,
		"": false, "Office": false, "role": false, "role ": false, "set pay": false, "session s": false, "clerk": false, "office ": false,
	} {
		t.Run(scope, func(t *testing.T) {
			if err := checkScope(scope); (err == nil) != good {
				t.Errorf("%v", err)
			}
		})
	}
}

func TestCheckRight(t *testing.T) {
	for _, test := range []struct {
		operation, scope string
		good             bool
	}{
		{"addUser", "office", true}, {"addUser", "user ann", true}, {"addUser", "role clerk", false}, {"addUser", "object a", false},
		{"assignUser", "role clerk", true}, {"assignUser", "user ann", false}, {"createSession", "role clerk", true},
		{"createSession", "user ann", false}, {"checkAccess", "object shop:", true}, {"checkAccess", "role clerk", false},
		{"userOperationsOnObject", "user ann", false}, {"userOperationsOnObject", "object a", true},
		{"grantPermission", "role clerk", true}, {"grantPermission", "object a", true}, {"deleteSession", "user ann", true},
		{"sessionRoles", "user ann", false}, {"sessionRoles", "office", true}, {"metrics", "office", true}, {"metrics", "role a", false},
		{"createSsdSet", "role clerk", true}, {"deleteSsdSet", "role clerk", false}, {"fly", "office", false}, {"ADDUSER", "office", false},
	} {
		t.Run(test.operation+" "+test.scope, func(t *testing.T) {
			if err := checkRight(test.operation, test.scope); (err == nil) != test.good {
				t.Errorf("%v", err)
			}
		})
	}
}

func TestGroupsOf(t *testing.T) {
	for _, test := range []struct{ name, line, want string }{
		{"a user", `{"fn":"addUser","user":"ann"}`, "user ann"},
		{"a role", `{"fn":"addRole","role":"clerk"}`, "role clerk"},
		{"a user and a role", `{"fn":"assignUser","user":"ann","role":"clerk"}`, "role clerk"},
		{"two roles", `{"fn":"addInheritance","asc":"boss","desc":"clerk"}`, "role boss & role clerk"},
		{"an object", `{"fn":"addPermObj","object":"safe"}`, "object safe"},
		{"an object with prefixes", `{"fn":"addPermObj","object":"a:b:c"}`, "object a:b:c | object a: | object a:b:"},
		{"an object that ends with a colon", `{"fn":"addPermObj","object":"a:"}`, "object a:"},
		{"an object that begins with a colon", `{"fn":"addPermObj","object":":a"}`, "object :a | object :"},
		{"a long name with colons", `{"fn":"addPermObj","object":"` + strings.Repeat("x", 55) + `::::::"}`,
			"object " + strings.Repeat("x", 55) + ":::::: | object " + strings.Repeat("x", 55) + ": | object " + strings.Repeat("x", 55) + "::"},
		{"an object and a role", `{"fn":"grantPermission","object":"a:b","operation":"o","role":"r"}`, "object a:b | object a: & role r"},
		{"a list of roles", `{"fn":"createSession","user":"ann","roles":["r","s"],"session":"x"}`, "role r & role s"},
		{"a role twice", `{"fn":"createSession","user":"ann","roles":["r","r"],"session":"x"}`, "role r & role r"},
		{"an empty list of roles", `{"fn":"createSession","user":"ann","roles":[],"session":"x"}`, ""},
		{"an empty list in a set", `{"fn":"createSsdSet","set":"p","roles":[],"cardinality":2}`, ""},
		{"a session of a user", `{"fn":"deleteSession","user":"ann","session":"x"}`, "user ann"},
		{"a session", `{"fn":"sessionRoles","session":"x"}`, ""},
		{"a set", `{"fn":"deleteSsdSet","set":"p"}`, ""},
		{"nothing", `{"fn":"ssdRoleSets"}`, ""},
		{"an import", `{"fn":"importAssignments","csv":"user,role\nann,clerk\n"}`, ""},
		{"a key twice", `{"fn":"addRole","role":"boss","role":"clerk"}`, "role clerk"},
		{"a key in capitals", `{"fn":"addRole","role":"boss","ROLE":"clerk"}`, "role boss"},
		{"an escaped key", `{"fn":"addRole","role":"boss","r\u006fle":"clerk"}`, "role clerk"},
		{"an empty name", `{"fn":"addRole","role":""}`, "role "},
	} {
		t.Run(test.name, func(t *testing.T) {
			call, err := api.ParseLine([]byte(test.line))
			if err != nil {
				t.Fatal(err)
			}
			var groups []string
			for _, group := range groupsOf(call) {
				groups = append(groups, strings.Join(group, " | "))
			}
			if given := strings.Join(groups, " & "); given != test.want {
				t.Errorf("%q and not %q", given, test.want)
			}
		})
	}
}

// TestEachFunction has, for each function, which kinds of scopes cover it.
func TestEachFunction(t *testing.T) {
	table := map[string]string{
		"user": "addUser deleteUser lockUserAccount unlockUserAccount assignedRoles authorizedRoles userPermissions deleteSession",
		"role": "addRole deleteRole assignUser deassignUser addInheritance deleteInheritance addAscendant addDescendant createSsdSet " +
			"addSsdRoleMember deleteSsdRoleMember createDsdSet addDsdRoleMember deleteDsdRoleMember createSession addActiveRole " +
			"dropActiveRole assignedUsers authorizedUsers rolePermissions",
		"object":        "addPermObj deletePermObj addPermission deletePermission checkAccess userOperationsOnObject permissionRoles",
		"object & role": "grantPermission revokePermission roleOperationsOnObject",
		"": "setSsdSetCardinality deleteSsdSet setDsdSetCardinality deleteDsdSet importAssignments sessionRoles sessionPermissions " +
			"ssdRoleSets dsdRoleSets ssdRoleSetRoles ssdRoleSetCardinality dsdRoleSetRoles dsdRoleSetCardinality",
	}
	found := map[string]bool{}
	for want, names := range table {
		for _, name := range strings.Fields(names) {
			found[name] = true
			var kinds []string
			for _, kind := range []string{ofObject, ofRole, ofUser} {
				if covers(name, kind) {
					kinds = append(kinds, kind)
				}
			}
			sort.Strings(kinds)
			if given := strings.Join(kinds, " & "); given != want {
				t.Errorf("%s: %q and not %q", name, given, want)
			}
		}
	}
	if len(found) != 51 || len(api.Functions()) != 51 {
		t.Errorf("%d functions and not %d", len(found), len(api.Functions()))
	}
}
