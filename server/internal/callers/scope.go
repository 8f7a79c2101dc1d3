// Package callers says who asks, and what a caller may do.
//
// Who may do what is decided by an office of its own, in memory: each caller is a user of it, with a session of the same name that
// has all its roles. An operation is the name of a function. An object is a scope: "office", "role NAME", "object NAME",
// "object PREFIX:" or "user NAME". Every refusal of that office counts as no.
package callers

import (
	"fmt"
	"strconv"
	"strings"

	"rbac-node/internal/api"
)

// office is the scope that covers all calls.
const office = "office"

// Metrics is the operation that lets a caller read the metrics. It needs the scope "office".
const Metrics = "metrics"

// nobody is the user that the kernel reports for users that it can't name here.
const nobody = 65534

// kindsOfCallers says how a caller can be shown, as the beginning of its name.
var kindsOfCallers = []string{"token:", "cert:", "oidc:", "unix:"}

// checkCaller reports what is wrong with the name of a caller.
func checkCaller(name string) error {
	for _, kind := range kindsOfCallers {
		rest := strings.TrimPrefix(name, kind)
		if rest == name {
			continue
		}
		if kind == "unix:" {
			uid, err := strconv.ParseUint(rest, 10, 32)
			if err != nil || strconv.FormatUint(uid, 10) != rest || uid == nobody {
				return fmt.Errorf("%q isn't the number of a user", rest)
			}
		}
		if rest == "" {
			return fmt.Errorf("%q has no name", name)
		}
		return nil
	}
	return fmt.Errorf("no caller is called %q: names begin with %s", name, strings.Join(kindsOfCallers, ", "))
}

// The kinds of names in scopes.
const ofRole, ofObject, ofUser = "role", "object", "user"

func checkScope(scope string) error {
	if scope == office {
		return nil
	}
	kind, name, _ := strings.Cut(scope, " ")
	if name == "" || kind != ofRole && kind != ofObject && kind != ofUser {
		return fmt.Errorf("%q isn't a scope: office, role NAME, object NAME, object PREFIX: or user NAME", scope)
	}
	return nil
}

// checkRight reports whether a scope can ever cover a call of an operation.
func checkRight(operation, scope string) error {
	_, known := api.KindOf(operation)
	if !known && operation != Metrics && !api.IsOther(operation) {
		return fmt.Errorf("%q isn't the name of a function or of an operation", operation)
	}
	if kind, _, _ := strings.Cut(scope, " "); scope != office && !covers(operation, kind) {
		return fmt.Errorf("no scope of this kind covers %s: %q", operation, scope)
	}
	return nil
}

// covers reports whether a scope with a name of a kind can cover a function.
func covers(function, kind string) bool {
	names := map[string]bool{}
	for _, key := range api.Keys(function) {
		names[kindOfKey(key)] = true
	}
	if kind == ofUser {
		return names[ofUser] && !names[ofRole] && !names[ofObject]
	}
	return names[kind]
}

// kindOfKey returns of which kind the names at a key are, or nothing if no scope is about them.
func kindOfKey(key string) string {
	switch key {
	case "role", "roles", "asc", "desc":
		return ofRole
	case "object":
		return ofObject
	case "user":
		return ofUser
	}
	return ""
}

// groupsOf returns what covers a call besides the scope "office": of each group the caller needs one scope. A call without groups
// needs "office".
func groupsOf(call *api.Call) (groups [][]string) {
	user := ""
	for _, key := range api.Keys(call.Function) {
		name := call.Text(key)
		switch {
		case key == "roles" && len(call.Roles) == 0:
			return nil // Nothing says to which roles such a call is confined.
		case key == "roles":
			for _, role := range call.Roles {
				groups = append(groups, []string{ofRole + " " + role})
			}
		case kindOfKey(key) == ofRole:
			groups = append(groups, []string{ofRole + " " + name})
		case kindOfKey(key) == ofObject:
			groups = append(groups, scopesOfObject(name))
		case kindOfKey(key) == ofUser:
			user = name
		}
	}
	if len(groups) == 0 && user != "" {
		groups = [][]string{{ofUser + " " + user}}
	}
	return groups
}

// longestName is how many bytes the name of a scope has at most.
const longestName = 64

// scopesOfObject returns the scopes that cover an object: its name, and each beginning of it that ends with a colon. A client may
// send a long name that no object has.
func scopesOfObject(name string) []string {
	scopes := []string{ofObject + " " + name}
	for i := 0; i < len(name)-1 && i < longestName-len(ofObject)-1; i++ {
		if name[i] == ':' {
			scopes = append(scopes, ofObject+" "+name[:i+1])
		}
	}
	return scopes
}
