package callers

import (
	"bytes"
	"context"
	"fmt"
	"math/rand"
	"os"
	"os/exec"
	"path/filepath"
	"strings"
	"testing"
	"time"

	"rbac/clients/go/rbacoffice"

	"rbac-node/internal/api"
	"rbac-node/internal/limits"
	"rbac-node/internal/logs"
	"rbac-node/internal/programtest"
)

// optionsOf returns the options of a file of callers with these lines.
func optionsOf(t *testing.T, lines ...string) Options {
	return Options{
		Files: Files{Callers: write(t, "callers.jsonl", strings.Join(lines, "\n")+"\n")}, Log: logs.New(&bytes.Buffer{}),
	}
}

func write(t *testing.T, name, text string) string {
	t.Helper()
	path := filepath.Join(t.TempDir(), name)
	if err := os.WriteFile(path, []byte(text), 0o600); err != nil {
		t.Fatal(err)
	}
	return path
}

func load(t *testing.T, options Options) *Set {
	t.Helper()
	s, err := Load(context.Background(), options)
	if err != nil {
		t.Fatal(err)
	}
	t.Cleanup(s.Close)
	return s
}

// A right is an operation in a scope.
type right struct{ operation, scope string }

// lineFor returns a request line of texts.
func lineFor(function string, pairs ...string) string {
	call, err := api.NewCall(function, pairs...)
	if err != nil {
		return err.Error()
	}
	return string(call.Line)
}

// policy returns the lines that give each caller its own role, and the role rights: pairs of functions and scopes.
func policy(rights map[string][]right) (lines []string) {
	objects, permissions := map[string]bool{}, map[right]bool{}
	for caller, some := range rights {
		lines = append(lines, lineFor("addUser", "user", caller), lineFor("addRole", "role", caller),
			lineFor("assignUser", "user", caller, "role", caller))
		for _, one := range some {
			if !objects[one.scope] {
				lines = append(lines, lineFor("addPermObj", "object", one.scope))
			}
			if !permissions[one] {
				lines = append(lines, lineFor("addPermission", "object", one.scope, "operation", one.operation))
			}
			objects[one.scope], permissions[one] = true, true
			lines = append(lines, lineFor("grantPermission", "object", one.scope, "operation", one.operation, "role", caller))
		}
	}
	return lines
}

func callOf(t *testing.T, line string) *api.Call {
	t.Helper()
	call, err := api.ParseLine([]byte(line))
	if err != nil {
		t.Fatalf("%s: %v", line, err)
	}
	return call
}

func TestMay(t *testing.T) {
	const assign = `{"fn":"assignUser","user":"ann","role":"clerk"}`
	long := strings.Repeat("x", 64)
	s := load(t, optionsOf(t, append(policy(map[string][]right{
		"token:desk":   {{"assignUser", "role clerk"}, {"addInheritance", "role boss"}, {"createSession", "role clerk"}},
		"token:users":  {{"addUser", "user ann"}, {"deleteSession", "user ann"}},
		"token:shop":   {{"checkAccess", "object shop:"}, {"addPermObj", "object shop:till"}},
		"token:admin":  {{"assignUser", "office"}, {"importAssignments", "office"}, {"metrics", "office"}},
		"token:locked": {{"assignUser", "office"}},
		"token:both":   {{"grantPermission", "role clerk"}, {"grantPermission", "object shop:"}},
		"token:half":   {{"grantPermission", "role clerk"}},
	}), `{"fn":"lockUserAccount","user":"token:locked"}`, `{"fn":"addUser","user":"token:gone"}`,
		`{"fn":"deleteUser","user":"token:gone"}`)...))
	for _, test := range []struct {
		name, caller string
		lines        []string
		allowed      bool
	}{
		{"a role in a scope", "token:desk", []string{assign}, true},
		{"another role", "token:desk", []string{`{"fn":"assignUser","user":"ann","role":"boss"}`}, false},
		{"a role whose name begins alike", "token:desk", []string{`{"fn":"assignUser","user":"ann","role":"clerk2"}`}, false},
		{"a role in another case", "token:desk", []string{`{"fn":"assignUser","user":"ann","role":"Clerk"}`}, false},
		{"another function", "token:desk", []string{`{"fn":"deassignUser","user":"ann","role":"clerk"}`}, false},
		{"one of two roles", "token:desk", []string{`{"fn":"addInheritance","asc":"boss","desc":"clerk"}`}, false},
		{"a list of roles", "token:desk", []string{`{"fn":"createSession","user":"ann","roles":["clerk"],"session":"s"}`}, true},
		{"a list with another role", "token:desk", []string{`{"fn":"createSession","user":"a","roles":["clerk","boss"],"session":"s"}`}, false},
		{"an empty list of roles", "token:desk", []string{`{"fn":"createSession","user":"ann","roles":[],"session":"s"}`}, false},
		{"a key twice, the last one in the scope", "token:desk", []string{`{"fn":"assignUser","user":"ann","role":"boss","role":"clerk"}`}, true},
		{"a key twice, the first one in the scope", "token:desk", []string{`{"fn":"assignUser","user":"ann","role":"clerk","role":"boss"}`}, false},
		{"a key in capitals", "token:desk", []string{`{"fn":"assignUser","user":"ann","role":"boss","ROLE":"clerk"}`}, false},
		{"the whole office", "token:admin", []string{`{"fn":"assignUser","user":"ann","role":"boss"}`}, true},
		{"an import", "token:admin", []string{`{"fn":"importAssignments","csv":"user,role\nann,clerk\n"}`}, true},
		{"an import without the office", "token:desk", []string{`{"fn":"importAssignments","csv":"user,role\nann,clerk\n"}`}, false},
		{"a user", "token:users", []string{`{"fn":"addUser","user":"ann"}`}, true},
		{"another user", "token:users", []string{`{"fn":"addUser","user":"bob"}`}, false},
		{"the session of a user", "token:users", []string{`{"fn":"deleteSession","user":"ann","session":"s"}`}, true},
		{"an object with the prefix", "token:shop", []string{`{"fn":"checkAccess","session":"s","operation":"o","object":"shop:a:b"}`}, true},
		{"the prefix itself", "token:shop", []string{`{"fn":"checkAccess","session":"s","operation":"o","object":"shop:"}`}, true},
		{"an object without the colon", "token:shop", []string{`{"fn":"checkAccess","session":"s","operation":"o","object":"shop"}`}, false},
		{"an object that begins alike", "token:shop", []string{`{"fn":"checkAccess","session":"s","operation":"o","object":"shopx:a"}`}, false},
		{"an object with the prefix inside", "token:shop", []string{`{"fn":"checkAccess","session":"s","operation":"o","object":"a:shop:b"}`}, false},
		{"an object by its name", "token:shop", []string{`{"fn":"addPermObj","object":"shop:till"}`}, true},
		{"an object below a name that is no prefix", "token:shop", []string{`{"fn":"addPermObj","object":"shop:till:a"}`}, false},
		{"a role and an object", "token:both", []string{`{"fn":"grantPermission","object":"shop:a","operation":"o","role":"clerk"}`}, true},
		{"a role alone", "token:half", []string{`{"fn":"grantPermission","object":"shop:a","operation":"o","role":"clerk"}`}, false},
		{"a long name", "token:desk", []string{lineFor("assignUser", "user", "ann", "role", long)}, false},
		{"a name that is too long", "token:desk", []string{lineFor("assignUser", "user", "ann", "role", long+"x")}, false},
		{"an invalid name", "token:desk", []string{lineFor("assignUser", "user", "ann", "role", "a\x01")}, false},
		{"a locked caller", "token:locked", []string{assign}, false},
		{"a caller that was deleted", "token:gone", []string{assign}, false},
		{"an unknown caller", "token:nobody", []string{assign}, false},
		{"a caller with the name of a role", "clerk", []string{assign}, false},
		{"no caller", "", []string{assign}, false},
		{"several calls", "token:desk", []string{assign, assign}, true},
		{"several calls, one of them forbidden", "token:desk", []string{assign, `{"fn":"addUser","user":"ann"}`}, false},
	} {
		t.Run(test.name, func(t *testing.T) {
			var calls []*api.Call
			for _, line := range test.lines {
				calls = append(calls, callOf(t, line))
			}
			err := s.May(test.caller, calls...)
			if test.allowed && err != nil || !test.allowed && err != error(api.Forbidden) {
				t.Errorf("%v", err)
			}
		})
	}
	if s.MayRead("token:admin", Metrics) != nil || s.MayRead("token:desk", Metrics) == nil {
		t.Error("metrics")
	}
}

func TestLoad(t *testing.T) {
	const user, role = `{"fn":"addUser","user":"token:a"}`, `{"fn":"addRole","role":"r"}`
	many := []string{role}
	for i := 0; i <= mostCallers; i++ {
		many = append(many, fmt.Sprintf(`{"fn":"addUser","user":"token:%d"}`, i))
	}
	roles := []string{user}
	for i := 0; i <= limits.Of("activeRole", limits.Current); i++ {
		roles = append(roles, fmt.Sprintf(`{"fn":"addRole","role":"r%d"}`, i), fmt.Sprintf(`{"fn":"assignUser","user":"token:a","role":"r%d"}`, i))
	}
	for _, test := range []struct {
		name  string
		lines []string
		says  string
	}{
		{"nothing", nil, ""},
		{"blank lines", []string{"", " \t\r", user, ""}, ""},
		{"not JSON", []string{user, "x"}, ":2: BadRequest: this is no object of JSON"},
		{"a wrong key", []string{user, `{"fn":"addRole","roles":["a"]}`}, ":2: BadRequest: role is missing, and has to be a text"},
		{"an unknown function", []string{`{"fn":"fly"}`}, ":1: UnknownFunction"},
		{"a question", []string{`{"fn":"ssdRoleSets"}`}, ":1: ssdRoleSets has no place"},
		{"a session", []string{user, `{"fn":"createSession","user":"token:a","roles":[],"session":"s"}`}, ":2: createSession has no place"},
		{"an activated role", []string{`{"fn":"addActiveRole","user":"u","session":"s","role":"r"}`}, "addActiveRole has no place"},
		{"a dynamic set", []string{`{"fn":"createDsdSet","set":"d","roles":[],"cardinality":2}`}, "createDsdSet has no place"},
		{"an import", []string{`{"fn":"importAssignments","csv":"user,role\n"}`}, "importAssignments has no place"},
		{"a static set", []string{role, `{"fn":"addRole","role":"q"}`, `{"fn":"createSsdSet","set":"d","roles":["r","q"],"cardinality":2}`}, ""},
		{"two roles of a static set", []string{role, `{"fn":"addRole","role":"q"}`, `{"fn":"createSsdSet","set":"d","roles":["r","q"],"cardinality":2}`,
			user, `{"fn":"assignUser","user":"token:a","role":"r"}`, `{"fn":"assignUser","user":"token:a","role":"q"}`}, `:6: {"code":24`},
		{"a line that is refused", []string{"", user, user}, `:3: {"code":3,"error":"UserExists"}`},
		{"a caller without a kind", []string{`{"fn":"addUser","user":"ann"}`}, `:1: no caller is called "ann"`},
		{"nobody", []string{`{"fn":"addUser","user":"unix:65534"}`}, `isn't the number of a user`},
		{"an object that is no scope", []string{`{"fn":"addPermObj","object":"safe"}`}, `"safe" isn't a scope`},
		{"an operation that is no function", []string{`{"fn":"addPermObj","object":"office"}`,
			`{"fn":"addPermission","object":"office","operation":"open"}`}, `:2: "open" isn't the name of a function`},
		{"a scope that covers nothing", []string{`{"fn":"addPermObj","object":"user ann"}`,
			`{"fn":"addPermission","object":"user ann","operation":"assignUser"}`}, "no scope of this kind"},
		{"a caller of too many roles", roles, `the session of token:a: {"code":32`},
		{"too many callers", many, "1001 callers"},
		{"as many callers as there may be", many[:mostCallers+1], ""},
	} {
		t.Run(test.name, func(t *testing.T) {
			s, err := Load(context.Background(), optionsOf(t, test.lines...))
			if err == nil {
				s.Close()
			}
			if test.says == "" && err != nil || test.says != "" && (err == nil || !strings.Contains(err.Error(), test.says)) {
				t.Errorf("%v and not %q", err, test.says)
			}
		})
	}
}

func TestGrants(t *testing.T) {
	s := load(t, optionsOf(t, append(policy(map[string][]right{
		"token:a": {{"addUser", "user ann"}, {"deleteUser", "user ann"}, {"addRole", "office"}}, "cert:b": {},
	}), `{"fn":"addUser","user":"unix:0"}`, `{"fn":"lockUserAccount","user":"unix:0"}`)...))
	grants, err := s.Grants()
	if given := fmt.Sprint(grants); err != nil ||
		given != "[cert:b\t-\t token:a\toffice\taddRole token:a\tuser ann\taddUser deleteUser unix:0\t-\t]" {
		t.Errorf("%v, %v", given, err)
	}
}

// A model is an office of callers as sets, and the rule of the page in as few words as possible.
type model struct {
	assigned, inherits map[string]map[string]bool
	granted            map[string]map[right]bool
}

// has reports whether a caller has a right by a role or by one that it inherits from.
func (m *model) has(caller string, one right) bool {
	seen := map[string]bool{}
	var visit func(role string) bool
	visit = func(role string) bool {
		if seen[role] {
			return false
		}
		seen[role] = true
		found := m.granted[role][one]
		for junior := range m.inherits[role] {
			found = visit(junior) || found
		}
		return found
	}
	found := false
	for role := range m.assigned[caller] {
		found = visit(role) || found
	}
	return found
}

// allows is the rule: the office; or each role and each object; or the user, if the call names neither.
func (m *model) allows(caller, function, user string, roles, objects []string, isEmptyList bool) bool {
	if m.has(caller, right{function, "office"}) {
		return true
	}
	if isEmptyList || len(roles)+len(objects) == 0 {
		return !isEmptyList && user != "" && m.has(caller, right{function, "user " + user})
	}
	for _, role := range roles {
		if !m.has(caller, right{function, "role " + role}) {
			return false
		}
	}
	for _, object := range objects {
		in := m.has(caller, right{function, "object " + object})
		for i := range object {
			in = in || object[i] == ':' && m.has(caller, right{function, "object " + object[:i+1]})
		}
		if !in {
			return false
		}
	}
	return true
}

var (
	someRoles   = []string{"clerk", "boss", "clerk2"}
	someObjects = []string{"shop:a", "shop:a:b", "shop:", "shop", "wh:a", ":"}
	someUsers   = []string{"ann", "bob"}
)

func pick(rng *rand.Rand, from []string) string { return from[rng.Intn(len(from))] }

// randomModel returns a random office of callers with its lines.
func randomModel(rng *rand.Rand) (m *model, lines []string) {
	m = &model{map[string]map[string]bool{}, map[string]map[string]bool{}, map[string]map[right]bool{}}
	const roles, callers = 8, 12
	for i := 0; i < roles; i++ {
		role := fmt.Sprint("r", i)
		m.inherits[role], m.granted[role] = map[string]bool{}, map[right]bool{}
		lines = append(lines, lineFor("addRole", "role", role))
		for j := 0; j < i; j++ {
			if junior := fmt.Sprint("r", j); rng.Intn(5) == 0 {
				m.inherits[role][junior] = true
				lines = append(lines, lineFor("addInheritance", "asc", role, "desc", junior))
			}
		}
	}
	for i := 0; i < callers; i++ {
		caller := fmt.Sprint("token:", i)
		m.assigned[caller] = map[string]bool{}
		lines = append(lines, lineFor("addUser", "user", caller))
		for rng.Intn(3) > 0 {
			if role := fmt.Sprint("r", rng.Intn(roles)); !m.assigned[caller][role] {
				m.assigned[caller][role] = true
				lines = append(lines, lineFor("assignUser", "user", caller, "role", role))
			}
		}
	}
	return m, append(lines, randomGrants(rng, m, roles)...)
}

// randomGrants grants random rights to the roles of a model.
func randomGrants(rng *rand.Rand, m *model, roles int) (lines []string) {
	objects, permissions := map[string]bool{}, map[right]bool{}
	functions := api.Functions()
	for i := 0; i < 250; i++ {
		one := right{pick(rng, functions), "office"}
		switch rng.Intn(6) {
		case 0, 1:
			one.scope = "role " + pick(rng, someRoles)
		case 2, 3:
			one.scope = "object " + pick(rng, someObjects)
		case 4:
			one.scope = "user " + pick(rng, someUsers)
		}
		role := fmt.Sprint("r", rng.Intn(roles))
		if checkRight(one.operation, one.scope) != nil || m.granted[role][one] {
			continue
		}
		if !objects[one.scope] {
			lines = append(lines, lineFor("addPermObj", "object", one.scope))
		}
		if !permissions[one] {
			lines = append(lines, lineFor("addPermission", "object", one.scope, "operation", one.operation))
		}
		objects[one.scope], permissions[one], m.granted[role][one] = true, true, true
		lines = append(lines, lineFor("grantPermission", "object", one.scope, "operation", one.operation, "role", role))
	}
	return lines
}

// TestRandomOffices compares 100,000 admissions with the model.
func TestRandomOffices(t *testing.T) {
	const offices, admissions = 20, 5_000
	seed := time.Now().UnixNano()
	t.Logf("seed %d", seed)
	rng := rand.New(rand.NewSource(seed))
	functions, allowed := api.Functions(), 0
	for i := 0; i < offices; i++ {
		m, lines := randomModel(rng)
		s := load(t, optionsOf(t, lines...))
		for k := 0; k < admissions; k++ {
			caller, function := fmt.Sprint("token:", rng.Intn(13)), pick(rng, functions)
			user, roles, objects, isEmptyList, line := randomCall(rng, function)
			err := s.May(caller, callOf(t, line))
			want := m.allows(caller, function, user, roles, objects, isEmptyList)
			if want && err != nil || !want && err != error(api.Forbidden) {
				t.Fatalf("%s, %s: %v and not %v", caller, line, err, want)
			}
			if want {
				allowed++
			}
		}
	}
	if t.Logf("%d of %d are allowed", allowed, offices*admissions); allowed < offices*admissions/100 {
		t.Error("too few are allowed")
	}
}

// TestProgramAnswersAlike compares the answers of the office in this process with those of the program, to the lines of random offices and to
// random calls, most of which are refused.
func TestProgramAnswersAlike(t *testing.T) {
	const offices, calls = 10, 500
	seed := time.Now().UnixNano()
	t.Logf("seed %d", seed)
	rng := rand.New(rand.NewSource(seed))
	functions := api.Functions()
	for i := 0; i < offices; i++ {
		_, lines := randomModel(rng)
		for k := 0; k < calls; k++ {
			_, _, _, _, line := randomCall(rng, pick(rng, functions))
			lines = append(lines, line)
		}
		command := exec.Command(programtest.Path(t), "replay", "--memory")
		command.Stdin = strings.NewReader(strings.Join(lines, "\n") + "\n")
		said, err := command.Output()
		if err != nil {
			t.Fatal(err)
		}
		wanted := strings.Split(strings.TrimSuffix(string(said), "\n"), "\n")
		if len(wanted) != len(lines) {
			t.Fatalf("%d answers to %d lines", len(wanted), len(lines))
		}
		office, err := rbacoffice.Open()
		if err != nil {
			t.Fatal(err)
		}
		for k, line := range lines {
			if answer, err := office.Answer([]byte(line)); err != nil || string(answer) != wanted[k] {
				t.Fatalf("%s: %s, %v and not %s", line, answer, err, wanted[k])
			}
		}
		office.Close()
	}
}

// randomCall returns a call of a function, with the names that count in it.
func randomCall(rng *rand.Rand, function string) (user string, roles, objects []string, isEmptyList bool, line string) {
	line = `{"fn":"` + function + `"`
	for _, key := range api.Keys(function) {
		value := `"x"`
		switch key {
		case "user":
			user = pick(rng, someUsers)
			value = `"` + user + `"`
		case "role", "asc", "desc":
			roles = append(roles, pick(rng, someRoles))
			value = `"` + roles[len(roles)-1] + `"`
		case "object":
			objects = append(objects, pick(rng, someObjects))
			value = `"` + objects[len(objects)-1] + `"`
		case "roles":
			for rng.Intn(3) > 0 {
				roles = append(roles, pick(rng, someRoles))
			}
			isEmptyList = len(roles) == 0
			value = strings.ReplaceAll(fmt.Sprintf("%q", roles), " ", ",")
		case "cardinality":
			value = "2"
		}
		line += `,"` + key + `":` + value
	}
	return user, roles, objects, isEmptyList, line + "}"
}
