package callers

import (
	"bytes"
	"context"
	"crypto/sha256"
	"crypto/x509"
	"errors"
	"fmt"
	"os"
	"sort"
	"strings"
	"sync"

	"rbac/clients/go/rbacoffice"

	"rbac-node/internal/api"
	"rbac-node/internal/logs"
	"rbac-node/internal/web"
)

// mostCallers is how many callers there may be: the office has no more sessions.
const mostCallers = 1000

// Files are the files that are read together, and what is wanted of a JWT.
type Files struct {
	Callers, Tokens, Authority      string
	Keys, Issuer, Audience, Subject string
}

// Options are what a set of callers needs beside its files.
type Options struct {
	Files
	Log *logs.Logger
}

// A Set is what was read together: the office of the callers, and how they show who they are.
type Set struct {
	office *rbacoffice.Office
	// operations has those that callers have in some scope: they never change while the set is in force.
	operations sync.Map
	// names has the callers.
	names     map[string]bool
	tokens    map[[sha256.Size]byte]string
	authority *x509.CertPool
	// keys verify JWTs. They are nil if there is no file of keys.
	keys *keyring

	// using is read by each request that uses the set, and locked when the set is no longer in force. See Guard.
	using sync.RWMutex
}

// Load reads all files. The set has to be closed.
func Load(ctx context.Context, options Options) (*Set, error) {
	s := &Set{names: map[string]bool{}}
	var err error
	if s.tokens, err = readTokens(options.Tokens); err != nil {
		return nil, err
	}
	if s.authority, err = web.ReadAuthority(options.Authority); err != nil {
		return nil, err
	}
	if s.keys, err = newKeyring(options.Files, options.Log); err != nil {
		return nil, err
	}
	lines, err := s.readLines(options.Callers)
	if err != nil {
		return nil, err
	}
	if err := s.open(ctx, options.Callers, lines); err != nil {
		return nil, err
	}
	return s, nil
}

// A line is a line of a file.
type line struct {
	number int
	text   []byte
}

func (s *Set) readLines(path string) (lines []line, err error) {
	text, err := os.ReadFile(path)
	if err != nil {
		return nil, fmt.Errorf("callers: %w", err)
	}
	for i, one := range bytes.Split(text, []byte("\n")) {
		if len(bytes.Trim(one, " \t\r")) == 0 {
			continue
		}
		call, err := api.ParseLine(one)
		if err == nil {
			err = s.read(call)
		}
		if err != nil {
			return nil, fmt.Errorf("%s:%d: %w", path, i+1, err)
		}
		lines = append(lines, line{i + 1, call.Line})
	}
	if len(s.names) > mostCallers {
		return nil, fmt.Errorf("%s: %d callers, and not at most %d", path, len(s.names), mostCallers)
	}
	return lines, nil
}

// read notes what a line says, or reports why it has no place in a file of callers.
func (s *Set) read(call *api.Call) error {
	text := func(key string) string { return call.Text(key) }
	switch name := call.Function; {
	case call.Kind != api.Command, name == api.Importer, strings.Contains(name, "Session"), strings.Contains(name, "Dsd"),
		strings.HasSuffix(name, "ActiveRole"):
		return fmt.Errorf("%s has no place in a file of callers", name)
	case name == "addUser":
		s.names[text("user")] = true
		return checkCaller(text("user"))
	case name == "deleteUser":
		delete(s.names, text("user"))
	case name == "addPermObj":
		return checkScope(text("object"))
	case name == "addPermission":
		return checkRight(text("operation"), text("object"))
	}
	return nil
}

// open makes the office of the callers, with a session for each of them.
func (s *Set) open(ctx context.Context, path string, lines []line) (err error) {
	if s.office, err = rbacoffice.Open(); err != nil {
		return fmt.Errorf("callers: %w", err)
	}
	if err = s.fill(ctx, path, lines); err == nil {
		err = s.makeSessions(ctx, path)
	}
	if err != nil {
		s.Close()
	}
	return err
}

// fill does the lines of the file of callers.
func (s *Set) fill(ctx context.Context, path string, lines []line) error {
	for _, one := range lines {
		answer, err := s.office.Answer(one.text)
		if err == nil {
			err = ctx.Err()
		}
		if err != nil {
			return fmt.Errorf("callers: %w", err)
		}
		if !api.IsAccepted(answer) {
			return fmt.Errorf("%s:%d: %s", path, one.number, answer)
		}
	}
	return nil
}

// Close frees the office of the callers.
func (s *Set) Close() { s.office.Close() }

// Count returns how many callers there are.
func (s *Set) Count() int { return len(s.names) }

// callerNames returns the names of all callers in their order.
func (s *Set) callerNames() (names []string) {
	for name := range s.names {
		names = append(names, name)
	}
	sort.Strings(names)
	return names
}

// makeSessions gives each caller a session of all its roles. A locked caller gets none, and so may do nothing.
func (s *Set) makeSessions(ctx context.Context, path string) error {
	for _, name := range s.callerNames() {
		if ctx.Err() != nil {
			return fmt.Errorf("callers: %w", ctx.Err())
		}
		var roles []string
		if err := s.office.Call("assignedRoles", map[string]any{"user": name}, &roles); err != nil {
			return fmt.Errorf("%s: the roles of %s: %w", path, name, err)
		}
		err := s.office.Call("createSession", map[string]any{"user": name, "session": name, "roles": roles}, nil)
		const locked = 37
		var refused *rbacoffice.RefusedError
		switch {
		case errors.As(err, &refused) && refused.Code != locked:
			return fmt.Errorf("%s: the session of %s: %s", path, name, api.RefusalText(refused.Code, refused.Name))
		case err != nil && refused == nil:
			return fmt.Errorf("%s: the session of %s: %w", path, name, err)
		}
	}
	return nil
}

// A Grant is what a caller may do in a scope.
type Grant struct {
	Caller    string   `json:"-"`
	Functions []string `json:"functions"`
	Scope     string   `json:"scope"`
}

func (g Grant) String() string {
	return g.Caller + "\t" + g.Scope + "\t" + strings.Join(g.Functions, " ")
}

// May refuses a caller that may not do all of some calls.
func (s *Set) May(caller string, calls ...*api.Call) error {
	everywhere := "" // The last function that the caller may ask about everything.
	for _, call := range calls {
		switch {
		case call.Function == everywhere:
		case s.has(caller, call.Function, office):
			everywhere = call.Function
		case !s.isCovered(caller, call):
			return api.Forbidden
		}
	}
	return nil
}

// MayRead refuses a caller that may not do an operation that isn't a function of the office.
func (s *Set) MayRead(caller, operation string) error {
	return s.May(caller, &api.Call{Function: operation})
}

// has reports whether a caller has an operation in a scope. Every refusal of the office counts as no, such as that a scope isn't there.
func (s *Set) has(caller, operation, scope string) bool {
	has, err := s.office.Check(caller, operation, scope)
	return err == nil && has
}

// isCovered reports whether a caller has a scope of each group of a call.
func (s *Set) isCovered(caller string, call *api.Call) bool {
	groups := groupsOf(call)
	for _, group := range groups {
		if !s.hasOneOf(caller, call.Function, group) {
			return false
		}
	}
	return len(groups) > 0
}

// hasOneOf reports whether a caller has an operation in one of some scopes.
func (s *Set) hasOneOf(caller, operation string, scopes []string) bool {
	for _, scope := range scopes {
		if s.has(caller, operation, scope) {
			return true
		}
	}
	return false
}

// MayAny refuses a caller that has none of some operations, in no scope. So what it asks for needn't be read.
func (s *Set) MayAny(caller string, operations ...string) error {
	if !s.names[caller] {
		return api.Forbidden
	}
	has, err := s.operationsOf(caller)
	if err != nil {
		return err
	}
	for _, one := range operations {
		if has[one] {
			return nil
		}
	}
	return api.Forbidden
}

// operationsOf returns the operations that a caller has in some scope.
func (s *Set) operationsOf(caller string) (map[string]bool, error) {
	if found, isKept := s.operations.Load(caller); isKept {
		has, _ := found.(map[string]bool)
		return has, nil
	}
	grants, err := s.grantsOf(caller)
	if err != nil {
		return nil, err
	}
	has := map[string]bool{}
	for _, one := range grants {
		for _, operation := range one.Functions {
			has[operation] = true
		}
	}
	s.operations.Store(caller, has)
	return has, nil
}

// grantsOf returns what a caller may do, a grant for each scope. One who may do nothing has a grant without functions.
func (s *Set) grantsOf(name string) (grants []Grant, err error) {
	var pairs [][2]string
	refused := (*rbacoffice.RefusedError)(nil) // A caller that is locked has no session.
	err = s.office.Call("sessionPermissions", map[string]any{"session": name}, &pairs)
	if err != nil && !errors.As(err, &refused) {
		return nil, fmt.Errorf("the permissions of %s: %w", name, err)
	}
	if len(pairs) == 0 {
		return []Grant{{Caller: name, Scope: "-"}}, nil
	}
	for i, one := range pairs { // They are in the order of the objects.
		if i == 0 || pairs[i-1][0] != one[0] {
			grants = append(grants, Grant{Caller: name, Scope: one[0]})
		}
		last := &grants[len(grants)-1]
		last.Functions = append(last.Functions, one[1])
	}
	return grants, nil
}

// Grants returns who may do what.
func (s *Set) Grants() (grants []Grant, err error) {
	for _, name := range s.callerNames() {
		own, err := s.grantsOf(name)
		if err != nil {
			return nil, err
		}
		grants = append(grants, own...)
	}
	return grants, nil
}
