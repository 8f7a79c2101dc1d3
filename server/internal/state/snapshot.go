package state

import (
	"bytes"
	"fmt"
	"math/big"
	"strconv"
	"strings"
	"time"

	"rbac/clients/go/rbacoffice"

	"rbac-node/internal/api"
)

// The functions whose lines make an office, in an order in which each line is accepted, and in that of tools/dump.sql.
var (
	making = strings.Fields("addUser addRole addInheritance addPermObj addPermission grantPermission assignUser createSsdSet createDsdSet " +
		"lockUserAccount createSession")
	dumping = strings.Fields("addUser addRole addInheritance addPermObj addPermission grantPermission createSsdSet createDsdSet assignUser " +
		"createSession lockUserAccount")
)

// Lines returns the lines that make an office with what is in this one, in which sessions have their digests for names.
func (f *Frozen) Lines() ([]byte, error) {
	return f.lines(func(one Session) string { return one.Digest })
}

// OfficeLines is Lines with the names that sessions have in the office.
func (f *Frozen) OfficeLines() ([]byte, error) {
	return f.lines(func(one Session) string { return one.Name })
}

func (f *Frozen) lines(nameOf func(Session) string) (lines []byte, err error) {
	err = f.each(making, nameOf, func(line []byte) error {
		lines = append(append(lines, line...), '\n')
		return nil
	})
	return lines, err
}

// Dump gives the lines of the office to a function until that fails, byte for byte as tools/dump.sql prints them. The line of a session
// has its digest at a key of its own, and would be refused: nobody makes a session whose name is known.
func (f *Frozen) Dump(add func(line []byte) error) error {
	return f.each(dumping, func(one Session) string { return one.Digest }, func(line []byte) error {
		return add(bytes.Replace(line, []byte(`,"session":`), []byte(`,"digest":`), 1)) // Within a name the quotation marks are escaped.
	})
}

// Count returns how many lines there are.
func (f *Frozen) Count() (count int64) {
	for _, function := range making {
		count += int64(len(f.rowsOf(function)) + len(f.setsOf(function)))
	}
	return count + int64(len(f.Sessions))
}

// rowsOf returns the rows that a function makes, with its names in their order.
func (f *Frozen) rowsOf(function string) []Row {
	return map[string][]Row{
		"addUser": f.Users, "addRole": f.Roles, "addInheritance": f.Graph.Edges, "addPermObj": f.Objects, "addPermission": f.Permissions,
		"grantPermission": f.Grants, "assignUser": f.Assigned, "lockUserAccount": f.Locked,
	}[function]
}

func (f *Frozen) setsOf(function string) []NamedSet {
	return map[string][]NamedSet{"createSsdSet": f.Graph.Static, "createDsdSet": f.Graph.Dynamic}[function]
}

// each gives the lines of some functions to another one until that fails.
func (f *Frozen) each(functions []string, nameOf func(Session) string, add func(line []byte) error) (err error) {
	give := func(function string, arguments api.Arguments) {
		var call *api.Call
		if err == nil {
			if call, err = api.NewCallWith(function, arguments); err != nil {
				err = fmt.Errorf("a line of %s: %v", function, err) // It isn't the caller's request that is refused.
			}
		}
		if err == nil {
			err = add(call.Line)
		}
	}
	for _, function := range functions {
		keys := api.Keys(function)
		for _, row := range f.rowsOf(function) {
			var arguments api.Arguments
			for i, key := range keys {
				arguments.SetText(key, row[i])
			}
			give(function, arguments)
		}
		for _, set := range f.setsOf(function) {
			give(function, api.Arguments{Set: set.Name, Roles: set.Roles, Cardinality: strconv.FormatInt(set.Cardinality, 10)})
		}
		for i := 0; function == "createSession" && i < len(f.Sessions); i++ {
			one := f.Sessions[i]
			give(function, api.Arguments{User: one.User, Roles: one.Active, Session: nameOf(one)})
		}
	}
	return err
}

// A Frozen is what was in an office at one place in the order. It never changes.
type Frozen struct {
	Numbers Numbers
	// At is when it was made.
	At                                                           time.Time
	Users, Roles, Objects, Permissions, Grants, Assigned, Locked []Row
	Graph                                                        *Graph
	// Juniors has each role with its juniors, as bits for their places among the roles. It is nil unless it was asked for.
	Juniors []*big.Int
	// Sessions are in the order of their digests.
	Sessions []Session
	Rooms    []Room
}

// Freeze returns what is in the office now, without the juniors of roles.
func (s *State) Freeze() (*Frozen, error) {
	f := &Frozen{At: s.clock.Now()}
	return f, s.Look(func(v *View) { v.freeze(f) })
}

// FreezeWithJuniors returns what is in the office now.
func (s *State) FreezeWithJuniors() (*Frozen, error) {
	f, err := s.Freeze()
	if err != nil {
		return nil, err
	}
	f.Juniors = f.Graph.juniors(f.Roles)
	return f, nil
}

func (v *View) freeze(f *Frozen) {
	f.Numbers, f.Graph, f.Sessions, f.Rooms = v.Numbers, v.Graph(), v.Sessions(), v.Rooms()
	f.Users, f.Roles, f.Objects = v.all(rbacoffice.Users), v.all(rbacoffice.Roles), v.all(rbacoffice.Objects)
	f.Permissions, f.Grants = v.all(rbacoffice.Permissions), v.all(rbacoffice.Grants)
	f.Assigned, f.Locked = v.all(rbacoffice.Assignments), v.all(rbacoffice.Locks)
}
