package state

import (
	"errors"
	"fmt"
	"sort"
	"time"

	"rbac/clients/go/rbacoffice"

	"rbac-node/internal/api"
)

// A Row is a tuple of names. Those that its table doesn't have are empty.
type Row [3]string

// IsBefore reports whether a row comes before another one, by the bytes of their names.
func (r Row) IsBefore(other Row) bool {
	for i, name := range r {
		if name != other[i] {
			return name < other[i]
		}
	}
	return false
}

func rowOf(names []string) (row Row) {
	copy(row[:], names)
	return row
}

// mostHeld is after how much time the office isn't held any longer for the next of several questions.
const mostHeld = 20 * time.Millisecond

// Ask returns the answers to some questions, which are all of one moment, and the numbers of that. If they take long it answers only the
// first ones, so that commands wait for little more than one answer.
func (s *State) Ask(calls ...*api.Call) (answers [][]byte, numbers Numbers, err error) {
	held := &s.reading
	if len(calls) == 1 && !calls[0].IsLong() && calls[0].Function != api.DecideByUser {
		held = &s.mutex
	}
	held.RLock()
	defer held.RUnlock()
	if s.office == nil {
		return nil, numbers, api.Unavailable
	}
	s.touch(calls...)
	answers = make([][]byte, 0, len(calls))
	for start := time.Now(); len(answers) < len(calls) && (len(answers) == 0 || time.Since(start) < mostHeld); {
		answer, err := s.answer(calls[len(answers)])
		if err != nil {
			return nil, numbers, err
		}
		answers = append(answers, answer)
	}
	return answers, s.numbers, nil
}

// Answer returns the answer to a question.
func (s *State) Answer(call *api.Call) ([]byte, error) {
	answers, _, err := s.Ask(call)
	if err != nil {
		return nil, err
	}
	return answers[0], nil
}

// The answers of a decision.
var allowed, denied = []byte(api.Allowed), []byte(api.Denied)

// answer returns the answer to a question. Nobody changes the office meanwhile.
func (s *State) answer(call *api.Call) ([]byte, error) {
	if s.office == nil {
		return nil, api.Unavailable
	}
	var is bool
	var err error
	switch call.Function {
	case "checkAccess":
		is, err = s.office.Check(call.Session, call.Operation, call.Object)
	case api.DecideByUser:
		is, err = s.office.CheckUser(call.User, call.Operation, call.Object)
	default:
		return s.office.Answer(call.Line)
	}
	var refused *rbacoffice.RefusedError
	switch {
	case err == nil && is:
		return allowed, nil
	case err == nil:
		return denied, nil
	case errors.As(err, &refused):
		return api.RefusalText(refused.Code, refused.Name), nil
	}
	return nil, fmt.Errorf("librbac: %w", err)
}

// A View is the office at one moment, for one goroutine. After an error it has nothing more, and Look returns the error.
type View struct {
	Numbers Numbers
	state   *State
	// rows are the last ones that were read.
	rows []rbacoffice.Row
	err  error
}

// Look calls a function with the office. No command is done until it returns.
func (s *State) Look(do func(v *View)) error {
	s.reading.RLock()
	defer s.reading.RUnlock()
	if s.office == nil {
		return api.Unavailable
	}
	v := &View{Numbers: s.numbers, state: s}
	do(v)
	return v.err
}

// Answer returns the answer to a question, and Names the names that it lists, which are none if the question is refused.
func (v *View) Answer(call *api.Call) []byte {
	answer, err := v.state.answer(call)
	v.fail(err)
	return answer
}

// Names asks a function that lists names, by its keys and their texts.
func (v *View) Names(function string, pairs ...string) (names []string) {
	call, err := api.NewCall(function, pairs...)
	if v.fail(err) {
		return nil
	}
	if answer := v.Answer(call); api.IsAccepted(answer) {
		v.fail(api.ValueOf(answer, &names))
	}
	return names
}

// fail keeps the first error, and reports whether there is one.
func (v *View) fail(err error) bool {
	if v.err == nil {
		v.err = err
	}
	return v.err != nil
}

const (
	// atOnce is how many rows are asked for at once.
	atOnce = 1000
	// afterAll comes after each name: none has such a byte.
	afterAll = "\xff"
)

// each calls a function with the rows of a table from a place on, until it returns false.
func (v *View) each(table rbacoffice.Table, from int, take func(row *rbacoffice.Row) bool) {
	for v.from(table, from, atOnce) {
		for i := range v.rows {
			if !take(&v.rows[i]) {
				return
			}
		}
		from += len(v.rows)
	}
}

// from reads rows of a table from a place on, and reports whether there are any.
func (v *View) from(table rbacoffice.Table, place, most int) bool {
	rows, err := v.state.office.RowsFrom(v.rows[:0], table, place, most)
	if v.fail(err) || len(rows) == 0 {
		return false
	}
	v.rows = rows
	return true
}

// scan is each for the names alone.
func (v *View) scan(table rbacoffice.Table, from int, take func(row Row) bool) {
	v.each(table, from, func(row *rbacoffice.Row) bool { return take(row.Names) })
}

// places returns the places of the rows of a table with a first name, or where they would be.
func (v *View) places(table rbacoffice.Table, first string) (start, end int) {
	start, end, err := v.state.office.Range(table, first)
	v.fail(err)
	return start, end
}

// place returns the place of the first row of a table that isn't before another row.
func (v *View) place(table rbacoffice.Table, wanted Row) int {
	start, end := v.places(table, wanted[0])
	return start + sort.Search(end-start, func(i int) bool {
		return !v.from(table, start+i, 1) || !Row(v.rows[0].Names).IsBefore(wanted)
	})
}

func (v *View) count(table rbacoffice.Table) int {
	_, end := v.places(table, afterAll)
	return end
}

func (v *View) all(table rbacoffice.Table) []Row {
	found := make([]Row, 0, v.count(table))
	v.scan(table, 0, func(row Row) bool {
		found = append(found, row)
		return true
	})
	return found
}

func (v *View) with(table rbacoffice.Table, first string) []rbacoffice.Row {
	rows, err := v.state.office.RowsWith(table, first)
	v.fail(err)
	return rows
}

// of returns the second names of the rows with a first name.
func (v *View) of(table rbacoffice.Table, first string) (names []string) {
	for _, row := range v.with(table, first) {
		names = append(names, row.Names[1])
	}
	return names
}

// Rows returns the rows of all tables but the closure pairs. These follow from the inheritances, and there may be half a million.
func (v *View) Rows() (rows []rbacoffice.Row) {
	for table := rbacoffice.Users; table <= rbacoffice.Locks; table++ {
		if table != rbacoffice.ClosurePairs {
			v.each(table, 0, func(row *rbacoffice.Row) bool {
				rows = append(rows, *row)
				return true
			})
		}
	}
	return rows
}

// IsLocked reports whether a user is locked.
func (v *View) IsLocked(user string) bool { return len(v.with(rbacoffice.Locks, user)) > 0 }

// HasRole reports whether there is a role.
func (v *View) HasRole(role string) bool { return len(v.with(rbacoffice.Roles, role)) > 0 }

// AssignedRoles returns the roles that a user is assigned to, in their order.
func (v *View) AssignedRoles(user string) []string { return v.of(rbacoffice.Assignments, user) }

// Users returns all users in their order.
func (v *View) Users() []string { return firsts(v.all(rbacoffice.Users)) }

// Grants returns all grants in their order: the object, the operation and the role of each.
func (v *View) Grants() []Row { return v.all(rbacoffice.Grants) }

func firsts(rows []Row) []string {
	names := make([]string, len(rows))
	for i, row := range rows {
		names[i] = row[0]
	}
	return names
}

// Clone returns an office of its own, which follows no program, with what is in this one. Forget frees it. At the limits that takes
// seconds, but this office is only held while its rows are read.
func (s *State) Clone() (*State, error) {
	clone := New(Numbers{})
	var rows []rbacoffice.Row
	err := s.Look(func(v *View) { rows, clone.numbers = v.Rows(), v.Numbers })
	if err != nil {
		return nil, err
	}
	if err := clone.Begin(append(rows, rbacoffice.Closure(rows)...), true); err != nil {
		return nil, fmt.Errorf("a clone of the office: %w", err)
	}
	return clone, nil
}
