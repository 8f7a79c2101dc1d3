// Package reports has what auditors read of an office: lines that are made one after the other, in the order of those of the tools
// for auditors, from what was in the office at one place in the order.
package reports

import (
	"fmt"
	"sort"
	"strconv"

	"rbac-node/internal/state"
)

// A Filter chooses lines. An empty text chooses all.
type Filter struct {
	User, Role, Object, Operation, Set string
	// Left is how many more members violate a set at most, if HasLeft.
	Left    int64
	HasLeft bool
}

// kinds has what makes each report, and the keys of its filters.
var kinds = map[string]struct {
	make func(office *state.Frozen, filter Filter) *Report
	keys []string
}{
	"permissions": {permissions, []string{"user", "role", "object", "operation"}},
	"sessions":    {sessions, []string{"user", "role", "object", "operation"}},
	"near":        {near, []string{"user", "set", "left"}}, "room": {room, nil}, "dump": {dump, nil},
}

// Filters returns the keys of the filters of a report, and whether there is such a report.
func Filters(name string) (keys []string, has bool) {
	kind, has := kinds[name]
	return kind.keys, has
}

// A Report is a list of lines.
type Report struct {
	// Columns has the heads of the cells of a line. It is nil if each line is an object of JSON.
	Columns []string
	// Numbers has the columns that are numbers.
	Numbers map[string]bool
	// Lines is how many lines there are. They have not been made.
	Lines int64
	// Write makes the lines, and gives each to a function until that fails. The cells are valid until it returns.
	Write func(add func(cells ...string) error) error
}

// New returns a report of an office.
func New(name string, office *state.Frozen, filter Filter) (*Report, error) {
	if kind, has := kinds[name]; has {
		return kind.make(office, filter), nil
	}
	return nil, fmt.Errorf("no report is called %q", name)
}

// Roles have the roles of an office by their numbers, which are in the order of their names.
type roles struct {
	office  *state.Frozen
	numbers map[string]int
	// violated keeps what was found.
	violated map[int]string
}

func newRoles(office *state.Frozen) *roles {
	r := &roles{office: office, numbers: make(map[string]int, len(office.Roles)), violated: map[int]string{}}
	for i, row := range office.Roles {
		r.numbers[row[0]] = i
	}
	return r
}

func (r *roles) name(number int) string { return r.office.Roles[number][0] }

// number returns the number of a role, or -1.
func (r *roles) number(name string) int {
	if number, has := r.numbers[name]; has {
		return number
	}
	return -1
}

// has reports whether a role is another one or a senior of it.
func (r *roles) has(role, junior int) bool { return r.office.Juniors[role].Bit(junior) == 1 }

// violates returns the first dynamic set that a role violates alone, or nothing.
func (r *roles) violates(role int) string {
	set, isKept := r.violated[role]
	if !isKept {
		set, _ = r.office.Graph.Violated(func(name string) bool { return r.has(role, r.numbers[name]) })
		r.violated[role] = set
	}
	return set
}

// A holder is a user with the assigned roles, or a session with the activated ones. The roles are in their order.
type holder struct {
	name, user string
	roles      []int
}

// users returns the users who are assigned to roles, in the order of their names, or one of them.
func (r *roles) users(only string) (found []holder) {
	rows := r.office.Assigned
	if only != "" {
		first := sort.Search(len(rows), func(i int) bool { return rows[i][0] >= only })
		last := sort.Search(len(rows), func(i int) bool { return rows[i][0] > only })
		rows = rows[first:last]
	}
	for i, row := range rows {
		if i == 0 || rows[i-1][0] != row[0] {
			found = append(found, holder{name: row[0], user: row[0]})
		}
		if number := r.number(row[1]); number >= 0 {
			last := &found[len(found)-1]
			last.roles = append(last.roles, number)
		}
	}
	return found
}

// sessions returns the sessions in the order of their digests, or those of one user.
func (r *roles) sessions(only string) (found []holder) {
	for _, one := range r.office.Sessions {
		if only != "" && one.User != only {
			continue
		}
		next := holder{name: one.Digest, user: one.User}
		for _, role := range one.Active {
			if number := r.number(role); number >= 0 {
				next.roles = append(next.roles, number)
			}
		}
		found = append(found, next)
	}
	return found
}

// room returns how many there are of each kind, and how many there may be.
func room(office *state.Frozen, _ Filter) *Report {
	report := &Report{
		Columns: []string{"kind", "count", "limit", "left"}, Lines: int64(len(office.Rooms)),
		Numbers: map[string]bool{"count": true, "limit": true, "left": true},
	}
	report.Write = func(add func(cells ...string) error) error {
		for _, one := range office.Rooms {
			err := add(one.Kind, strconv.Itoa(one.Count), strconv.Itoa(one.Limit), strconv.Itoa(one.Limit-one.Count))
			if err != nil {
				return err
			}
		}
		return nil
	}
	return report
}

// dump returns the office as request lines, byte for byte as tools/dump.sql prints it.
func dump(office *state.Frozen, _ Filter) *Report {
	return &Report{Lines: office.Count(), Write: func(add func(cells ...string) error) error {
		return office.Dump(func(line []byte) error { return add(string(line)) })
	}}
}
