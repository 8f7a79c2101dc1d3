package state

import (
	"sort"
	"strings"

	"rbac/clients/go/rbacoffice"
)

// A Query says which rows of a list are wanted.
type Query struct {
	// Names has the name that a row has to have in a column.
	Names map[string]string
	// Contains is a text that one of the names of a row has, and Prefix the beginning of the first one.
	Contains, Prefix string
	// After is the row that the wanted ones come after, or nothing.
	After []string
	Limit int
}

// A list is a table of the office, or made otherwise, and the names of its columns. The first ones are the key of a row, by which rows are
// in order.
type list struct {
	table   rbacoffice.Table
	columns []string
	key     int
}

var lists = map[string]list{
	"users": {rbacoffice.Users, []string{"user"}, 1}, "locked": {rbacoffice.Locks, []string{"user"}, 1},
	"roles": {rbacoffice.Roles, []string{"role"}, 1}, "objects": {rbacoffice.Objects, []string{"object"}, 1},
	"operations":   {rbacoffice.Permissions, []string{"operation"}, 1},
	"permissions":  {rbacoffice.Permissions, []string{"object", "operation"}, 2},
	"grants":       {rbacoffice.Grants, []string{"object", "operation", "role"}, 3},
	"assignments":  {rbacoffice.Assignments, []string{"user", "role"}, 2},
	"inheritances": {rbacoffice.Inheritances, []string{"asc", "desc"}, 2},
	"staticSets":   {columns: []string{"set"}, key: 1},
	"dynamicSets":  {columns: []string{"set"}, key: 1},
	"sessions":     {columns: []string{"session", "user"}, key: 1},
}

// Columns returns the columns of a list, or nothing if there is no such list.
func Columns(name string) []string { return lists[name].columns }

// KeyOf returns the names by which a row of a list is in order.
func KeyOf(name string, row Row) []string { return row[:lists[name].key] }

// Rows returns rows of a list of names, in the order of their bytes, whether there are more, and the numbers of this moment.
func (s *State) Rows(name string, query Query) (found []Row, hasMore bool, numbers Numbers, err error) {
	err = s.Look(func(v *View) {
		numbers = v.Numbers
		if name == "operations" {
			found, hasMore = query.Select(name, v.operations())
			return
		}
		wanted := selection{Query: query, list: lists[name]}
		v.scan(wanted.table, v.place(wanted.table, wanted.first()), wanted.take)
		found, hasMore = wanted.found, wanted.hasMore
	})
	return found, hasMore, numbers, err
}

// operations returns the operations of all permissions.
func (v *View) operations() (rows []Row) {
	seen := map[string]bool{}
	v.scan(rbacoffice.Permissions, 0, func(row Row) bool {
		if !seen[row[1]] {
			seen[row[1]] = true
			rows = append(rows, Row{row[1]})
		}
		return true
	})
	sort.Slice(rows, func(i, j int) bool { return rows[i].IsBefore(rows[j]) })
	return rows
}

// Select returns the wanted ones of rows that are in order, and whether there are more.
func (q Query) Select(name string, rows []Row) (found []Row, hasMore bool) {
	wanted := selection{Query: q, list: lists[name]}
	for _, row := range rows {
		if !wanted.take(row) {
			break
		}
	}
	return wanted.found, wanted.hasMore
}

// A selection takes the wanted ones of rows that come in their order.
type selection struct {
	Query
	list
	found   []Row
	hasMore bool
}

// first returns a row before which none is wanted.
func (s *selection) first() Row {
	first := Row{s.Prefix}
	if name := s.Names[s.columns[0]]; name > s.Prefix {
		first = Row{name}
	}
	if after := rowOf(s.After); first.IsBefore(after) {
		first = after
	}
	return first
}

// take takes a row if it is wanted, and reports whether a later one may be.
func (s *selection) take(row Row) bool {
	name, isOne := s.Names[s.columns[0]]
	isEnd := isOne && row[0] > name || row[0] > s.Prefix && !strings.HasPrefix(row[0], s.Prefix)
	switch {
	case isEnd:
	case !strings.HasPrefix(row[0], s.Prefix) || len(s.After) > 0 && !rowOf(s.After).IsBefore(rowOf(row[:s.key])) || !s.wants(row):
	case len(s.found) == s.Limit:
		s.hasMore = true
		return false
	default:
		s.found = append(s.found, row)
	}
	return !isEnd
}

// wants reports whether a row has the names and the text that are wanted.
func (s *selection) wants(row Row) bool {
	contains := s.Contains == ""
	for i, column := range s.columns {
		if name, has := s.Names[column]; has && row[i] != name {
			return false
		}
		contains = contains || strings.Contains(row[i], s.Contains)
	}
	return contains
}

// A NamedSet is a separation of duty set with its name, and its members in their order.
type NamedSet struct {
	Name        string
	Roles       []string
	Cardinality int64
}

// Sets returns the static or the dynamic sets in the order of their names, and the numbers of this moment.
func (s *State) Sets(isStatic bool) (found []NamedSet, numbers Numbers, err error) {
	err = s.Look(func(v *View) { found, numbers = v.Graph().Sets(isStatic), v.Numbers })
	return found, numbers, err
}
