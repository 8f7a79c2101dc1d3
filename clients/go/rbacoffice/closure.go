package rbacoffice

import "sort"

// Closure returns the closure pairs that follow from the inheritances among some rows: those that Load needs beside them. They are in the
// order in which the rows have the roles, and Load is fastest if that is their byte order. An inheritance of a role that isn't among the
// rows gives no pair: Load refuses such rows.
func Closure(rows []Row) (pairs []Row) {
	var roles []string
	places, juniors := map[string]int{}, [][]int{}
	for _, row := range rows {
		if row.Table == Roles {
			places[row.Names[0]] = len(roles)
			roles, juniors = append(roles, row.Names[0]), append(juniors, nil)
		}
	}
	for _, row := range rows {
		senior, hasSenior := places[row.Names[0]]
		junior, hasJunior := places[row.Names[1]]
		if row.Table == Inheritances && hasSenior && hasJunior {
			juniors[senior] = append(juniors[senior], junior)
		}
	}
	for senior, name := range roles {
		for _, junior := range below(juniors, senior) {
			pairs = append(pairs, Row{Table: ClosurePairs, Names: [3]string{name, roles[junior]}})
		}
	}
	return pairs
}

// below returns the roles from which another one inherits, directly or through others, in their order. Roles are numbers.
func below(juniors [][]int, senior int) (found []int) {
	seen, left := make([]bool, len(juniors)), []int{senior}
	for len(left) > 0 {
		role := left[len(left)-1]
		left = left[:len(left)-1]
		for _, junior := range juniors[role] {
			if !seen[junior] {
				seen[junior] = true
				found, left = append(found, junior), append(left, junior)
			}
		}
	}
	sort.Ints(found)
	return found
}
