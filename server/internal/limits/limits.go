// Package limits says how many of each kind an office may have. The file limits.csv has the numbers that the proved program defines
// (limit_of in crates/rbac_sets/specs/Kind.antt), for the server, the clients, the tools and the tests. bin/limits writes the copies that
// can't read this file.
package limits

import (
	_ "embed"
	"encoding/csv"
	"fmt"
	"strconv"
	"strings"
)

//go:embed limits.csv
var table string

// Current is the version of the offices that librbac makes.
const Current = 2

// versionsFrom is the first column of the table that has the limits of a version. The one of version 1 is the first.
const versionsFrom = 2

// kinds has the rows of the table.
var kinds = mustRead(table)

// A Kind is what a limit counts.
type Kind struct {
	// Name is how refusals name it, and Counted says in words what is counted.
	Name, Counted string
	// most has how many there may be: at 0 in version 1, and so on.
	most []int
}

// In returns how many there may be in an office of a version.
func (k Kind) In(version int) int { return k.most[version-1] }

// Kinds returns all kinds, in the order in which the program compares them.
func Kinds() []Kind { return append([]Kind(nil), kinds...) }

// Newest returns the newest version that has limits. The first one is 1.
func Newest() int { return len(kinds[0].most) }

// Of returns how many of a kind there may be in an office of a version. There has to be such a kind.
func Of(name string, version int) int {
	for _, one := range kinds {
		if one.Name == name {
			return one.In(version)
		}
	}
	panic(fmt.Sprintf("limits: there is no kind %q", name))
}

// mustRead returns the kinds of a table, whose first row has the names of its columns.
func mustRead(text string) (read []Kind) {
	rows, err := csv.NewReader(strings.NewReader(text)).ReadAll()
	if err != nil {
		panic(fmt.Sprintf("limits: %v", err))
	}
	for _, row := range rows[1:] {
		one := Kind{Name: row[0], Counted: row[1]}
		for _, cell := range row[versionsFrom:] {
			most, err := strconv.Atoi(cell)
			if err != nil {
				panic(fmt.Sprintf("limits: %s: %v", one.Name, err))
			}
			one.most = append(one.most, most)
		}
		read = append(read, one)
	}
	return read
}
