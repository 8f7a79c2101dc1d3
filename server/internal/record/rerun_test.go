package record

import (
	"fmt"
	"testing"

	"rbac/clients/go/rbacoffice"

	"rbac-node/internal/office"
)

// TestRerunSums has the sums of an office of which rows are read in parts.
func TestRerunSums(t *testing.T) {
	o := &officeRows{version: office.Version}
	for i := 0; i < 2*atOnce+1; i++ {
		for _, table := range []rbacoffice.Table{rbacoffice.Users, rbacoffice.Locks} {
			o.rows = append(o.rows, rbacoffice.Row{Table: table, Names: [3]string{fmt.Sprintf("user %d", i)}})
		}
	}
	office.SortRows(o.rows)
	again, err := startRerun(o)
	if err != nil {
		t.Fatal(err)
	}
	defer again.close()
	given, err := again.sums()
	if err != nil || given != o.sums() || given.Counts[rbacoffice.Users] != 2*atOnce+1 {
		t.Errorf("%v, %v and not %v", err, given, o.sums())
	}
}
