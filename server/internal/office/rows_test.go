package office

import (
	"context"
	"database/sql"
	"errors"
	"path/filepath"
	"reflect"
	"strings"
	"testing"

	"rbac/clients/go/rbacoffice"

	"rbac-node/internal/programtest"
)

// TestDigest has offices with the same rows and with others, one of version 1, and files that are none. It needs no other program.
func TestDigest(t *testing.T) {
	t.Setenv("PATH", t.TempDir())
	made := func(name string, statements ...string) string {
		file := filepath.Join(t.TempDir(), name)
		if err := Run(context.Background(), programtest.Path(t), "init", file); err != nil {
			t.Fatal(err)
		}
		db, err := sql.Open("sqlite3", file)
		if err != nil {
			t.Fatal(err)
		}
		defer db.Close()
		db.SetMaxOpenConns(1)
		for _, one := range statements {
			if _, err := db.Exec(one); err != nil {
				t.Fatalf("%s: %v", one, err)
			}
		}
		return file
	}
	const ann, bob = "INSERT INTO name_row VALUES (1, 'ann')", "INSERT INTO name_row VALUES (1, 'bob')"
	digest := func(file string) string {
		found, err := Digest(context.Background(), file)
		if err != nil {
			t.Error(err)
		}
		return found
	}
	one, other := digest(made("one", ann, bob)), digest(made("other", bob, "INSERT INTO name_row VALUES (1, 'zoe')", ann, "DELETE FROM name_row WHERE a = 'zoe'"))
	if one != other || one == digest(made("less", ann)) {
		t.Errorf("%s and %s", one, other)
	}
	for name, statements := range map[string][]string{
		"of version 1": {"UPDATE meta_row SET version = 1", "DROP TABLE locked_row"}, "an unknown kind": {"PRAGMA ignore_check_constraints = 1", "INSERT INTO name_row VALUES (4, 'x')"},
		"a control character": {"INSERT INTO name_row VALUES (1, 'a' || char(9))"}, "no version": {"DELETE FROM meta_row"}, "no table": {"DROP TABLE pair_row"},
	} {
		file := made("wrong", statements...)
		_, err := Digest(context.Background(), file)
		if err == nil || errors.Is(err, errOldVersion) != (name == "of version 1") {
			t.Errorf("%s: %v", name, err)
		}
	}
}

// TestSummer reads rows of all tables one after another, in the order of librbac and without sorting: the digest of a file is that of its
// rows, which are never all in memory.
func TestSummer(t *testing.T) {
	file := filepath.Join(t.TempDir(), "office")
	if err := Run(context.Background(), programtest.Path(t), "init", file); err != nil {
		t.Fatal(err)
	}
	db, err := sql.Open("sqlite3", file)
	if err != nil {
		t.Fatal(err)
	}
	defer db.Close()
	var wanted []rbacoffice.Row
	for table := Tables - 1; table >= 0; table-- {
		for _, name := range []string{"zoë", "a", "B"} {
			row := rbacoffice.Row{Table: rbacoffice.Table(table), Names: [3]string{name}}
			switch inFile[table].name {
			case "pair_row":
				row.Names[1] = "x"
			case "grant_row":
				row.Names[1], row.Names[2] = "x", "y"
			case "set_row":
				row.Number = 2
			}
			wanted = append(wanted, row)
			into, values := RowInFile(&row)
			if _, err := db.Exec("INSERT INTO "+into+" VALUES (?"+strings.Repeat(", ?", len(values)-1)+")", values...); err != nil {
				t.Fatal(err)
			}
		}
	}
	SortRows(wanted)
	for _, query := range queriesOf(Version, true) {
		var id, parent, unused int
		var plan string
		if err := db.QueryRow("EXPLAIN QUERY PLAN "+query).Scan(&id, &parent, &unused, &plan); err != nil || !strings.Contains(plan, "USING") {
			t.Errorf("%s: %v, %s", query, err, plan)
		}
	}
	if err := db.Close(); err != nil {
		t.Fatal(err)
	}
	rows, version, err := ReadRows(context.Background(), file, OfUnchanged, true)
	if err != nil || version != Version || !reflect.DeepEqual(rows, wanted) {
		t.Errorf("%v, version %d, %v and not %v", err, version, rows, wanted)
	}
	if digest, err := Digest(context.Background(), file); err != nil || digest != SumsOf(Version, wanted).Digest {
		t.Errorf("%v, %s", err, digest)
	}
	for _, row := range wanted {
		if counts := SumsOf(Version, wanted).Counts; counts[row.Table] != 3 {
			t.Errorf("table %d has %d rows", row.Table, counts[row.Table])
		}
	}
}
