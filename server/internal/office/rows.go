package office

import (
	"context"
	"crypto/sha256"
	"database/sql"
	"encoding/hex"
	"errors"
	"fmt"
	"hash"
	"net/url"
	"os"
	"path/filepath"
	"sort"
	"strconv"
	"strings"

	_ "github.com/mattn/go-sqlite3" // It reads the rows.

	"rbac/clients/go/rbacoffice"

	"rbac-node/internal/disk"
)

const (
	// OfCopy opens a copy of an office that nobody else has. SQLite reads the log beside it.
	OfCopy = "_locking_mode=EXCLUSIVE"
	// OfUnchanged opens an office without a log, which nobody writes, and beside which nothing is made.
	OfUnchanged = "mode=ro&immutable=1"
)

// Version is the newest version of offices, which has locks.
const Version = 2

// queriesOf returns what reads the rows of an office of a version as librbac takes them, and in their order: the table, three names and a
// number. The kinds of a table of the file have the order of librbac's tables, and a kind that no office has gives a table that isn't there.
// An index has each order, so that SQLite sorts nothing.
func queriesOf(version int64, hasClosure bool) []string {
	pairs := "pair_row"
	if !hasClosure {
		pairs += " WHERE kind <> 4"
	}
	queries := []string{
		"SELECT iif(kind BETWEEN 1 AND 3, kind - 1, 99), a, '', '', 0 FROM name_row ORDER BY kind, a",
		"SELECT iif(kind BETWEEN 1 AND 8, kind + 2, 99), a, b, '', 0 FROM " + pairs + " ORDER BY kind, a, b",
		"SELECT 11, ob, op, role, 0 FROM grant_row ORDER BY ob, op, role",
		"SELECT iif(kind BETWEEN 1 AND 2, kind + 11, 99), name, '', '', n FROM set_row ORDER BY kind, name",
	}
	if version > 1 {
		queries = append(queries, "SELECT 14, a, '', '', 0 FROM locked_row ORDER BY a")
	}
	return queries
}

// inFile says where a file has the rows of a table: in which table, and of which kind if there are some.
var inFile = [...]struct {
	name string
	kind int
}{
	{"name_row", 1}, {"name_row", 2}, {"name_row", 3}, {"pair_row", 1}, {"pair_row", 2}, {"pair_row", 3}, {"pair_row", 4}, {"pair_row", 5},
	{"pair_row", 6}, {"pair_row", 7}, {"pair_row", 8}, {"grant_row", 0}, {"set_row", 1}, {"set_row", 2}, {"locked_row", 0},
}

// RowInFile returns the name of the table that has a row in a file, and its values there.
func RowInFile(row *rbacoffice.Row) (table string, values []any) {
	place := inFile[row.Table]
	if place.kind > 0 {
		values = append(values, place.kind)
	}
	for _, name := range row.Names {
		if name != "" {
			values = append(values, name)
		}
	}
	if row.Number > 0 {
		values = append(values, row.Number)
	}
	return place.name, values
}

// appendRow appends a row as it is written for a digest.
func appendRow(line []byte, row *rbacoffice.Row) []byte {
	place := inFile[row.Table]
	line = append(append(line, place.name...), '\t')
	if place.kind > 0 {
		line = append(strconv.AppendInt(line, int64(place.kind), 10), '\t')
	}
	line = append(line, strings.TrimRight(strings.Join(row.Names[:], "\t"), "\t")...)
	if row.Number > 0 {
		line = strconv.AppendUint(append(line, '\t'), uint64(row.Number), 10)
	}
	return append(line, '\n')
}

// Tables is how many tables of librbac there are.
const Tables = len(inFile)

// Sums describe the rows of an office: how many each table has, and a digest of all.
type Sums struct {
	Counts [Tables]int
	Digest string
}

// A Summer makes the sums of rows that are given one after another, in their order.
type Summer struct {
	counts [Tables]int
	hash   hash.Hash
	line   []byte
}

// NewSummer returns a Summer of the rows of an office of a version.
func NewSummer(version int64) *Summer {
	s := &Summer{hash: sha256.New()}
	fmt.Fprintf(s.hash, "meta_row\trbac\t%d\n", version)
	return s
}

// Add adds the next row.
func (s *Summer) Add(row *rbacoffice.Row) {
	s.counts[row.Table]++
	s.line = appendRow(s.line[:0], row)
	s.hash.Write(s.line)
}

// Sums returns the sums of all rows that were added.
func (s *Summer) Sums() Sums { return Sums{s.counts, hex.EncodeToString(s.hash.Sum(nil))} }

// SumsOf describes the rows of an office of a version, which are in their order.
func SumsOf(version int64, rows []rbacoffice.Row) Sums {
	s := NewSummer(version)
	for i := range rows {
		s.Add(&rows[i])
	}
	return s.Sums()
}

// Digest returns a digest of the rows of an office of version 2, which no program has open. Offices with the same rows have the same
// digest, however their files came about.
func Digest(ctx context.Context, file string) (string, error) {
	s := NewSummer(Version)
	version, err := eachRow(ctx, file, OfUnchanged, true, s.Add)
	if err == nil && version != Version {
		err = errOldVersion
	}
	return s.Sums().Digest, err
}

// SortRows sorts rows by their tables and names, as librbac has them.
func SortRows(rows []rbacoffice.Row) {
	sort.Slice(rows, func(i, k int) bool { return IsRowBefore(&rows[i], &rows[k]) })
}

// IsRowBefore reports whether a row comes before another one: by their tables, names and numbers.
func IsRowBefore(one, other *rbacoffice.Row) bool {
	if one.Table != other.Table {
		return one.Table < other.Table
	}
	for i, name := range one.Names {
		if name != other.Names[i] {
			return name < other.Names[i]
		}
	}
	return one.Number < other.Number
}

var (
	errNoRows     = errors.New("it has a row that no office has")
	errTrigger    = errors.New("it has a trigger, which no office has")
	errOldVersion = errors.New("it is an office of version 1, which has no digest: `rbac migrate` makes one of version 2 of it")
)

// IsControl reports whether a letter is in no name. One in a name would make two rows of one in a digest.
func IsControl(letter rune) bool { return letter < ' ' || letter == 0x7f }

// ReadRows reads the rows of the office in a file, in their order, with the closure pairs if they are wanted, and its version. One of
// version 1 has no locks.
func ReadRows(ctx context.Context, path, options string, hasClosure bool) (rows []rbacoffice.Row, version int64, err error) {
	names := map[string]string{} // Each name is kept once: a role may be in a thousand rows.
	version, err = eachRow(ctx, path, options, hasClosure, func(row *rbacoffice.Row) {
		for i, name := range row.Names {
			if known, is := names[name]; is {
				row.Names[i] = known
			} else {
				names[name] = name
			}
		}
		rows = append(rows, *row)
	})
	if err != nil {
		return nil, 0, err
	}
	return rows, version, nil
}

// eachRow calls a function with the rows that ReadRows returns, one after another, and returns the version.
func eachRow(ctx context.Context, path, options string, hasClosure bool, do func(row *rbacoffice.Row)) (version int64, err error) {
	source := url.URL{Scheme: "file", Opaque: (&url.URL{Path: path}).EscapedPath(), RawQuery: options}
	db, err := sql.Open("sqlite3", source.String())
	if err == nil {
		defer db.Close()
		version, err = versionOf(ctx, db)
	}
	if err == nil {
		err = refuseTriggers(ctx, db)
	}
	if err == nil {
		for _, query := range queriesOf(version, hasClosure) {
			if err = eachOf(ctx, db, query, do); err != nil {
				break
			}
		}
	}
	if err != nil {
		return 0, fmt.Errorf("%s: rows: %w", path, err)
	}
	return version, nil
}

func versionOf(ctx context.Context, db *sql.DB) (version int64, err error) {
	var tag string
	var count int
	err = db.QueryRowContext(ctx, "SELECT count(*), coalesce(max(tag), ''), coalesce(max(version), 0) FROM meta_row").Scan(&count, &tag, &version)
	if err == nil && (count != 1 || tag != "rbac") {
		err = errNoRows
	}
	return version, err
}

// refuseTriggers refuses an office with a trigger, as the program does: a command would do something else there.
func refuseTriggers(ctx context.Context, db *sql.DB) error {
	var count int
	err := db.QueryRowContext(ctx, "SELECT count(*) FROM sqlite_master WHERE type = 'trigger'").Scan(&count)
	if err == nil && count > 0 {
		err = errTrigger
	}
	return err
}

// eachOf calls a function with the rows that a query gives.
func eachOf(ctx context.Context, db *sql.DB, query string, do func(row *rbacoffice.Row)) error {
	rows, err := db.QueryContext(ctx, query)
	if err != nil {
		return err
	}
	defer rows.Close()
	for rows.Next() {
		var row rbacoffice.Row
		if err := rows.Scan(&row.Table, &row.Names[0], &row.Names[1], &row.Names[2], &row.Number); err != nil {
			return err
		}
		if int(row.Table) >= Tables || strings.IndexFunc(strings.Join(row.Names[:], ""), IsControl) >= 0 {
			return errNoRows
		}
		do(&row)
	}
	return rows.Err()
}

const (
	// walSuffix is added to the path of an office for its log.
	walSuffix = "-wal"
	// spareRoom is how much room there has to be besides the log of an office.
	spareRoom = 64 << 20
)

// Copy copies the file of an office that no program writes now, and the log beside it if there is one: SQLite would change them.
func Copy(path, copied string) error {
	RemoveCopy(copied)
	err := disk.Copy(path, copied)
	if err == nil {
		err = disk.Copy(path+walSuffix, copied+walSuffix)
		if errors.Is(err, os.ErrNotExist) {
			err = nil
		}
	}
	if err != nil {
		RemoveCopy(copied)
	}
	return err
}

// RefuseLog refuses the file of an office whose log could not be merged, since the disk is full: alone it isn't the office.
func RefuseLog(path string) error {
	log, err := os.Stat(path + walSuffix)
	if errors.Is(err, os.ErrNotExist) || err == nil && log.Size() == 0 {
		return nil
	}
	if err == nil {
		err = fmt.Errorf("%s: its log can't be merged: make room on the disk", path)
	}
	return err
}

// HasRoom reports whether there is room for what a program writes when it opens an office, which merges the log.
func HasRoom(path string) bool {
	needed := int64(spareRoom)
	if about, err := os.Stat(path + walSuffix); err == nil {
		needed += about.Size()
	}
	free, err := disk.Free(filepath.Dir(path))
	return err == nil && free > needed
}

// RemoveCopy removes a copy and what SQLite has made beside it.
func RemoveCopy(copied string) {
	for _, suffix := range []string{"", walSuffix, "-shm", "-journal"} {
		_ = os.Remove(copied + suffix) // Most aren't there.
	}
}
