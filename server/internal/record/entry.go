package record

import (
	"context"
	"crypto/sha256"
	"database/sql"
	"encoding/hex"
	"errors"
	"fmt"
	"io"
	"net/url"
	"strconv"
	"strings"
	"time"

	sqlite3 "github.com/mattn/go-sqlite3"

	"rbac-node/internal/recorded"
	"rbac-node/internal/state"
)

// formatVersion is the version of the tables and of the entries, which a file has at user_version. Files of before have 0.
const formatVersion = 1

// judgeVersion refuses a file that a later program has made.
func judgeVersion(db interface {
	QueryRow(query string, values ...any) *sql.Row
}) error {
	var version int
	if err := db.QueryRow("PRAGMA user_version").Scan(&version); err != nil {
		return err
	}
	if version < 0 || version > formatVersion {
		return fmt.Errorf("it is a record of version %d, which this rbac-node doesn't know", version)
	}
	return nil
}

// schema makes the tables of a file. A part begins with a copy of the office, in which sessions have the digests of their names:
// the commands of its entries are done over that copy. The view has what is asked about most.
const schema = `
PRAGMA user_version = 1;
CREATE TABLE part (
    first INTEGER PRIMARY KEY, why TEXT NOT NULL, before TEXT NOT NULL, rows TEXT NOT NULL, office BLOB NOT NULL
) STRICT;
CREATE TABLE entry (
    n INTEGER PRIMARY KEY, at TEXT NOT NULL, caller TEXT NOT NULL, reason TEXT NOT NULL, request TEXT NOT NULL,
    answer TEXT, found INTEGER NOT NULL DEFAULT 0, chain TEXT
) STRICT;
CREATE VIEW command AS SELECT
    n, at, caller, reason, request ->> 'fn' AS function, request ->> 'user' AS user, request ->> 'role' AS role,
    request ->> 'roles' AS roles, request ->> 'asc' AS ascendant, request ->> 'desc' AS descendant,
    request ->> 'object' AS object, request ->> 'operation' AS operation, request ->> 'set' AS duty_set,
    request ->> 'session' AS session, answer ->> 'ok' IS NOT NULL AS accepted, answer ->> 'error' AS refusal, found
FROM entry WHERE request ->> 'fn' IS NOT NULL;
`

const columns = "n, at, caller, reason, request, answer, found, chain"

// An entry is a command with what is known about it, or says how a part begins. Its answer and chain are empty until it has one.
type entry struct {
	n                                       int64
	at, caller, reason, request, answer, ch string
	found                                   bool
}

// addEntry adds an entry with an answer.
const addEntry = "INSERT INTO entry VALUES (?, ?, ?, ?, ?, ?, ?, ?)"

func (e *entry) values() []any {
	return []any{e.n, e.at, e.caller, e.reason, e.request, e.answer, e.found, e.ch}
}

func (e *entry) head() Head { return Head{e.n, e.ch} }

// size returns about how many bytes the entry takes.
func (e *entry) size() int { return len(e.request) + len(e.answer) + len(e.reason) + len(e.caller) }

// isCommand reports whether the replay gets the entry.
func (e *entry) isCommand() bool {
	return strings.HasPrefix(e.request, `{"fn":`) && !boundedForm.MatchString(e.request)
}

// isDone reports whether the office got the command, and its answer is known.
func (e *entry) isDone() bool { return e.isCommand() && e.answer != unknown && e.answer != lost }

// isReview reports whether the entry says that somebody has ended a review of who has what. The replay doesn't get it.
func (e *entry) isReview() bool { return strings.HasPrefix(e.request, recorded.ReviewPrefix) }

// accepted is the answer of an entry that is no command.
const accepted = recorded.Accepted

// fields returns the texts whose digest, after the link before them, is the link of the entry.
func (e *entry) fields() []string {
	found := "0"
	if e.found {
		found = "1"
	}
	return []string{strconv.FormatInt(e.n, 10), e.at, e.caller, e.reason, e.request, e.answer, found}
}

// chained returns the link of an entry: a digest of the link before it and of each of its fields.
func chained(before string, e *entry) string { return linked(before, e.fields()) }

// linked returns the link that follows another one.
func linked(before string, fields []string) string {
	h := sha256.New()
	for _, field := range append([]string{before}, fields...) {
		_, _ = io.WriteString(h, field)
		_, _ = h.Write([]byte{'\n'}) // No field has one.
	}
	return hex.EncodeToString(h.Sum(nil))
}

func now() string { return time.Now().UTC().Format(recorded.TimeLayout) }

// driver is SQLite with a function that maps the names of sessions, and one that finds names in imports.
const driver = "sqlite3-record"

func init() {
	sql.Register(driver, &sqlite3.SQLiteDriver{ConnectHook: func(conn *sqlite3.SQLiteConn) error {
		if err := conn.RegisterFunc("import_has", importHas, true); err != nil {
			return err
		}
		return conn.RegisterFunc("session_digest", func(name string) string { return digestOf(name) }, true)
	}})
}

// digestOf is what a name of a session is outside the office, unless a test wants two names with one digest.
var digestOf = state.DigestOf

// openFile opens a file of SQLite by one connection, since some settings belong to a connection.
func openFile(path, options string) (*sql.DB, error) {
	source := url.URL{Scheme: "file", Opaque: (&url.URL{Path: path}).EscapedPath(), RawQuery: options}
	db, err := sql.Open(driver, source.String())
	if err != nil {
		return nil, fmt.Errorf("%s: %w", path, err)
	}
	db.SetMaxOpenConns(1)
	if err := db.Ping(); err != nil {
		_ = db.Close()
		return nil, fmt.Errorf("%s: %w", path, err)
	}
	return db, nil
}

// A scanner is a row of a table.
type scanner interface{ Scan(places ...any) error }

func entryOf(row scanner) (entry, error) {
	var e entry
	var answer, chain sql.NullString
	var found int64
	err := row.Scan(&e.n, &e.at, &e.caller, &e.reason, &e.request, &answer, &found, &chain)
	e.answer, e.ch, e.found = answer.String, chain.String, found == 1
	if err == nil && found != 0 && found != 1 {
		err = fmt.Errorf("entry %d has %d at found: somebody has written it", e.n, found)
	}
	return e, err
}

// A querier is a file of SQLite, or a transaction on it.
type querier interface {
	QueryContext(ctx context.Context, query string, values ...any) (*sql.Rows, error)
	QueryRow(query string, values ...any) *sql.Row
}

// eachRow does something with each row of a query.
func eachRow(ctx context.Context, db querier, query string, values []any, do func(row scanner) error) error {
	rows, err := db.QueryContext(ctx, query, values...)
	if err != nil {
		return err
	}
	defer rows.Close()
	for rows.Next() {
		if err := do(rows); err != nil {
			return err
		}
	}
	return rows.Err()
}

// lastOf returns the last entry that has an answer, and the last entry. If there is none, it is what the last part says of the one
// before.
func lastOf(db querier) (answered, last entry, err error) {
	var before entry
	err = db.QueryRow("SELECT first - 1, before FROM part ORDER BY first DESC LIMIT 1").Scan(&before.n, &before.ch)
	for _, one := range []struct {
		found *entry
		where string
	}{{&answered, "WHERE answer IS NOT NULL"}, {&last, ""}} {
		if err == nil {
			*one.found, err = entryOf(db.QueryRow("SELECT " + columns + " FROM entry " + one.where + " ORDER BY n DESC LIMIT 1"))
		}
		if errors.Is(err, sql.ErrNoRows) {
			*one.found, err = before, nil
		}
	}
	return answered, last, err
}
