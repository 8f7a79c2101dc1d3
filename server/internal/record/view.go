package record

import (
	"context"
	"database/sql"
	"errors"
	"fmt"
	"os"
	"path/filepath"
	"strings"

	"rbac-node/internal/disk"
)

// A view is a state of a file of a record, which does not change while others write the file.
type view struct {
	path string
	db   *sql.DB
	conn *sql.Conn
	tx   *sql.Tx
	// parts are those of the file, at least one. answered is the last entry with an answer, and last the last one.
	parts          []part
	answered, last entry
	// before is what the file was before it was opened, if it is read without locks.
	before os.FileInfo
}

// openView opens a file as it is now.
func openView(ctx context.Context, path string) (*view, error) {
	if err := refuseJournal(path); err != nil {
		return nil, err
	}
	v, err := openViewBy(ctx, path, readingOf(path)+"&_busy_timeout="+busy)
	if err != nil && (strings.Contains(err.Error(), "unable to open") || strings.Contains(err.Error(), "readonly database")) {
		// Beside this file SQLite can't make its own, as in a backup that can't be written. Mostly nobody else can write it then.
		if log, logErr := os.Stat(path + walSuffix); logErr == nil && log.Size() > 0 {
			return nil, fmt.Errorf("%s: it has a log, which can't be read in a folder that can't be written: copy the folder", path)
		}
		v, err = openUnlocked(ctx, path)
	}
	return v, err
}

// openUnlocked opens a file without locks, and without its log.
func openUnlocked(ctx context.Context, path string) (*view, error) {
	before, err := os.Stat(path)
	if err != nil {
		return nil, err
	}
	v, err := openViewBy(ctx, path, "mode=ro&immutable=1")
	if err == nil {
		v.before = before
	}
	return v, err
}

// judgeStill refuses a file that somebody has written while it was read without locks: what was read may never have been its state.
func (v *view) judgeStill() error {
	if v.before == nil {
		return nil
	}
	after, err := os.Stat(v.path)
	if err == nil && (after.Size() != v.before.Size() || !after.ModTime().Equal(v.before.ModTime())) {
		err = fmt.Errorf("%s was written while it was read: try again", v.path)
	}
	return err
}

var errGap = errors.New("their numbers don't follow one another")

// judgeWhole refuses a file whose entries don't have each number from its first part on.
func (v *view) judgeWhole(ctx context.Context) error {
	var count int64
	err := v.tx.QueryRowContext(ctx, "SELECT count(*) FROM entry").Scan(&count)
	if first := v.parts[0].first; err == nil && count != v.last.n-first+1 {
		err = fmt.Errorf("%s has %d entries from %d to %d: %w", v.path, count, first, v.last.n, errGap)
	}
	return err
}

// readingOf returns how a file is opened that isn't written. SQLite makes two files beside it. Unless the log has something, they are
// deleted again if the file is opened as one that may be written.
func readingOf(path string) string {
	if log, err := os.Stat(path + walSuffix); err == nil && log.Size() > 0 {
		return "mode=ro"
	}
	return "mode=rw&_query_only=1"
}

// refuseJournal refuses a file with a journal beside it: no record and no office has one, and a program that opens the file by SQLite
// plays it back, so that it reads something else than what is verified.
func refuseJournal(path string) error {
	real, err := filepath.EvalSymlinks(path)
	if err != nil {
		real = path // It isn't there.
	}
	for _, beside := range []string{path + journalSuffix, real + journalSuffix} { // SQLite looks beside what a link leads to.
		if _, err := os.Lstat(beside); !errors.Is(err, os.ErrNotExist) {
			return fmt.Errorf("%s: there is a file %s beside it, which would change what it has: somebody has put it there", path, filepath.Base(beside))
		}
	}
	return nil
}

// refuseJournals refuses a folder of a record in which one of the files has a journal.
func refuseJournals(dir string) error {
	for _, suffix := range []string{"", journalSuffix} {
		found, err := filepath.Glob(filepath.Join(disk.EscapeGlob(dir), "*.db"+suffix))
		if err != nil {
			return err
		}
		for _, path := range found {
			if err := refuseJournal(strings.TrimSuffix(path, suffix)); err != nil {
				return err
			}
		}
	}
	return nil
}

func openViewBy(ctx context.Context, path, options string) (*view, error) {
	db, err := openFile(path, options)
	if err != nil {
		return nil, err
	}
	v := &view{path: path, db: db}
	if v.conn, err = db.Conn(ctx); err == nil {
		if v.tx, err = v.conn.BeginTx(ctx, nil); err == nil {
			if err = v.read(ctx); err == nil {
				return v, nil
			}
			_ = v.tx.Rollback()
		}
		_ = v.conn.Close()
	}
	_ = db.Close()
	return nil, fmt.Errorf("%s: %w", path, err)
}

// read reads what is known of each view.
func (v *view) read(ctx context.Context) error {
	if err := judgeVersion(v.tx); err != nil {
		return err
	}
	err := eachRow(ctx, v.tx, "SELECT first, why, before, rows FROM part ORDER BY first", nil, func(row scanner) error {
		var p part
		err := row.Scan(&p.first, &p.why, &p.before, &p.rows)
		v.parts = append(v.parts, p)
		return err
	})
	if err != nil {
		return err
	}
	if len(v.parts) == 0 {
		return errors.New("it has no part")
	}
	if err := v.hideLater(ctx); err != nil {
		return err
	}
	v.answered, v.last, err = lastOf(v.tx)
	return err
}

func (v *view) Close() {
	_ = v.tx.Rollback() // Nothing was written.
	_ = v.conn.Close()
	_ = v.db.Close()
}

// withView does something with a file as it is now.
func withView(ctx context.Context, path string, do func(v *view) error) error {
	v, err := openView(ctx, path)
	if err != nil {
		return err
	}
	defer v.Close()
	if err := do(v); err != nil {
		return err
	}
	return v.judgeStill()
}

// begin returns what the first part says of the entry before it.
func (v *view) begin() entry { return entry{n: v.parts[0].first - 1, ch: v.parts[0].before} }

// beginOf returns what the first part of a file says of the entry before it.
func beginOf(ctx context.Context, path string) (begin entry, err error) {
	err = withView(ctx, path, func(v *view) error { begin = v.begin(); return nil })
	return begin, err
}

// linkOf returns the link of an entry, which may be the one before the first, or nothing if it isn't here.
func (v *view) linkOf(ctx context.Context, n int64) (link string, err error) {
	if begin := v.begin(); n == begin.n {
		return begin.ch, nil
	}
	err = v.tx.QueryRowContext(ctx, "SELECT coalesce(chain, '') FROM entry WHERE n = ?", n).Scan(&link)
	if errors.Is(err, sql.ErrNoRows) {
		return "", nil
	}
	return link, err
}

// follow computes the links of the entries after one, up to a number, and does something with each. The entry becomes the last of them.
func follow(ctx context.Context, db querier, last *entry, to int64, do func(e *entry) error) error {
	return entriesAfter(ctx, db, last.n, to)(func(e *entry) error {
		if e.n != last.n+1 || chained(last.ch, e) != e.ch {
			return &breakError{last.n + 1}
		}
		*last = *e
		return do(e)
	})
}
