package record

import (
	"database/sql"
	"encoding/json"
	"fmt"
	"os"
	"path/filepath"

	"rbac-node/internal/disk"
)

// partPrefix begins the names of the files of earlier parts.
const partPrefix = "record-"

// Why a part begins.
const (
	beginning = "begins"    // There was no record before.
	continued = "continues" // The part before it has been closed; its last rows are the first of this one.
	adopted   = "adopts"    // Somebody has written the office or the record, or restored a backup, and the office as it is was adopted.
	joined    = "joins"     // A node has begun with a snapshot. No entry says so, since all nodes have the same entries.
)

// A part is a row of its table: which entry is the first, why the part begins, the link before it, and the digest of the rows of the
// office over which the commands are done. If an office is adopted, the first entry alone has who did so and why.
type part struct {
	first             int64
	why, before, rows string
	adoption          adoption
	reason            string
}

// joinedAt returns the part of a node that begins with a snapshot after a head.
func joinedAt(head Head, rows string) part {
	return part{first: head.N + 1, why: joined, before: head.Chain, rows: rows}
}

// entry returns the entry that says how a part begins, or nil if there is none.
func (p *part) entry(at string) *entry {
	if p.why == joined {
		return nil
	}
	text, _ := json.Marshal(beginningText{p.why, p.rows, p.adoption.By, p.adoption.Restored, p.adoption.Changed}) // It has nothing that JSON can't say.
	e := &entry{n: p.first, at: at, caller: Front, reason: p.reason, request: string(text), answer: accepted}
	e.ch = chained(p.before, e)
	return e
}

// A beginningText is the request of an entry that says how a part begins.
type beginningText struct {
	Record   string   `json:"record"`
	Rows     string   `json:"rows"`
	By       string   `json:"by,omitempty"`
	Restored string   `json:"restored,omitempty"`
	Changed  *changes `json:"changed,omitempty"`
}

// begins reports whether an entry says how the part begins. It notes what that entry says of an adoption.
func (p *part) begins(e *entry) bool {
	if p.why == adopted {
		var text beginningText
		if json.Unmarshal([]byte(e.request), &text) != nil {
			return false
		}
		p.adoption, p.reason = adoption{text.By, text.Restored, text.Changed}, e.reason
	}
	wanted := p.entry(e.at)
	return wanted != nil && *e == *wanted
}

// addPart begins a part with a mapped copy of the office, and returns its first entry, if it has one.
func addPart(tx *sql.Tx, p part, at, copied string) (*entry, error) {
	text, err := os.ReadFile(copied)
	if err != nil {
		return nil, err
	}
	if _, err := tx.Exec("INSERT INTO part VALUES (?, ?, ?, ?, ?)", p.first, p.why, p.before, p.rows, text); err != nil {
		return nil, err
	}
	e := p.entry(at)
	if e == nil {
		return nil, nil
	}
	_, err = tx.Exec(addEntry, e.values()...)
	return e, err
}

// makeFile makes the file of a record that begins with a mapped copy of the office. After a crash there is a whole file or none.
func makeFile(dir string, p part, at, copied string) error {
	making, err := makeNext(dir, p, at, copied, nil)
	if err != nil {
		return err
	}
	return putInPlace(dir, making)
}

// makeNext makes such a file, which has some later entries, beside the one at hand. It returns its path.
func makeNext(dir string, p part, at, copied string, later []entry) (making string, err error) {
	making = filepath.Join(dir, fileName+".making")
	for _, left := range []string{making, making + journalSuffix, making + walSuffix} {
		if err := os.RemoveAll(left); err != nil {
			return "", err
		}
	}
	db, err := openFile(making, "_txlock=immediate")
	if err != nil {
		return "", err
	}
	err = inTransaction(db, func(tx *sql.Tx) error {
		if _, err := tx.Exec(schema); err != nil {
			return err
		}
		if _, err := addPart(tx, p, at, copied); err != nil {
			return err
		}
		return insertAll(tx, later, "NORMAL")
	})
	if err == nil {
		// Under its final name the file never has a journal.
		_, err = db.Exec("PRAGMA journal_mode = WAL")
	}
	err = disk.Close(db, err)
	if err == nil {
		err = disk.Sync(making)
	}
	if err != nil {
		_ = os.Remove(making) // The disk may be full.
		return "", err
	}
	return making, nil
}

// putInPlace makes a file the one at hand.
func putInPlace(dir, making string) error {
	if err := os.Rename(making, filepath.Join(dir, fileName)); err != nil {
		return err
	}
	if err := disk.Sync(dir); err != nil {
		return err
	}
	return disk.Sync(filepath.Dir(dir))
}

// inTransaction does something in a transaction, which ends without any of it if that fails.
func inTransaction(db *sql.DB, work func(tx *sql.Tx) error) error {
	tx, err := db.Begin()
	if err != nil {
		return err
	}
	defer func() { _ = tx.Rollback() }() // After a commit it does nothing.
	if err := work(tx); err != nil {
		return err
	}
	return tx.Commit()
}

// partPath returns the path of the file of an earlier part.
func partPath(dir string, first, last int64) string {
	return filepath.Join(dir, fmt.Sprintf("%s%d-%d.db", partPrefix, first, last))
}

// namesOf returns the first and the last entry that the name of the file of an earlier part says, if it is one.
func namesOf(path string) (first, last int64, is bool) {
	name := filepath.Base(path)
	_, err := fmt.Sscanf(name, partPrefix+"%d-%d.db", &first, &last)
	return first, last, err == nil && name == filepath.Base(partPath("", first, last)) // Sscanf passes over what comes after that.
}

const (
	// unknown is recorded in place of an answer that nobody can find any more.
	unknown = `{"unknown":true}`
	// lost is recorded in place of an answer to a command that the office never got, since the front or its replay ended before.
	lost = `{"lost":true}`
)
