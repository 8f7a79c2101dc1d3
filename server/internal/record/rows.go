package record

import (
	"context"
	"database/sql"
	"errors"
	"fmt"

	"rbac/clients/go/rbacoffice"

	"rbac-node/internal/office"
)

// officeRows are the rows of an office in which sessions have the digests of their names, in the order of their tables and names.
type officeRows struct {
	version int64
	rows    []rbacoffice.Row
}

// ofCopy opens a copy of an office that nobody else has, and that is changed. SQLite reads the log beside it.
const ofCopy = "_busy_timeout=0"

var errTwoNames = errors.New("two sessions have names with one digest: end one of them")

// readRows reads the rows of an office. In a mapped one sessions have the digests of their names.
func readRows(ctx context.Context, path, options string, isMapped bool) (*officeRows, error) {
	rows, version, err := office.ReadRows(ctx, path, options, true)
	if err != nil {
		return nil, err
	}
	if !isMapped {
		for i := range rows {
			if row := &rows[i]; row.Table == rbacoffice.Sessions || row.Table == rbacoffice.ActivatedRoles {
				row.Names[0] = digestOf(row.Names[0])
			}
		}
		office.SortRows(rows)
	}
	for i := 1; i < len(rows); i++ {
		if rows[i].Table == rbacoffice.Sessions && rows[i-1].Table == rbacoffice.Sessions && rows[i].Names[0] == rows[i-1].Names[0] {
			return nil, errTwoNames
		}
	}
	return &officeRows{version, rows}, nil
}

func (o *officeRows) sums() office.Sums { return office.SumsOf(o.version, o.rows) }

// mapSessions gives all sessions of a copy of an office the digests of their names, and leaves one file that has their names nowhere, not
// even in what was deleted.
func mapSessions(ctx context.Context, db *sql.DB) error {
	for _, statement := range []string{
		"PRAGMA temp_store = MEMORY",
		"PRAGMA secure_delete = ON",
		// A name may be the digest of another one. No name begins with this character.
		"UPDATE pair_row SET a = char(1) || session_digest(a) WHERE kind >= 7",
		"UPDATE pair_row SET a = substr(a, 2) WHERE kind >= 7",
		"VACUUM",
		"PRAGMA wal_checkpoint(TRUNCATE)",
	} {
		if _, err := db.ExecContext(ctx, statement); err != nil {
			return fmt.Errorf("digests of sessions: %w", err)
		}
	}
	return nil
}
