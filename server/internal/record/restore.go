package record

import (
	"context"
	"errors"
	"fmt"
	"io"

	"rbac-node/internal/disk"
	"rbac-node/internal/office"
)

// Restore makes a copy of a pair from a backup what a front may begin with: it verifies the pair, ends all sessions, and begins a new part
// that says which backup was restored, by whom and why. If the backup has no record, it begins one unless that isn't wanted. Heads that are
// known from elsewhere have to be of its record, or of what came after it. It returns what it has done.
func (t *Tool) Restore(ctx context.Context, backup, by, reason string, isRecorded bool, known []KnownHead) (string, error) {
	restored := adoption{By: by, Restored: backup}
	if isRecorded && (!isWord(by) || !isWord(reason)) {
		return "", errRestoreWord
	}
	// The program merges the log, too, if the backup has one.
	if err := office.Run(ctx, t.Program, "check", t.Office); err != nil {
		return "", err
	}
	has, err := hasRecord(DirOf(t.Office))
	switch {
	case err != nil:
		return "", err
	case has && !isRecorded:
		return "", errors.New("it has a record, from which --no-record would part the office")
	case !has && len(known) > 0:
		return "", errors.New("the backup has no record that the heads could be of")
	case !has:
		return t.restoreOffice(ctx, restored, reason, isRecorded)
	}
	said, err := t.verifyBackup(ctx, known)
	if err != nil {
		return "", err
	}
	ended, entry, err := t.restorePair(ctx, restored, reason)
	if err != nil {
		return "", err
	}
	return fmt.Sprintf("sessions that were ended: %d\nentry %d of the record says who has restored it and why%s", ended, entry, said), nil
}

// verifyBackup verifies a pair from a backup, and returns what has to be known about it.
func (t *Tool) verifyBackup(ctx context.Context, known []KnownHead) (said string, err error) {
	heads, err := newKnownLinks(known)
	if err != nil {
		return "", err
	}
	heads.isBackup = true
	t.Out = io.Discard
	err = t.verify(ctx, heads, nil)
	switch {
	case len(known) > 0 && (err == nil || errors.Is(err, ErrMissing)) && heads.newest == 0:
		return "", errNoneKnown
	case errors.Is(err, ErrMissing) && len(heads.lost) > 0:
		return "", fmt.Errorf("entry %d of the backup has another link than the one that is known. It comes after a restore, at entry %d. If that was "+
			"an honest one, restore this backup without heads, and let another machine sign its record with --restored", heads.lost[0], heads.restored)
	case errors.Is(err, ErrMissing):
		return "\nparts of the record are missing that were moved away before the backup was made", nil
	case err != nil:
		return "", err
	case heads.newest > 0:
		return fmt.Sprintf("\nthe record is the one whose entry %d is known", heads.newest), nil
	}
	return "", nil
}

var errRestoreWord = fmt.Errorf("restore needs --by and --reason, each of at most %d bytes without control characters", longestWord)

// restorePair ends all sessions of an office, and returns how many, and the entry that says so.
func (t *Tool) restorePair(ctx context.Context, restored adoption, reason string) (ended, entry int64, err error) {
	r, lock, err := t.openLocked(ctx)
	if err != nil {
		return 0, 0, err
	}
	defer lock.Close()
	defer r.close()
	if err := r.Before(ctx); err != nil { // It finds the answers that the backup doesn't have.
		return 0, 0, err
	}
	if ended, err = endSessions(ctx, t.Program, t.Office); err != nil {
		return 0, 0, err
	}
	if err := r.beginAnew(ctx, restored, reason); err != nil {
		return 0, 0, fmt.Errorf("record: %w", err)
	}
	return ended, r.head.n, r.close()
}

// restoreOffice is Restore for an office without a record.
func (t *Tool) restoreOffice(ctx context.Context, restored adoption, reason string, isRecorded bool) (string, error) {
	ended, err := endSessions(ctx, t.Program, t.Office)
	if err != nil {
		return "", err
	}
	said := fmt.Sprintf("sessions that were ended: %d\nthe backup has no record", ended)
	if !isRecorded {
		return said, nil
	}
	t.Out = io.Discard
	if err := t.adoptFirst(ctx, restored, reason); err != nil && !errors.Is(err, errNothing) {
		return "", err
	}
	return said + ": it begins anew", nil
}

// endSessions ends all sessions of an office that nobody has open, and returns how many.
func endSessions(ctx context.Context, program, file string) (ended int64, err error) {
	db, err := openFile(file, ofCopy)
	if err != nil {
		return 0, err
	}
	err = db.QueryRowContext(ctx, "SELECT count(*) FROM pair_row WHERE kind = 7").Scan(&ended)
	for _, statement := range []string{"DELETE FROM pair_row WHERE kind IN (7, 8)", "PRAGMA wal_checkpoint(TRUNCATE)"} {
		if err == nil {
			_, err = db.ExecContext(ctx, statement)
		}
	}
	err = disk.Close(db, err)
	if err != nil {
		return 0, fmt.Errorf("end the sessions: %w", err)
	}
	return ended, office.Run(ctx, program, "check", file)
}
