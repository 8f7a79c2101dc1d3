package record

import (
	"context"
	"database/sql"
	"errors"
	"fmt"
	"os"
	"path/filepath"

	"rbac-node/internal/api"
	"rbac-node/internal/disk"
	"rbac-node/internal/office"
)

// copyNode copies the newest snapshot of a node and its record into a folder, which is then as that of a node. The record has all that it
// has now: the entries after the snapshot come from the log again, or are all that is left of their commands.
func (t *Tool) copyNode(ctx context.Context, files []string, to string) error {
	folder := office.FolderIn(to)
	for _, dir := range []string{folder, DirIn(to)} {
		if err := os.Mkdir(dir, 0o700); err != nil {
			return err
		}
	}
	copied, head, err := t.copyNewest(folder)
	if err != nil {
		return err
	}
	if err := office.Run(ctx, t.Program, "check", copied); err != nil {
		return err
	}
	if err := copyRecord(ctx, files, DirIn(to)); err != nil {
		return err
	}
	path := filepath.Join(DirIn(to), fileName)
	begin, err := beginOf(ctx, path)
	if err == nil && begin.n <= head.N {
		err = has(ctx, path, head)
	}
	if err != nil {
		return err
	}
	return disk.SyncAll(to)
}

// copyNewest copies the newest snapshot into a folder. If the node deletes it meanwhile, there are newer ones.
func (t *Tool) copyNewest(folder string) (copied string, head Head, err error) {
	for last := ""; ; {
		snapshot, head, err := t.newestRecorded()
		if err != nil {
			return "", head, err
		}
		copied = filepath.Join(folder, filepath.Base(snapshot))
		err = disk.Copy(snapshot, copied)
		if err == nil || !errors.Is(err, os.ErrNotExist) || snapshot == last {
			return copied, head, err
		}
		last = snapshot
	}
}

// copyRecord copies the files of a record into an empty folder, the one at hand as it is now.
func copyRecord(ctx context.Context, files []string, dir string) error {
	current, err := openView(ctx, files[len(files)-1])
	if err != nil {
		return err
	}
	defer current.Close()
	if err := (&keptPair{view: current}).copyTo(ctx, filepath.Join(dir, fileName)); err != nil {
		return err
	}
	for _, path := range files[:len(files)-1] {
		if err := disk.Copy(path, filepath.Join(dir, filepath.Base(path))); err != nil {
			return err
		}
	}
	return nil
}

// A Carried is what begins a node from a backup: the file of an office, which is a snapshot or was made of one, and the head of the record
// over it. Later is how many commands the record has after the snapshot.
type Carried struct {
	Office string
	Head   Head
	Later  int
}

// laterName is the name of the file of an office that was made of a snapshot and the commands after it.
const laterName = "later"

// Carry begins the record of a node with that of a backup. The office is the newest snapshot of the backup, in which the commands are done
// that the record has after it, or without these if they are to be left out. If there are any, all sessions end: nobody knows their names.
func Carry(ctx context.Context, options Options, backup string, leavesOut bool) (c Carried, err error) {
	from := &Tool{Data: backup}
	snapshot, at, err := from.newestRecorded()
	if err != nil {
		return c, fmt.Errorf("backup %s: %w", backup, err)
	}
	files, release, err := from.files(ctx)
	if err != nil {
		return c, err
	}
	defer release()
	switch has, err := hasRecord(options.Dir); {
	case err != nil:
		return c, err
	case has:
		return c, fmt.Errorf("record %s: %w", options.Dir, errHasRecord)
	}
	if err := os.MkdirAll(options.Dir, 0o700); err != nil {
		return c, fmt.Errorf("record: %w", err)
	}
	if c, err = carry(ctx, options, files, snapshot, at, leavesOut, adoption{By: "rbac-node", Restored: filepath.Base(backup)}); err != nil {
		_ = os.RemoveAll(options.Dir) // It is no record yet.
		return c, fmt.Errorf("record %s: %w", options.Dir, err)
	}
	return c, nil
}

var errHasRecord = errors.New("there is one already: move it away")

// carry copies the files of a record, and begins it anew over an office.
func carry(ctx context.Context, options Options, files []string, snapshot string, at Head, leavesOut bool, by adoption) (c Carried, err error) {
	if err := copyRecord(ctx, files, options.Dir); err != nil {
		return c, err
	}
	options.Office, c.Office = snapshot, snapshot
	r := newRecord(options)
	defer r.close()
	if err := r.load(); err != nil {
		return c, err
	}
	count := func(*entry) error { c.Later++; return nil }
	if err := r.eachDone(ctx, at, count); err != nil {
		return c, err
	}
	if c.Later > 0 && !leavesOut {
		c.Office = filepath.Join(r.dir, laterName)
		if err := r.doLater(ctx, snapshot, c.Office, at); err != nil {
			return c, fmt.Errorf("the commands after the snapshot: %w; to adopt it without them, add --without-later-commands", err)
		}
		r.Office = c.Office
	}
	err = r.withCopy(ctx, r.Office, func(copied, rows string) error {
		p := part{why: adopted, rows: rows, adoption: by, reason: "the office of a backup"}
		return inTransaction(r.db, func(tx *sql.Tx) error { return r.adopt(ctx, tx, p, copied) })
	})
	if err != nil {
		return c, err
	}
	c.Head = r.Head()
	return c, disk.SyncAll(options.Dir)
}

// eachDone does something with each accepted command after an entry, also with those in earlier parts: the snapshot may be older than the
// part at hand.
func (r *Record) eachDone(ctx context.Context, after Head, do func(e *entry) error) error {
	files, err := filesOf(r.dir)
	if err != nil {
		return err
	}
	i, err := fileOf(ctx, files, after.N)
	if err == nil {
		err = has(ctx, files[i], after)
	}
	last := entry{n: after.N, ch: after.Chain}
	for ; err == nil && i < len(files); i++ {
		err = withView(ctx, files[i], func(v *view) error {
			return follow(ctx, v.tx, &last, r.head.n, func(e *entry) error {
				if e.isDone() && api.IsAccepted([]byte(e.answer)) {
					return do(e)
				}
				return nil
			})
		})
	}
	return err
}

// doLater copies a snapshot to a file, ends all sessions there, and lets the program do the accepted commands after an entry, but for
// those about sessions. Each has to be answered as the record says: a command that was accepted while there were sessions is accepted
// without them, too.
func (r *Record) doLater(ctx context.Context, snapshot, file string, after Head) error {
	if err := office.Copy(snapshot, file); err != nil {
		return err
	}
	if _, err := endSessions(ctx, r.Program, file); err != nil {
		return err
	}
	replay, err := office.Start(r.Program, file, pausing)
	if err != nil {
		return err
	}
	var wrong error
	err = r.eachDone(ctx, after, func(e *entry) error {
		if call, err := api.ParseLine([]byte(e.request)); err != nil || call.Has(session) {
			return err
		}
		n, wanted := e.n, e.answer
		replay.Send([]byte(e.request), func(answer []byte) {
			if wrong == nil && string(answer) != wanted {
				wrong = &AnswerError{n, wanted, string(answer)}
			}
		})
		return nil
	})
	if closed := replay.Close(); err == nil {
		err = closed
	}
	if err == nil {
		err = wrong
	}
	return err
}
