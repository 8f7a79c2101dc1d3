package record

import (
	"context"
	"database/sql"
	"errors"
	"fmt"
	"io"
	"os"
	"path/filepath"
	"syscall"
	"time"

	"rbac-node/internal/disk"
	"rbac-node/internal/logs"
	"rbac-node/internal/office"
	"rbac-node/internal/pause"
)

// patience is how long a node waits for those who read its record before it divides it at a later snapshot.
var patience = 5 * time.Second

var (
	errNodeRuns     = errors.New("a node has the folder: stop it first, or let it divide its record by itself, with --record-part")
	errNothingToCut = errors.New("there is nothing to cut: the part at hand has no command, or on a node none before the newest snapshot")
	errOthersRead   = errors.New("another program reads the record, or its disk is full: try again later")
	errNoSnapshots  = errors.New("there is no snapshot since the record began")
)

// share keeps the files of a record as they are until release is called: nobody divides it or completes a division meanwhile.
func share(ctx context.Context, dir string) (release func(), err error) {
	return lockDir(ctx, dir, syscall.LOCK_SH)
}

// exclude keeps others from reading the files of a record until release is called, once nobody does.
func exclude(ctx context.Context, dir string) (release func(), err error) {
	within, cancel := context.WithTimeout(ctx, patience)
	defer cancel()
	if release, err = lockDir(within, dir, syscall.LOCK_EX); err != nil && within.Err() != nil && ctx.Err() == nil {
		err = errOthersRead
	}
	return release, err
}

// lockDir waits until it can lock a folder.
func lockDir(ctx context.Context, dir string, how int) (release func(), err error) {
	folder, err := os.Open(dir)
	if err != nil {
		return nil, err
	}
	if err := disk.Lock(ctx, folder, how); err != nil {
		if ctx.Err() != nil {
			err = ctx.Err()
		}
		_ = folder.Close()
		return nil, fmt.Errorf("lock %s: %w", dir, err)
	}
	return func() { _ = folder.Close() }, nil
}

// cutNode closes the part at hand of the record of a node that has ended, at the newest snapshot.
func (t *Tool) cutNode(ctx context.Context) error {
	if _, err := filesOf(t.dir()); err != nil {
		return err
	}
	lock, err := t.lock(ctx)
	if err != nil {
		return err
	}
	defer lock.Close()
	snapshot, head, err := t.newestRecorded()
	if err != nil {
		return err
	}
	r := newRecord(Options{Office: snapshot, Program: t.Program, Dir: t.dir(), Log: logs.New(io.Discard)})
	defer r.close()
	closed := ""
	err = r.withCopy(ctx, snapshot, func(copied, rows string) (err error) {
		closed, err = cutAt(ctx, r.dir, joinedAt(head, rows), "", copied)
		return err
	})
	if err != nil {
		return fmt.Errorf("record: %w", err)
	}
	fmt.Fprintln(t.Out, closed)
	return nil
}

// cutAt closes the part at hand before another one, while nobody writes it, and returns the path of its file.
func cutAt(ctx context.Context, dir string, p part, at, copied string) (closed string, err error) {
	release, err := exclude(ctx, dir)
	if err != nil {
		return "", err
	}
	defer release()
	next, err := newNext(ctx, dir, p, at, copied)
	if err != nil {
		return "", err
	}
	if closed, err = next.putInPlace(); err != nil {
		return "", err
	}
	return closed, tidyParts(dir)
}

// newestRecorded returns the path of the newest snapshot of a node with a head of its record, and the head.
func (t *Tool) newestRecorded() (string, Head, error) {
	folder := office.FolderIn(t.Data)
	snapshots, err := office.List(folder)
	if err != nil && !errors.Is(err, os.ErrNotExist) {
		return "", Head{}, err
	}
	for _, s := range snapshots {
		if head, err := ParseHead(s.Record); err == nil {
			return office.PathIn(folder, s), head, nil
		}
	}
	return "", Head{}, errNoSnapshots
}

// Divide closes the part at hand at a head that was kept, which a snapshot has, if the part has as many entries as a part is to have. If
// that can't be done now, it is tried again at the next snapshot.
func (f *Follower) Divide(ctx context.Context, snapshot, text string) {
	if f.PartEntries < 1 {
		return
	}
	head, err := ParseHead(text)
	if err != nil {
		return // The record begins later.
	}
	begin, err := beginOf(ctx, f.path())
	if err == nil && head.N-begin.n < f.PartEntries {
		return
	}
	closed := ""
	if err == nil {
		err = f.withCopy(ctx, snapshot, func(copied, rows string) (err error) {
			closed, err = f.divide(ctx, head, rows, copied)
			return err
		})
	}
	if err != nil {
		f.Log.Warn("the record is not divided before the next snapshot", "why", err)
		return
	}
	f.Log.Info("the record was divided", "part", closed)
}

// divide divides the record while nothing is written to it. Entries wait meanwhile, and as long as the disk is full.
func (f *Follower) divide(ctx context.Context, head Head, rows, copied string) (closed string, err error) {
	release, err := exclude(ctx, f.dir)
	if err != nil {
		return "", err
	}
	defer release()
	f.writing.Lock()
	defer f.writing.Unlock()
	next, err := newNext(ctx, f.dir, joinedAt(head, rows), "", copied)
	if err != nil {
		return "", err
	}
	if err = f.db.Close(); err == nil {
		closed, err = next.putInPlace()
	}
	if err == nil {
		err = f.insist(ctx, func() error { return tidyParts(f.dir) })
	}
	if failed := f.insist(ctx, f.reload); failed != nil {
		f.mutex.Lock()
		defer f.mutex.Unlock()
		f.fail(failed)
		return "", failed
	}
	f.note(nil, entriesWait)
	return closed, err
}

// insist does something again and again while the disk is full.
func (f *Follower) insist(ctx context.Context, do func() error) error {
	for {
		err := do()
		if err == nil || !mayPass(err) {
			return err
		}
		f.note(err, entriesWait)
		if pause.For(ctx, retryPause) != nil {
			return err
		}
	}
}

// reload opens the file at hand, which was closed.
func (f *Follower) reload() error {
	f.level = ""
	err := f.load()
	if err != nil && f.db != nil {
		_ = f.db.Close()
	}
	return err
}

// A next file is that in which a record is to go on after a head. It begins with a mapped copy of the office as it was then, and has the
// entries after the head.
type next struct {
	dir, making string
	// first is that of the part that is to be closed.
	first int64
	head  Head
}

// newNext makes the file in which a record is to go on with a part, and which nobody writes meanwhile.
func newNext(ctx context.Context, dir string, p part, at, copied string) (*next, error) {
	if err := tidyParts(dir); err != nil {
		return nil, err
	}
	path, head := filepath.Join(dir, fileName), Head{p.first - 1, p.before}
	begin, err := beginOf(ctx, path)
	if err == nil && (begin.n >= head.N || p.why == continued && begin.n+1 == head.N) {
		err = errNothingToCut
	}
	if err == nil {
		err = has(ctx, path, head)
	}
	if err != nil {
		return nil, err
	}
	var later []entry
	if _, err := followChain(ctx, path, entry{n: head.N, ch: head.Chain}, 1<<62, func(e entry) { later = append(later, e) }); err != nil {
		return nil, err
	}
	making, err := makeNext(dir, p, at, copied, later)
	if err != nil {
		return nil, err
	}
	return &next{dir, making, begin.n + 1, head}, nil
}

// putInPlace gives the file at hand, which nobody else has open, the name of an earlier part, and puts the next one in its place. At each
// moment the record has all entries, so that a crash loses none. The entries after the head are still in both files.
func (n *next) putInPlace() (closed string, err error) {
	path := filepath.Join(n.dir, fileName)
	if err := mergeLog(path); err != nil {
		return "", err
	}
	closed = partPath(n.dir, n.first, n.head.N)
	if err := os.Link(path, closed); err != nil {
		return "", err
	}
	return closed, putInPlace(n.dir, n.making)
}

// tidyParts removes the other name of the file at hand, and from the last earlier part the entries that come after it, which the file at
// hand has too. That completes a division, also after a crash. Nobody else reads or writes the files: if somebody read the part, what is
// removed would stay in it beside a log, which isn't moved with it.
func tidyParts(dir string) error {
	if err := removeLeftNames(dir); err != nil {
		return err
	}
	parts, _, err := partsIn(dir)
	if err != nil || len(parts) == 0 {
		return err
	}
	part, ctx := parts[len(parts)-1], context.Background()
	_, named, _ := namesOf(part)
	db, err := openFile(part, readingOf(part)+"&_busy_timeout="+busy)
	if err != nil {
		return err
	}
	has, err := hasLater(ctx, db, part, named)
	err = disk.Close(db, err)
	if err != nil || !has {
		return err
	}
	return removeAfter(ctx, part, named)
}

// hasLater reports whether an earlier part has entries after the last one that its name says, which the file at hand begins with: a crash
// leaves them. Those that it doesn't begin with are not passed over, since somebody has written them.
func hasLater(ctx context.Context, part querier, path string, named int64) (bool, error) {
	_, last, err := lastOf(part)
	if err != nil || last.n <= named {
		return false, err
	}
	current := filepath.Join(filepath.Dir(path), fileName)
	at, err := beginOf(ctx, current)
	if err != nil || at.n != named {
		return false, nil // It may be elsewhere.
	}
	// Since each leads to the next, all are those of the file at hand if the last one is.
	err = follow(ctx, part, &at, last.n, func(*entry) error { return nil })
	return err == nil && at == last && has(ctx, current, last.head()) == nil, nil
}

// tidyLater completes a division that a crash has ended, once nobody reads the record. Until then whoever reads it passes over what is
// there twice.
func (f *Follower) tidyLater() {
	defer f.checking.Done()
	release, err := lockDir(f.life, f.dir, syscall.LOCK_EX)
	if err == nil {
		defer release()
		err = tidyParts(f.dir)
	}
	if err != nil && f.life.Err() == nil {
		f.Log.Error("a division of the record, which a crash has ended, isn't completed before the next one", "why", err)
	}
}

// hideLater hides the entries that a crash has left in an earlier part.
func (v *view) hideLater(ctx context.Context) error {
	_, named, is := namesOf(v.path)
	if !is {
		return nil
	}
	has, err := hasLater(ctx, v.tx, v.path, named)
	if err != nil || !has {
		return err
	}
	for _, statement := range []string{
		"PRAGMA query_only = 0", // Otherwise SQLite refuses the view too, which is in no file.
		fmt.Sprintf("CREATE TEMP VIEW entry AS SELECT * FROM main.entry WHERE n <= %d", named),
		"PRAGMA query_only = 1",
	} {
		if _, err := v.tx.ExecContext(ctx, statement); err != nil {
			return err
		}
	}
	return nil
}

// mergeLog merges the log of a file.
func mergeLog(path string) error {
	db, err := openFile(path, "_txlock=immediate&_busy_timeout="+busy)
	if err != nil {
		return err
	}
	_, err = db.Exec("SELECT 1 FROM part") // The log of a file that nobody has read is not merged.
	err = disk.Close(db, err)
	if err != nil {
		return err
	}
	if _, err := os.Stat(path + walSuffix); !errors.Is(err, os.ErrNotExist) {
		return errOthersRead
	}
	return disk.Sync(path)
}

// removeAfter removes the entries after a number from a file, and makes it durable with its log merged.
func removeAfter(ctx context.Context, path string, n int64) error {
	db, err := openFile(path, "_txlock=immediate&_busy_timeout="+busy)
	if err != nil {
		return err
	}
	err = inTransaction(db, func(tx *sql.Tx) error {
		_, err := tx.ExecContext(ctx, "DELETE FROM entry WHERE n > ?", n)
		return err
	})
	err = disk.Close(db, err)
	return err
}
