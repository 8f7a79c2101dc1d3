package record

import (
	"context"
	"database/sql"
	"errors"
	"fmt"
	"os"
	"path/filepath"
	"strings"
	"sync"
	"time"

	sqlite3 "github.com/mattn/go-sqlite3"

	"rbac-node/internal/api"
	"rbac-node/internal/disk"
	"rbac-node/internal/recorded"
)

// preparedName is the name of a mapped copy of the office with which the record may begin.
const preparedName = "prepared"

const (
	// mostQueued is how many entries may wait to be written, and mostQueuedBytes how many bytes they may have.
	mostQueued, mostQueuedBytes = 50_000, 64 << 20
	// retryPause is the time between two attempts to write.
	retryPause = time.Second
)

// DirIn returns the folder of the record of a node whose folder this is.
func DirIn(data string) string { return filepath.Join(data, "record") }

// A Follower is the record of a node of several machines. All nodes get the same entries, from the log. The log has a command for as
// long as a node may need to do it again. So an entry is written once the office has answered, and is synced before the node relies
// on a snapshot that has it: after a crash the commands since the snapshot come again, and have to give the entries that are there.
type Follower struct {
	*Record
	// prepared is the part that begins with the office as it was at Resume.
	prepared part
	// writing is held by whoever writes entries. checked is the last entry up to which the file was read again, and checking counts
	// those who read what is before it, or complete a division.
	writing  sync.Mutex
	checked  entry
	checking sync.WaitGroup
	// sending is held by whoever sends the record to another node.
	sending sync.Mutex

	mutex sync.Mutex // for what follows
	// room says that entries were written, or that writing has failed.
	room *sync.Cond
	// added is the last entry, and queue has those that aren't written yet, with queued bytes. known has the links of entries that were
	// written before the start, and come again.
	added  entry
	queue  []entry
	queued int
	known  []string
	begun  bool
	err    error
	wake   chan struct{}
	failed chan struct{}
	ended  chan struct{}
}

// NewFollower returns the record of a node. Resume says where it goes on.
func NewFollower(options Options) *Follower {
	f := &Follower{
		Record: newRecord(options), wake: make(chan struct{}, 1), failed: make(chan struct{}), ended: make(chan struct{}),
	}
	// What a start needs for the file of the office must not become a part of it.
	f.keepsReserve, f.besides = true, disk.Reserve
	if err := freeReserve(f.dir); err != nil {
		f.Log.Error("the room that is kept for a full disk can't be freed", "why", err)
	}
	f.room = sync.NewCond(&f.mutex)
	f.addMetrics()
	go f.run()
	return f
}

// Resume goes on after the head that a snapshot has, from which the office in the file was made. No head means that nothing was recorded
// before it. If entries before the head are missing, the record of another node takes the place of this one. If no node gives one, a record
// that ends before a fetched snapshot becomes an earlier part.
func (f *Follower) Resume(ctx context.Context, head string, isFetched bool, from recorded.Fetch) error {
	if err := f.resume(ctx, head, isFetched, from); err != nil {
		return fmt.Errorf("record %s: %w", f.dir, err)
	}
	go f.announce()
	return nil
}

func (f *Follower) resume(ctx context.Context, text string, isFetched bool, from recorded.Fetch) error {
	has, err := hasRecord(f.dir)
	if errors.Is(err, errNoFile) {
		has, err = false, nil // A crash has left earlier parts alone, or somebody has moved the file away.
	}
	if err != nil {
		return err
	}
	if text == "" {
		if err := f.prepare(ctx, has); err != nil || !has {
			return err
		}
		return f.openAt(ctx, Head{})
	}
	head, err := ParseHead(text)
	if err != nil {
		return err
	}
	if has, err = f.complete(ctx, head, has, isFetched, from); err != nil {
		return err
	}
	if !has {
		f.Log.Warn("the record begins with a snapshot: earlier entries are not here", "first", head.N+1)
		// The log has the commands before it, so it may begin over any office.
		if err := f.beginWith(ctx, joinedAt(head, ""), "", func(bool) error { return nil }); err != nil {
			return err
		}
	}
	return f.openAt(ctx, head)
}

var errMoveAway = errors.New("restore the record of this node, or move it away")

// complete fetches the record of another node if this one lacks entries before a head. It reports whether there is a file to go on with.
func (f *Follower) complete(ctx context.Context, head Head, has, isFetched bool, from recorded.Fetch) (bool, error) {
	if !has {
		files, _ := os.ReadDir(f.dir) // There is mostly no folder.
		for _, file := range files {
			if strings.HasPrefix(file.Name(), partPrefix) {
				return false, nil // Earlier parts stay.
			}
		}
		return f.fetch(ctx, head, nil, from), nil
	}
	if !isFetched {
		return true, nil
	}
	var own Head
	var begin entry
	err := withView(ctx, f.path(), func(v *view) error { own = v.answered.head(); return nil })
	if err != nil || own.N >= head.N {
		return true, err
	}
	files, err := filesOf(f.dir)
	if err == nil {
		begin, err = beginOf(ctx, files[0])
	}
	if err != nil {
		return true, err
	}
	if begin.n == 0 || own.N == begin.n {
		if f.fetch(ctx, head, &own, from) {
			return true, nil
		}
	}
	return f.closeBefore(head.N)
}

// closeBefore makes a file that ends before an entry an earlier part, and reports whether there is still a file.
func (f *Follower) closeBefore(n int64) (has bool, err error) {
	var first, last int64
	err = withView(context.Background(), f.path(), func(v *view) error {
		first, last = v.parts[0].first, v.answered.n
		return nil
	})
	if err != nil || last >= n {
		return true, err
	}
	release, err := exclude(f.life, f.dir)
	if err != nil {
		return true, err
	}
	defer release()
	if err := tidyParts(f.dir); err != nil { // Later nobody would find out which entries are there twice.
		return true, err
	}
	if err := mergeLog(f.path()); err != nil {
		return true, err
	}
	return false, os.Rename(f.path(), partPath(f.dir, first, last))
}

// HasBegun reports whether there is a record: it begins with the first entry of the log that says who asks.
func (f *Follower) HasBegun() bool {
	f.mutex.Lock()
	defer f.mutex.Unlock()
	return f.begun
}

// prepare makes the copy of the office with which the record begins if no command comes before, so that the first command that is
// recorded doesn't wait for it. One that there is has begun with such a copy.
func (f *Follower) prepare(ctx context.Context, has bool) error {
	if err := os.Mkdir(f.dir, 0o700); err != nil && !errors.Is(err, os.ErrExist) {
		return err
	}
	return f.withCopy(ctx, f.Office, func(copied, rows string) error {
		f.prepared = part{first: 1, why: beginning, rows: rows}
		if has {
			return nil
		}
		return disk.Copy(copied, filepath.Join(f.dir, preparedName))
	})
}

// Begin begins the record with the office as it was at Resume. If an earlier run has begun it, it has to have begun in the same way.
func (f *Follower) Begin(ctx context.Context, at string) (err error) {
	p := f.prepared
	if f.db == nil {
		err = makeFile(f.dir, p, at, filepath.Join(f.dir, preparedName))
	}
	_ = os.Remove(filepath.Join(f.dir, preparedName)) // It may never have been there.
	if err == nil && f.db == nil {
		err = f.openAt(ctx, Head{})
	}
	if err != nil {
		return fmt.Errorf("record %s: %w", f.dir, err)
	}
	f.mutex.Lock()
	f.begun = true
	f.mutex.Unlock()
	f.add(*p.entry(at)) // It is there, so it is compared.
	return nil
}

// Admit refuses a command that can't be recorded.
func (f *Follower) Admit(call *api.Call) error {
	_, err := recordedLine(call)
	return err
}

// Add adds the next command of the log, with its answer, and returns the number of its entry. It doesn't wait.
func (f *Follower) Add(c recorded.Command) (number int64) {
	line, _ := recordedLine(c.Call) // All nodes record the same line, even if it is too long.
	e := entry{at: c.At, caller: c.Caller, reason: c.Reason, request: string(line), answer: string(c.Answer)}
	if c.IsBounded {
		e.bound()
	}
	return f.add(e)
}

func (f *Follower) add(e entry) (number int64) {
	f.mutex.Lock()
	defer f.mutex.Unlock()
	e.n = f.added.n + 1
	e.ch = chained(f.added.ch, &e)
	f.added = e
	if len(f.known) > 0 {
		if f.known[0] != e.ch {
			f.fail(fmt.Errorf("entry %d is not what the log gives: %w", e.n, errMoveAway))
		}
		f.known = f.known[1:]
		return e.n
	}
	f.queue, f.queued = append(f.queue, e), f.queued+e.size()
	select {
	case f.wake <- struct{}{}:
	default:
	}
	return e.n
}

// Added returns the head after the last entry that was added, or an empty text if there is no record.
func (f *Follower) Added() string {
	f.mutex.Lock()
	defer f.mutex.Unlock()
	if !f.begun {
		return ""
	}
	return f.added.head().String()
}

// Room waits until few entries wait to be written. If they can't be written, and too many wait, the node has to end: after its next
// start they come again from the log.
func (f *Follower) Room() {
	f.mutex.Lock()
	defer f.mutex.Unlock()
	for f.err == nil && (len(f.queue) > mostQueued || f.queued > mostQueuedBytes) {
		if why := f.Why(); why != "" {
			f.fail(fmt.Errorf("%d entries wait, and can't be written: %s", len(f.queue), why))
			return
		}
		f.room.Wait()
	}
}

// fail says that the node has to end. The mutex is locked.
func (f *Follower) fail(err error) {
	if f.err == nil {
		f.err = fmt.Errorf("record %s: %w", f.dir, err)
		close(f.failed)
	}
	f.room.Broadcast()
}

// Failed is closed when the record can't go on.
func (f *Follower) Failed() <-chan struct{} { return f.failed }

// Failure returns why the record can't go on, or nil.
func (f *Follower) Failure() error {
	f.mutex.Lock()
	defer f.mutex.Unlock()
	return f.err
}

// run writes entries until the record is closed, or can't go on.
func (f *Follower) run() {
	defer close(f.ended)
	for {
		select {
		case <-f.wake:
		case <-f.life.Done():
			return
		}
		for f.flush("NORMAL") != nil {
			select {
			case <-time.After(retryPause):
			case <-f.failed:
				return
			case <-f.life.Done():
				return
			}
		}
	}
}

// flush writes the entries that wait. At the level FULL all that was written is synced. If it fails they go on waiting, so that no later
// entry is ever written before them.
func (f *Follower) flush(level string) error {
	f.writing.Lock()
	defer f.writing.Unlock()
	f.mutex.Lock()
	queue, err := f.queue, f.err
	f.mutex.Unlock()
	if err != nil {
		return err
	}
	noRoom := f.roomFor(queue, level)
	if err = noRoom; err == nil {
		err = f.append(queue, level)
	}
	f.note(err, entriesWait)
	f.mutex.Lock()
	defer f.mutex.Unlock()
	switch {
	case err == nil:
		if f.queue = f.queue[len(queue):]; len(f.queue) == 0 {
			f.queue = nil // Otherwise it would keep what was written.
		}
		for i := range queue {
			f.queued -= queue[i].size()
		}
	case noRoom == nil && !mayPass(err):
		f.fail(err)
	}
	f.room.Broadcast()
	return err
}

// roomFor returns why entries have to wait although they could be written: the disk was full, and a start needs what is free.
func (f *Follower) roomFor(queue []entry, level string) error {
	if len(queue) == 0 && level == "NORMAL" {
		return nil // Nothing is written.
	}
	return f.keepReserve()
}

// mayPass reports whether the same write may succeed later, such as when a disk was full.
func mayPass(err error) bool {
	var failed sqlite3.Error
	if !errors.As(err, &failed) {
		return false
	}
	switch failed.Code {
	case sqlite3.ErrFull, sqlite3.ErrIoErr, sqlite3.ErrBusy, sqlite3.ErrLocked, sqlite3.ErrNomem, sqlite3.ErrCantOpen, sqlite3.ErrReadonly:
		return true
	}
	return false
}

// entriesWait is what follows if they can't be written.
const entriesWait = "the record can't be written, so its entries wait"

func (f *Follower) append(queue []entry, level string) error {
	if err := f.sync(level); err != nil {
		return err
	}
	isAgain := f.Why() != ""
	if isAgain {
		_, _ = f.db.Exec("ROLLBACK") // A commit that failed may have left its transaction open.
	}
	err := inTransaction(f.db, func(tx *sql.Tx) error {
		rest := queue
		if isAgain {
			// A write that was reported as failed may be there all the same.
			last, _, err := lastOf(tx)
			if err != nil {
				return err
			}
			for len(rest) > 0 && rest[0].n <= last.n {
				rest = rest[1:]
			}
		}
		return insertAll(tx, rest, level)
	})
	if err == nil && len(queue) > 0 {
		f.Record.mutex.Lock()
		defer f.Record.mutex.Unlock()
		f.head = queue[len(queue)-1]
	}
	return err
}

// insertAll inserts entries with their answers. At the level FULL something is written even if there are none.
func insertAll(tx *sql.Tx, entries []entry, level string) error {
	insert, err := tx.Prepare(addEntry)
	if err != nil {
		return err
	}
	defer insert.Close()
	for i := range entries {
		if _, err := insert.Exec(entries[i].values()...); err != nil {
			return err
		}
	}
	if level == "FULL" {
		_, err = tx.Exec("UPDATE part SET why = why") // Without a write nothing would be synced.
	}
	return err
}

// Keep makes the entries up to a head durable, and reads again what was written since it was last called.
func (f *Follower) Keep(ctx context.Context, text string) error {
	head, err := ParseHead(text)
	if err != nil {
		return err
	}
	if err := f.flush("FULL"); err != nil {
		return err
	}
	if head.N < f.checked.n {
		return nil // It comes again, and was read at the start.
	}
	last, err := f.check(ctx, f.path(), f.checked, head.N, func(entry) {})
	if err == nil && (last.n != head.N || last.ch != head.Chain) {
		err = fmt.Errorf("somebody has written it: entry %d is not the one that was added: %w", head.N, errMoveAway)
	}
	if errors.Is(err, errMoveAway) {
		f.mutex.Lock()
		defer f.mutex.Unlock()
		f.fail(err)
		return f.err
	}
	if err != nil {
		return fmt.Errorf("record %s: %w", f.dir, err)
	}
	f.checked = last
	return nil
}

// Close ends the record once nothing more is added. It writes what waits, and returns why the record couldn't go on.
func (f *Follower) Close() error {
	f.stop()
	<-f.ended
	f.checking.Wait()
	if f.db == nil {
		return nil
	}
	failure := f.flush("NORMAL")
	f.logHead()
	closing := f.close()
	if failure != nil {
		return failure
	}
	return closing
}
