// Package record keeps who asked an office for which command, when and why, and what the office answered.
//
// It is a file of SQLite in a folder beside the office. On one machine a command is in it, synced, before the replay gets the command;
// its answer is in it before whoever asks gets the answer. So after a crash the office is what the commands with an answer give,
// followed by some of those without one: reconcile.go finds out which. On several machines the log has the commands, and an entry is
// written after the answer: follow.go says when it is synced. Each entry has a digest of itself and of all before it: the chain.
package record

import (
	"context"
	"database/sql"
	"errors"
	"fmt"
	"os"
	"path/filepath"
	"strings"
	"sync"
	"time"

	"github.com/prometheus/client_golang/prometheus"

	"rbac-node/internal/feed"
	"rbac-node/internal/logs"
	"rbac-node/internal/office"
)

const (
	// FolderSuffix is added to the path of an office for the folder of its record.
	FolderSuffix = ".record"
	fileName     = "record.db"
	// Front is the caller of what the front does by itself.
	Front = "front"
	// announcing is how often the head is logged.
	announcing = time.Minute
	// busy is how long SQLite waits for another program that reads or writes the record, in milliseconds.
	busy = "5000"
	// closeTimeout is how long base copies may take while the record is closed.
	closeTimeout = 5 * time.Second
)

// Options are what a record needs.
type Options struct {
	// Office is the file of the office, and Program the proved program. Dir is the folder of the record, which is beside the office if
	// nothing else is said.
	Office, Program, Dir string
	// Every is how many commands there are between two base copies.
	Every int64
	// PartEntries is from how many entries on a node divides its record at a snapshot. Zero is never.
	PartEntries int64
	// VerifyEvery is after how much time the whole chain is verified again while the front runs. Zero is never.
	VerifyEvery time.Duration
	Log         *logs.Logger
	Metrics     prometheus.Registerer
	// Say is called with what a start does. It may be nil.
	Say func(stage string)
}

// A Record is that of an office which a front has open. Keep, IsDue and Rest are for the goroutine of a feed's keeper.
type Record struct {
	Options
	dir            string
	db             *sql.DB
	insert, answer *sql.Stmt
	level          string
	// keepsReserve says that room is kept on the disk, hasReserve that it is there, and triedReserve when that was last tried.
	keepsReserve, hasReserve bool
	triedReserve             time.Time
	// besides is how many bytes have to be free when it is made, and spare how many have to be left then for the next command.
	besides, spare int64
	// open has the entries that the replay has got and not answered, and late those whose answers couldn't be kept yet.
	open, late []entry

	mutex sync.Mutex // for what follows
	// head is the last entry with an answer. durable is the head that was last synced, and announced the one that was last logged.
	head               entry
	durable, announced Head
	headGauge          *prometheus.GaugeVec
	// based is the entry of the newest base, or the one at which making one was last tried. isMaking says that one is being made.
	based    int64
	isMaking bool
	making   sync.WaitGroup
	// failing says why nothing can be kept, or is empty. isBroken says that the chain or a base was wrong when they were last verified.
	failing  string
	isBroken bool
	stop     context.CancelFunc
	life     context.Context
	// announces starts the announcements of the head, once it is known that the office is what the record gives.
	announces sync.Once
}

// DirOf returns the folder of the record of an office.
func DirOf(office string) string { return office + FolderSuffix }

// errors of a start, each of which is one line.
var (
	errNoOffice = errors.New("there is a record, but no office: restore the office with its record, or move the record away")
	errNoFile   = errors.New("it has base copies or earlier parts, but no record.db: restore it, or move the folder away")
	errDiffers  = errors.New("the office is not what the record gives: somebody has written one of them; restore both from a backup, " +
		"or let `rbac-node record adopt` begin anew over the office as it is")
)

// hasRecord reports whether there is a record in a folder, or a part of one.
func hasRecord(dir string) (bool, error) {
	if _, err := os.Stat(filepath.Join(dir, fileName)); err == nil {
		return true, refuseJournals(dir)
	}
	files, err := os.ReadDir(dir)
	if errors.Is(err, os.ErrNotExist) {
		return false, nil
	}
	if err != nil {
		return false, fmt.Errorf("record: %w", err)
	}
	for _, file := range files {
		name := file.Name()
		if strings.HasPrefix(name, basePrefix) || strings.HasPrefix(name, partPrefix) {
			return true, fmt.Errorf("record %s: %w", dir, errNoFile)
		}
	}
	return false, nil
}

// CheckOffice refuses a record without its office, or with an empty one.
func CheckOffice(office string) error {
	has, err := hasRecord(DirOf(office))
	if err != nil || !has {
		return err
	}
	about, err := os.Stat(office)
	if errors.Is(err, os.ErrNotExist) || err == nil && about.Mode().IsRegular() && about.Size() == 0 {
		err = fmt.Errorf("office %s: %w", office, errNoOffice)
	}
	if err != nil {
		return err
	}
	return refuseJournal(office)
}

func (r *Record) say(stage string) {
	if r.Say != nil {
		r.Say(stage)
	}
}

// newRecord returns a record that isn't open yet, and removes what a crash has left of copies.
func newRecord(options Options) *Record {
	r := &Record{Options: options, dir: options.Dir, headGauge: prometheus.NewGaugeVec(prometheus.GaugeOpts{
		Name: "rbac_node_record_head", Help: "The head of the record that was last logged: the number of its entry, and the link as a label.",
	}, []string{"chain"})}
	if r.dir == "" {
		r.dir = DirOf(options.Office)
	}
	r.life, r.stop = context.WithCancel(context.Background())
	scratchOf(r.Office, r.dir).RemoveLeft()
	return r
}

// Open opens the record of an office that no program has open, and begins one if there is none.
func Open(ctx context.Context, options Options) (*Record, error) {
	r := newRecord(options)
	r.keepsReserve = true
	has, err := hasRecord(r.dir)
	switch {
	case err != nil:
	case has:
		err = removeLeftNames(r.dir)
	default:
		err = r.begin(ctx)
	}
	if err == nil {
		err = r.load()
	}
	if err == nil {
		err = r.verifyStart(ctx)
	}
	if err != nil {
		r.close()
		return nil, fmt.Errorf("record: %w", err)
	}
	r.addMetrics()
	return r, nil
}

var errNoRecord = errors.New("the office has commands, and no record: restore both from one backup; if it never had one, let " +
	"`rbac-node record adopt` begin it")

// begin makes a record that begins with the office as it is, which has no command. After a crash there is a whole record or none.
func (r *Record) begin(ctx context.Context) error {
	r.say("the office is copied, since its record begins")
	return r.beginWith(ctx, part{first: 1, why: beginning}, now(), func(hasCommands bool) error {
		if hasCommands {
			return errNoRecord
		}
		return nil
	})
}

// beginWith makes a file that begins with the office as it is, unless that is refused, which may depend on whether the office has rows that
// commands have made. One that says how it begins has a base copy too.
func (r *Record) beginWith(ctx context.Context, p part, at string, refuse func(hasCommands bool) error) error {
	if err := os.Mkdir(r.dir, 0o700); err != nil && !errors.Is(err, os.ErrExist) {
		return err
	}
	err := r.withCopy(ctx, r.Office, func(copied, rows string) error {
		o, err := readRows(ctx, copied, office.OfCopy, true)
		if err == nil {
			err = refuse(len(o.rows) > 0)
		}
		if err != nil {
			return err
		}
		p.rows = rows
		if err := makeFile(r.dir, p, at, copied); err != nil || p.why == joined {
			return err
		}
		return addBase(r.dir, copied, base{p.first, rows})
	})
	if err != nil {
		_ = os.Remove(r.dir) // It may have something.
	}
	return err
}

// load opens the file and reads where it ends.
func (r *Record) load() (err error) {
	path := filepath.Join(r.dir, fileName)
	// Who may read the office may read the record.
	if err := os.Chmod(path, 0o600); err != nil {
		return err
	}
	if r.db, err = openFile(path, "_txlock=immediate&_busy_timeout="+busy); err != nil {
		return err
	}
	if err := judgeVersion(r.db); err != nil {
		return err
	}
	if _, err := r.db.Exec("PRAGMA journal_mode = WAL"); err != nil {
		return err
	}
	if err := r.sync("FULL"); err != nil {
		return err
	}
	if r.insert, err = r.db.Prepare("INSERT INTO entry (n, at, caller, reason, request) VALUES (?, ?, ?, ?, ?)"); err != nil {
		return err
	}
	if r.answer, err = r.db.Prepare("UPDATE entry SET answer = ?, found = ?, chain = ?, request = ? WHERE n = ?"); err != nil {
		return err
	}
	bases, err := basesIn(r.dir)
	if err != nil {
		return err
	}
	if len(bases) > 0 {
		r.based = bases[0].n
	}
	head, _, err := lastOf(r.db)
	r.mutex.Lock()
	defer r.mutex.Unlock()
	r.head = head
	return err
}

// sync sets how much of a transaction is synced: all of it at FULL, and nothing before the log is merged at NORMAL.
func (r *Record) sync(level string) error {
	if level == r.level {
		return nil
	}
	if _, err := r.db.Exec("PRAGMA synchronous = " + level); err != nil {
		return err
	}
	r.level = level
	return nil
}

// Keep implements feed.Keeper.
func (r *Record) Keep(answered, asked []*feed.Unit) error {
	for _, u := range answered {
		for _, i := range u.Commands() {
			e := r.open[0] // Answers come in order.
			r.open, e.answer = r.open[1:], string(u.Answers[i])
			if e.isReview() {
				e.answer = accepted // What the replay has answered was only about its place in the order.
			}
			r.late = append(r.late, e)
		}
	}
	next := r.entriesOf(asked)
	if len(r.late)+len(next) == 0 {
		return nil // Nothing is written, which doesn't show that something could be.
	}
	var err error
	if len(next) > 0 {
		err = r.keepReserve()
	}
	if err == nil {
		err = r.write(r.late, next)
	}
	r.note(err, "commands are refused, since the record can't be written")
	if err != nil {
		return err
	}
	r.late = nil
	r.open = append(r.open, next...)
	return nil
}

// entriesOf returns the entries of units that have been asked.
func (r *Record) entriesOf(asked []*feed.Unit) (next []entry) {
	n, at := r.Head().N+int64(len(r.late)+len(r.open)), now()
	for _, u := range asked {
		for _, i := range u.Commands() {
			call := u.Calls[i]
			n++
			u.Numbers = append(u.Numbers, n)
			next = append(next, entry{n: n, at: at, caller: call.Caller, reason: call.Reason, request: string(u.Recorded[i])})
		}
	}
	return next
}

// write adds answers with their links, and entries without an answer. Only the latter have to be synced: after a crash the answers
// can be found again.
func (r *Record) write(answered, asked []entry) error {
	level := "FULL"
	if len(asked) == 0 {
		level = "NORMAL"
	}
	if len(answered)+len(asked) == 0 {
		return nil
	}
	if err := r.sync(level); err != nil {
		return err
	}
	tx, err := r.db.Begin()
	if err != nil {
		return err
	}
	defer func() { _ = tx.Rollback() }() // After a commit it does nothing.
	r.mutex.Lock()
	head := r.head
	r.mutex.Unlock()
	answer, insert := tx.Stmt(r.answer), tx.Stmt(r.insert)
	for _, e := range answered {
		if e.n != head.n+1 {
			return fmt.Errorf("the answer to entry %d came after that to %d", e.n, head.n)
		}
		e.bound()
		e.ch = chained(head.ch, &e)
		if _, err := answer.Exec(e.answer, e.found, e.ch, e.request, e.n); err != nil {
			return err
		}
		head = e
	}
	for _, e := range asked {
		if _, err := insert.Exec(e.n, e.at, e.caller, e.reason, e.request); err != nil {
			return err
		}
	}
	if err := tx.Commit(); err != nil {
		return err
	}
	r.mutex.Lock()
	r.head = head
	r.mutex.Unlock()
	return nil
}

// note notes whether entries can be written, and logs when that changes: what follows if they can't.
func (r *Record) note(err error, follows string) {
	r.mutex.Lock()
	defer r.mutex.Unlock()
	switch {
	case err != nil && r.failing == "":
		r.Log.Error(follows, "why", err)
	case err == nil && r.failing != "":
		r.Log.Info("the record can be written again")
	}
	if r.failing = ""; err != nil {
		r.failing = err.Error()
	}
}

// Why returns why no command is recorded now, or an empty text.
func (r *Record) Why() string {
	r.mutex.Lock()
	defer r.mutex.Unlock()
	return r.failing
}

// IsDue implements feed.Keeper.
func (r *Record) IsDue() bool {
	r.mutex.Lock()
	defer r.mutex.Unlock()
	return !r.isMaking && r.head.n-r.based >= r.Every && len(r.late) == 0
}

// Rest implements feed.Keeper. No command is at the replay, so the office doesn't change while it is copied. The rest is done
// while commands go on.
func (r *Record) Rest() {
	scratch, end, err := newScratch(r.Office, r.dir)
	if err == nil {
		err = office.Copy(r.Office, filepath.Join(scratch, "office"))
	}
	r.mutex.Lock()
	r.based, r.isMaking = r.head.n, true
	n := r.based
	r.mutex.Unlock()
	r.making.Add(1)
	go func() {
		defer r.making.Done()
		defer end()
		if err == nil {
			err = r.makeBase(r.life, scratch, n)
		}
		if err != nil {
			r.Log.Error("no base copy of the office was made", "why", err)
		}
		r.mutex.Lock()
		defer r.mutex.Unlock()
		r.isMaking = false
	}()
}

// makeBase makes the copy of the office in a scratch folder a base.
func (r *Record) makeBase(ctx context.Context, scratch string, n int64) error {
	copied := filepath.Join(scratch, "office")
	rows, err := mapped(ctx, r.Program, copied)
	if err == nil {
		err = r.addBase(copied, rows, n)
	}
	return err
}

// addBase makes a mapped copy of the office a base.
func (r *Record) addBase(copied, rows string, n int64) error {
	err := addBase(r.dir, copied, base{n, rows})
	if err == nil {
		r.Log.Info("a base copy of the office was made", "entry", n)
	}
	return err
}

// Close ends the record. If the replay has ended in order, and there is time, it leaves a base copy, so that the next start has nothing to do
// again.
func (r *Record) Close(isInOrder bool) error {
	defer time.AfterFunc(closeTimeout, r.stop).Stop()
	r.making.Wait()
	err := r.write(r.late, nil)
	if isInOrder && err == nil && len(r.open) == 0 && r.head.n > r.newestBase() {
		err = r.withCopy(r.life, r.Office, func(copied, rows string) error { return r.addBase(copied, rows, r.head.n) })
		if err != nil && r.life.Err() != nil {
			r.Log.Info("there was no time for a base copy of the office: the next start does the last commands again", "why", err)
			err = nil
		}
	}
	// After a start that was refused nothing is said about the head.
	r.announces.Do(func() {
		r.mutex.Lock()
		defer r.mutex.Unlock()
		r.announced = r.head.head()
	})
	r.logHead()
	if closing := r.close(); err == nil {
		err = closing
	}
	if err != nil {
		return fmt.Errorf("record: %w", err)
	}
	return nil
}

func (r *Record) newestBase() int64 {
	if bases, err := basesIn(r.dir); err == nil && len(bases) > 0 {
		return bases[0].n
	}
	return 0
}

func (r *Record) close() error {
	r.stop()
	if r.db == nil {
		return nil
	}
	return r.db.Close()
}
