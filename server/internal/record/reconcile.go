package record

import (
	"context"
	"errors"
	"fmt"
	"os"
	"path/filepath"
	"time"

	"rbac-node/internal/faults"
	"rbac-node/internal/office"
)

// Before finds out how far the office got, while no replay has it open. After it each entry has an answer, and the entries give
// the rows of the office. If none of the possible ends does, somebody has written the office behind the record.
func (r *Record) Before(ctx context.Context) error {
	r.making.Wait()
	r.open, r.late = nil, nil // The answers are found again.
	if err := freeReserve(r.dir); err != nil {
		return err
	}
	r.hasReserve, r.triedReserve = false, time.Time{} // The next command makes it again, once a replay has opened the office.
	r.leaveSpare()
	scratch, end, err := newScratch(r.Office, r.dir)
	if err != nil {
		return fmt.Errorf("record: %w", err)
	}
	defer end()
	if err := r.reconcile(ctx, scratch); err != nil {
		return fmt.Errorf("record: %w", &copyError{err: err, scratch: scratch, office: r.Office})
	}
	r.announces.Do(func() {
		go r.announce()
		go r.verifyAgain()
	})
	return nil
}

func (r *Record) reconcile(ctx context.Context, scratch string) error {
	want, err := sumsOf(ctx, r.Program, r.Office, filepath.Join(scratch, "office"))
	if err != nil {
		return err
	}
	answered, last, err := lastOf(r.db)
	if err != nil {
		return err
	}
	if bases, err := basesIn(r.dir); err == nil && len(bases) > 0 && bases[0].n == last.n && last.n == answered.n {
		if bases[0].rows != want.Digest {
			return errDiffers
		}
		return nil
	}
	n, again, err := r.rerunFrom(ctx, scratch, answered.n)
	if err != nil {
		return err
	}
	defer again.close()
	if err := again.each(ctx, r.reporting(entriesAfter(ctx, r.db, n, answered.n), answered.n-n)); err != nil {
		return err
	}
	open, err := openEntries(ctx, r.db, answered.n)
	if err != nil {
		return err
	}
	done, err := again.fit(ctx, open, &want)
	if err != nil {
		return err
	}
	if done < 0 {
		return errDiffers
	}
	if err := r.settle(open, done); err != nil {
		return err
	}
	r.Log.Info("the record gives the rows of the office", "again", answered.n-n, "found", done, "never_done", len(open)-done)
	return nil
}

// sayingInterval is after how many commands the log says how many were done again.
const sayingInterval = 100

// reporting returns the same entries, which are count many, and reports again and again how many have been done.
func (r *Record) reporting(all entries, count int64) entries {
	done := 0
	return func(do func(e *entry) error) error {
		return all(func(e *entry) error {
			if done%sayingInterval == 0 {
				r.say(fmt.Sprintf("command %d of %d since the last copy of the office is done again", done, count))
			}
			done++
			return do(e)
		})
	}
}

// settle keeps the answers that were found. The other entries were never done, and nobody got an answer to them. They stay, so that no
// number is used twice.
func (r *Record) settle(open []entry, done int) error {
	if faults.Has(faults.Forgets) {
		done = 0
	}
	for i := range open {
		open[i].found = true
		if i >= done {
			open[i].answer = lost
		}
	}
	return r.write(open, nil)
}

// sumsOf describes the rows of an office that nobody writes meanwhile. Only one with a log is copied for that, and the copy, which has
// the names of sessions, is there only as long as it is read. If the rows can't be read, the program says why it refuses a copy.
func sumsOf(ctx context.Context, program, file, copied string) (s office.Sums, err error) {
	defer office.RemoveCopy(copied) // The folder is removed too.
	path, options := file, office.OfUnchanged
	if log, logErr := os.Stat(file + walSuffix); logErr == nil && log.Size() > 0 {
		if err := office.Copy(file, copied); err != nil {
			return s, err
		}
		path, options = copied, office.OfCopy
	}
	o, err := readRows(ctx, path, options, false)
	if err == nil {
		return o.sums(), nil
	}
	if errors.Is(err, errTwoNames) || office.Copy(file, copied) != nil {
		return s, err
	}
	if refused := office.Run(ctx, program, "check", copied); refused != nil {
		err = refused
	}
	return s, err
}

var errNoStart = errors.New("no copy of the office is what the record says that it is: restore the record from a backup")

// rerunFrom starts a rerun over the newest copy of the office that is at most as new as an entry, and returns after which entry it was
// made. A copy that has other rows than it should have is passed over.
func (r *Record) rerunFrom(ctx context.Context, scratch string, newest int64) (n int64, again *rerun, err error) {
	var p part
	if err := r.db.QueryRowContext(ctx, "SELECT first, rows FROM part ORDER BY first DESC LIMIT 1").Scan(&p.first, &p.rows); err != nil {
		return 0, nil, err
	}
	bases, err := basesIn(r.dir)
	if err != nil {
		return 0, nil, err
	}
	for _, b := range bases {
		if b.n < p.first || b.n > newest {
			continue
		}
		if o, err := readRows(ctx, filepath.Join(r.dir, b.name()), office.OfUnchanged, true); err == nil && o.sums().Digest == b.rows {
			again, err := startRerun(o)
			return b.n, again, err
		}
	}
	again, err = p.rerun(ctx, r.Program, r.db, scratch)
	return p.first, again, err
}

// rerun starts a rerun over the copy of the office with which the part begins. The program has to accept it too.
func (p *part) rerun(ctx context.Context, program string, db querier, scratch string) (*rerun, error) {
	var text []byte
	if err := db.QueryRow("SELECT office FROM part WHERE first = ?", p.first).Scan(&text); err != nil {
		return nil, err
	}
	file := filepath.Join(scratch, "part")
	if err := os.WriteFile(file, text, 0o600); err != nil {
		return nil, err
	}
	o, err := readRows(ctx, file, office.OfUnchanged, true)
	if err != nil || o.sums().Digest != p.rows || office.Run(ctx, program, "check", file) != nil {
		return nil, errNoStart
	}
	return startRerun(o)
}

// Entries call a function with entries, one after another, until it fails.
type entries func(do func(e *entry) error) error

// entriesAfter are the entries after a number, up to another one.
func entriesAfter(ctx context.Context, db querier, after, last int64) entries {
	return func(do func(e *entry) error) error {
		return eachEntry(ctx, db, "WHERE n > ? AND n <= ? ORDER BY n", []any{after, last}, do)
	}
}

// openEntries returns the entries that have no answer, which are the last ones.
func openEntries(ctx context.Context, db querier, answered int64) (open []entry, err error) {
	err = entriesAfter(ctx, db, answered, 1<<62)(func(e *entry) error {
		if n := answered + 1 + int64(len(open)); e.n != n {
			return fmt.Errorf("entry %d is missing", n)
		}
		open = append(open, *e)
		return nil
	})
	return open, err
}
