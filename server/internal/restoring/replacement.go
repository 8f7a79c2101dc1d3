package restoring

import (
	"encoding/json"
	"errors"
	"fmt"
	"os"
	"path/filepath"
	"strings"
	"syscall"
	"unicode"

	"rbac-node/internal/disk"
	"rbac-node/internal/office"
)

const recordSuffix = ".record"

// A replacement puts what was prepared in a folder beside an office in place of the office.
type replacement struct{ office string }

// A plan says what is put in place. As long as it is there, the replacement isn't finished.
type plan struct {
	// Backup is what is restored, Before the folder for what was there before, and Done what was done to the copy.
	Backup, Before, Done string
	// HasRecord says that a record was prepared too.
	HasRecord bool
}

// folder returns the folder in which all is prepared.
func (r replacement) folder() string { return r.office + office.RestoringSuffix }

func (r replacement) in(name string) string { return filepath.Join(r.folder(), name) }

func (r replacement) planPath() string { return office.PlanOf(r.office) }

// judge refuses an office that another program has open, and what can't be moved away.
func (r replacement) judge() error {
	for _, path := range []string{r.office, r.office + walSuffix, r.office + recordSuffix} {
		about, err := os.Lstat(path)
		if errors.Is(err, os.ErrNotExist) {
			continue
		}
		if err != nil {
			return err
		}
		if about.IsDir() != (path == r.office+recordSuffix) || !about.IsDir() && !about.Mode().IsRegular() {
			return fmt.Errorf("%s is a link or no file: give --office the file itself", path)
		}
		if is, err := isLocked(path); err != nil || is {
			if err == nil {
				err = fmt.Errorf("%s: another program has the office open: stop it first", path)
			}
			return err
		}
	}
	return nil
}

// isLocked reports whether a program has a lock of SQLite on a file.
func isLocked(path string) (bool, error) {
	file, err := os.Open(path)
	if err != nil {
		return false, err
	}
	defer file.Close()
	lock := syscall.Flock_t{Type: syscall.F_WRLCK}
	if about, err := file.Stat(); err != nil || about.IsDir() {
		return false, err
	}
	if err := syscall.FcntlFlock(file.Fd(), syscall.F_GETLK, &lock); err != nil {
		return false, err
	}
	return lock.Type != syscall.F_UNLCK, nil
}

// isNeeded reports whether something is there.
func (r replacement) isNeeded() (bool, error) {
	for _, path := range []string{r.office, r.office + walSuffix, r.office + recordSuffix} {
		if has, err := exists(path); err != nil || has {
			return has, err
		}
	}
	return false, nil
}

// plan returns the plan of an earlier command that was interrupted, or nil.
func (r replacement) plan() (*plan, error) {
	text, err := os.ReadFile(r.planPath())
	if errors.Is(err, os.ErrNotExist) {
		return nil, nil
	}
	if err != nil {
		return nil, err
	}
	p := &plan{}
	if err := json.Unmarshal(text, p); err != nil {
		return nil, fmt.Errorf("%s: %w", r.planPath(), err)
	}
	// Whoever may write the folder of the office may write a plan, which root carries out and prints.
	if !strings.HasPrefix(p.Before, r.before()) || strings.Contains(p.Before[len(r.before()):], "/") ||
		strings.IndexFunc(p.Backup+p.Before+strings.ReplaceAll(p.Done, "\n", ""), unicode.IsControl) >= 0 {
		return nil, fmt.Errorf("%s: no restore has written this: look who has, and move the folder away", r.planPath())
	}
	return p, nil
}

// before returns how the folder for what was there before begins.
func (r replacement) before() string { return r.office + ".before-" }

// write makes durable all that was prepared, and then the plan.
func (r replacement) write(p plan) error {
	if is, err := exists(r.in(officeName + walSuffix)); err != nil || is {
		if err == nil {
			err = errors.New("the log of the copy wasn't merged")
		}
		return err
	}
	text, err := json.Marshal(p)
	if err != nil {
		return err
	}
	if err = disk.SyncAll(r.folder()); err == nil {
		err = disk.Sync(filepath.Dir(r.office))
	}
	if err != nil {
		return err
	}
	return disk.Write(r.planPath(), string(text))
}

// finish does what a plan says, as far as it wasn't done before.
func (r replacement) finish(p plan) error {
	isOffice, err := exists(r.in(officeName))
	if err != nil {
		return err
	}
	if isOffice { // What is at the place of the office is the earlier one.
		for _, path := range []string{r.office, r.office + walSuffix} {
			if err := p.keep(path, os.Link); err != nil {
				return err
			}
		}
	}
	if err := r.putRecord(p); err != nil {
		return err
	}
	if isOffice {
		if err := r.putOffice(); err != nil {
			return err
		}
	}
	if err := disk.Sync(filepath.Dir(r.office)); err != nil {
		return err
	}
	return os.RemoveAll(r.folder())
}

// putRecord moves the earlier record away, if it is still there, and puts the one that was prepared in its place.
func (r replacement) putRecord(p plan) error {
	isRecord, err := exists(r.in(recordName))
	if err != nil {
		return err
	}
	if isRecord || !p.HasRecord {
		if err := p.keep(r.office+recordSuffix, os.Rename); err != nil {
			return err
		}
	}
	if !isRecord {
		return nil
	}
	return os.Rename(r.in(recordName), r.office+recordSuffix)
}

// putOffice puts the office that was prepared in place of the earlier one, whose log has another name by now.
func (r replacement) putOffice() error {
	if err := os.Remove(r.office + walSuffix); err != nil && !errors.Is(err, os.ErrNotExist) {
		return err
	}
	if err := disk.Sync(filepath.Dir(r.office)); err != nil {
		return err
	}
	return os.Rename(r.in(officeName), r.office)
}

// keep gives what is at a path a name in the folder for what was there before, by a link or by a move.
func (p *plan) keep(path string, by func(from, to string) error) error {
	about, err := os.Lstat(path)
	if errors.Is(err, os.ErrNotExist) {
		return nil
	}
	if err != nil {
		return err
	}
	if err := os.Mkdir(p.Before, 0o700); err != nil && !errors.Is(err, os.ErrExist) {
		return err
	}
	to := filepath.Join(p.Before, filepath.Base(path))
	switch kept, err := os.Lstat(to); {
	case errors.Is(err, os.ErrNotExist):
		err = by(path, to)
		if err == nil {
			err = disk.Sync(p.Before)
		}
		return err
	case err != nil:
		return err
	case !os.SameFile(kept, about):
		return fmt.Errorf("%s and %s are there: somebody has begun another office meanwhile; move one of them away", path, to)
	}
	return nil
}

func exists(path string) (bool, error) {
	_, err := os.Lstat(path)
	if errors.Is(err, os.ErrNotExist) {
		return false, nil
	}
	return err == nil, err
}
