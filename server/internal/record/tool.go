package record

import (
	"context"
	"errors"
	"fmt"
	"io"
	"os"
	"path/filepath"
	"sort"
	"syscall"
	"time"

	"rbac-node/internal/disk"
	"rbac-node/internal/logs"
	"rbac-node/internal/office"
)

// A Tool does what commands other than serve do with the record of an office, or with that of a node of several machines, whose
// folder Data is, or with the file Part alone, which was moved away.
type Tool struct {
	Office, Data, Part, Program string
	// Out is for what is asked for, and Err for what else has to be known.
	Out, Err io.Writer
	Log      *logs.Logger
}

func (t *Tool) dir() string {
	switch {
	case t.Data != "":
		return DirIn(t.Data)
	case t.Part != "":
		return filepath.Dir(t.Part)
	}
	return DirOf(t.Office)
}

// files returns the paths of the files of the record, in the order of their entries, which stay as they are until release is called.
func (t *Tool) files(ctx context.Context) (files []string, release func(), err error) {
	if t.Part != "" {
		return []string{t.Part}, func() {}, nil
	}
	if _, err := filesOf(t.dir()); err != nil {
		return nil, nil, err
	}
	if release, err = share(ctx, t.dir()); err != nil {
		return nil, nil, err
	}
	if files, err = filesOf(t.dir()); err != nil {
		release()
	}
	return files, release, err
}

// glance is how long it is looked whether a front has the office.
const glance = 50 * time.Millisecond

// lockIfFree locks the office, unless a front has it. It returns nil then.
func (t *Tool) lockIfFree(ctx context.Context) (*os.File, error) {
	within, cancel := context.WithTimeout(ctx, glance)
	defer cancel()
	path := t.Office + ".lock"
	if t.Data != "" {
		path = filepath.Join(t.Data, "lock")
	} else if err := office.CheckRestored(t.Office); err != nil {
		return nil, err
	}
	lock, err := office.Lock(within, path)
	if errors.Is(err, os.ErrPermission) || errors.Is(err, syscall.EROFS) {
		return lockReadOnly(path)
	}
	if err != nil && within.Err() != nil && ctx.Err() == nil {
		return nil, nil
	}
	return lock, err
}

// lockReadOnly locks a file that can't be written, unless a front has it: it returns nil then. If the file isn't there, no front has
// it, and what is returned locks nothing.
func lockReadOnly(path string) (*os.File, error) {
	file, err := os.Open(path)
	if errors.Is(err, os.ErrNotExist) {
		return os.Open(os.DevNull)
	}
	if err != nil {
		return nil, fmt.Errorf("lock: %w", err)
	}
	err = syscall.Flock(int(file.Fd()), syscall.LOCK_EX|syscall.LOCK_NB)
	if err == nil {
		return file, nil
	}
	_ = file.Close()
	if errors.Is(err, syscall.EWOULDBLOCK) {
		return nil, nil
	}
	return nil, fmt.Errorf("lock: %w", err)
}

// lock locks the office, or refuses that since a front has it.
func (t *Tool) lock(ctx context.Context) (*os.File, error) {
	lock, err := t.lockIfFree(ctx)
	if err == nil && lock == nil && t.Data != "" {
		return nil, errNodeRuns
	}
	if err == nil && lock == nil {
		return nil, errFrontRuns
	}
	return lock, err
}

var errFrontRuns = errors.New("a front has the office: stop it first")

// openLocked opens the record of an office that no front has. The lock has to be closed.
func (t *Tool) openLocked(ctx context.Context) (*Record, *os.File, error) {
	if err := CheckOffice(t.Office); err != nil {
		return nil, nil, err
	}
	if _, err := filesOf(DirOf(t.Office)); err != nil {
		return nil, nil, err
	}
	lock, err := t.lock(ctx)
	if err != nil {
		return nil, nil, err
	}
	r, err := Open(ctx, t.options())
	if err != nil {
		_ = lock.Close()
		return nil, nil, err
	}
	return r, lock, nil
}

// options returns those of the record, with which nothing is logged.
func (t *Tool) options() Options {
	return Options{Office: t.Office, Program: t.Program, Every: 1, Log: logs.New(io.Discard)}
}

// filesOf returns the paths of the files of a record, in the order of their entries.
func filesOf(dir string) ([]string, error) {
	if has, err := hasRecord(dir); err != nil || !has {
		if err == nil {
			err = fmt.Errorf("there is no record %s", dir)
		}
		return nil, err
	}
	parts, _, err := partsIn(dir)
	if err != nil {
		return nil, err
	}
	return append(parts, filepath.Join(dir, fileName)), nil
}

// partsIn returns the paths of the files of earlier parts in a folder, in the order of their entries, and the other names of the file
// at hand. A crash while a part was closed leaves such a name.
func partsIn(dir string) (parts, left []string, err error) {
	about, err := os.Stat(filepath.Join(dir, fileName))
	if err != nil {
		return nil, nil, err
	}
	found, err := filepath.Glob(filepath.Join(disk.EscapeGlob(dir), partPrefix+"*.db"))
	if err != nil {
		return nil, nil, err
	}
	firsts := map[string]int64{}
	for _, path := range found {
		first, _, is := namesOf(path)
		if !is {
			continue
		}
		other, err := os.Stat(path)
		switch {
		case err != nil:
		case os.SameFile(about, other):
			left = append(left, path)
		default:
			firsts[path] = first
			parts = append(parts, path)
		}
	}
	sort.Slice(parts, func(i, j int) bool { return firsts[parts[i]] < firsts[parts[j]] })
	return parts, left, nil
}

// removeLeftNames removes the other names of the file at hand. With one of them the next cut would leave two names of one part. The
// office is locked.
func removeLeftNames(dir string) error {
	_, left, err := partsIn(dir)
	if err != nil {
		return err
	}
	for _, path := range left {
		if err := os.Remove(path); err != nil {
			return err
		}
	}
	return nil
}

// eachView does something with each file of the record as it is now, in the order of their entries.
func (t *Tool) eachView(ctx context.Context, do func(v *view) error) error {
	return t.eachFile(ctx, func(path string) error { return withView(ctx, path, do) })
}

// eachFile does something with each file of the record, in the order of their entries. They stay as they are meanwhile.
func (t *Tool) eachFile(ctx context.Context, do func(path string) error) error {
	files, release, err := t.files(ctx)
	if err != nil {
		return err
	}
	defer release()
	for _, path := range files {
		if err := do(path); err != nil {
			return err
		}
	}
	return nil
}

// eachWhole is eachView for what doesn't follow the chain: the numbers of the entries of each file have to follow one another.
func (t *Tool) eachWhole(ctx context.Context, do func(v *view) error) error {
	whole := func(v *view) error {
		if err := v.judgeWhole(ctx); err != nil {
			return err
		}
		return do(v)
	}
	return t.eachFile(ctx, func(path string) error {
		err := withView(ctx, path, whole)
		if errors.Is(err, errGap) {
			err = withView(ctx, path, whole) // Without locks somebody may have written it meanwhile.
		}
		return err
	})
}

// PrintHead prints the head.
func (t *Tool) PrintHead(ctx context.Context) error {
	files, release, err := t.files(ctx)
	if err != nil {
		return err
	}
	defer release()
	return withView(ctx, files[len(files)-1], func(v *view) error {
		if err := syncLog(v.path); err != nil {
			return err
		}
		fmt.Fprintln(t.Out, v.answered.head())
		return nil
	})
}

// withCopy does something with a mapped copy of an office, which no program has open.
func (r *Record) withCopy(ctx context.Context, file string, work func(copied, rows string) error) error {
	scratch, end, err := newScratch(r.Office, r.dir)
	if err != nil {
		return err
	}
	defer end()
	copied := filepath.Join(scratch, "office")
	if err := office.Copy(file, copied); err != nil {
		return err
	}
	rows, err := mapped(ctx, r.Program, copied)
	if err != nil {
		return err
	}
	return work(copied, rows)
}

// Cut closes the part at hand: its file gets another name, and may be moved away. The record goes on in another file.
func (t *Tool) Cut(ctx context.Context) error {
	if t.Data != "" {
		return t.cutNode(ctx)
	}
	r, lock, err := t.openLocked(ctx)
	if err != nil {
		return err
	}
	defer lock.Close()
	defer r.close()
	if err := r.Before(ctx); err != nil {
		return err
	}
	closed := ""
	err = r.withCopy(ctx, r.Office, func(copied, rows string) (err error) {
		if err := r.db.Close(); err != nil {
			return err
		}
		p := part{first: r.head.n + 1, why: continued, before: r.head.ch, rows: rows}
		if closed, err = cutAt(ctx, r.dir, p, now(), copied); err != nil {
			return err
		}
		return addBase(r.dir, copied, base{p.first, rows})
	})
	if err != nil {
		return fmt.Errorf("record: %w", err)
	}
	fmt.Fprintln(t.Out, closed)
	return nil
}
