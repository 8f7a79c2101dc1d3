package record

import (
	"context"
	"fmt"
	"os"
	"path/filepath"
	"sort"
	"strings"

	"rbac-node/internal/disk"
	"rbac-node/internal/office"
	"rbac-node/internal/pause"
)

const (
	basePrefix = "base-"
	makingName = "making"
	// mostBases is how many bases are kept.
	mostBases = 2
)

// A base is a copy of the office after the entry n, in which sessions have the digests of their names. Its name has the digest of
// its rows.
type base struct {
	n    int64
	rows string
}

func (b base) name() string { return fmt.Sprintf("%s%d-%s", basePrefix, b.n, b.rows) }

// basesIn returns the bases in a folder, the newest first.
func basesIn(dir string) ([]base, error) {
	files, err := os.ReadDir(dir)
	if err != nil {
		return nil, fmt.Errorf("base copies: %w", err)
	}
	var found []base
	for _, file := range files {
		var b base
		name := strings.Replace(strings.TrimPrefix(file.Name(), basePrefix), "-", " ", 1)
		if _, err := fmt.Sscanf(name, "%d %s", &b.n, &b.rows); err == nil && b.name() == file.Name() {
			found = append(found, b)
		}
	}
	sort.Slice(found, func(i, j int) bool { return found[i].n > found[j].n })
	return found, nil
}

// mapped maps the sessions of a copy of an office, merges its log, and returns the digest of its rows. The program accepts the file
// before and after that.
func mapped(ctx context.Context, program, path string) (rows string, err error) {
	if err := office.Run(ctx, program, "check", path); err != nil {
		return "", err
	}
	db, err := openFile(path, ofCopy)
	if err != nil {
		return "", err
	}
	if err := disk.Close(db, mapSessions(ctx, db)); err != nil {
		return "", err
	}
	o, err := readRows(ctx, path, office.OfCopy, true)
	if err != nil {
		return "", err
	}
	return o.sums().Digest, office.Run(ctx, program, "check", path)
}

// A baseError reports a base that isn't what the entries up to it give.
type baseError struct{ base base }

func (e *baseError) Error() string {
	return fmt.Sprintf("the base copy %s is not what the record gives at entry %d: delete it, and compare the office", e.base.name(), e.base.n)
}

// verifyBases does the commands of the part at hand again, slowly, and compares the bases: a start trusts them, and no entry has their
// digests.
func (r *Record) verifyBases(ctx context.Context) error {
	bases, err := basesIn(r.dir)
	if err != nil || len(bases) == 0 {
		return err
	}
	scratch, end, err := newScratch(r.Office, r.dir)
	if err != nil {
		return err
	}
	defer end()
	path := filepath.Join(r.dir, fileName)
	var p part
	var again *rerun
	err = withView(ctx, path, func(v *view) (err error) {
		p = v.parts[len(v.parts)-1]
		again, err = p.rerun(ctx, r.Program, v.tx, scratch)
		return err
	})
	if err != nil {
		return err
	}
	defer again.close()
	at := p.first
	for i := len(bases) - 1; i >= 0; i-- {
		if bases[i].n < p.first {
			continue
		}
		if err := again.slowly(ctx, path, at, bases[i].n); err != nil {
			return err
		}
		at = bases[i].n
		if given, err := again.sums(); err != nil || given.Digest != bases[i].rows {
			return &baseError{bases[i]}
		}
	}
	return nil
}

// slowly does the entries of a file after one, up to another one, and rests now and then.
func (r *rerun) slowly(ctx context.Context, path string, after, last int64) error {
	for after < last {
		to := after + mostVerified
		if to > last {
			to = last
		}
		err := withView(ctx, path, func(v *view) error { return r.each(ctx, entriesAfter(ctx, v.tx, after, to)) })
		if err == nil {
			err = pause.For(ctx, restVerifying)
		}
		if err != nil {
			return err
		}
		after = to
	}
	return nil
}

// addBase makes a mapped copy of the office after the entry n a base, and deletes the oldest ones.
func addBase(dir, copied string, b base) error {
	making := filepath.Join(dir, makingName)
	err := disk.Copy(copied, making)
	if err == nil {
		err = disk.Sync(making)
	}
	if err == nil {
		err = os.Rename(making, filepath.Join(dir, b.name()))
	}
	if err == nil {
		err = disk.Sync(dir)
	}
	if err != nil {
		return fmt.Errorf("base copy: %w", err)
	}
	found, err := basesIn(dir)
	for i := mostBases; err == nil && i < len(found); i++ {
		err = os.Remove(filepath.Join(dir, found[i].name()))
	}
	return err
}

const walSuffix, journalSuffix = "-wal", "-journal"

func scratchOf(file, dir string) office.Scratch { return office.ScratchOf("record", file, dir) }

// newScratch returns a new empty folder for copies of an office, and what ends its use.
func newScratch(file, dir string) (path string, end func(), err error) {
	size := int64(0)
	for _, one := range []string{file, file + walSuffix} {
		if about, err := os.Stat(one); err == nil {
			size += about.Size()
		}
	}
	return scratchOf(file, dir).New(size)
}

// A copyError is an error over a copy of an office. It names the office and not the copy, whose path is another one each time: the log
// has one line for all errors of the same text.
type copyError struct {
	err             error
	scratch, office string
}

func (e *copyError) Error() string {
	return strings.NewReplacer(filepath.Join(e.scratch, "office"), e.office, e.scratch, "a copy").Replace(e.err.Error())
}

func (e *copyError) Unwrap() error { return e.err }
