package record

import (
	"context"
	"errors"
	"fmt"
	"path/filepath"
)

// openAt opens the record, which has to have a head, and expects that the entries after it come again. What is before the head was read
// when the snapshot was made that has it. It is read again while the node goes on, so that a start takes no longer with a long record.
func (f *Follower) openAt(ctx context.Context, head Head) error {
	if err := f.load(); err != nil {
		return err
	}
	files, err := filesOf(f.dir)
	if err != nil {
		return err
	}
	// An older snapshot may be that of an earlier part.
	i, err := fileOf(ctx, files, head.N)
	if err != nil {
		return err
	}
	last := entry{n: head.N, ch: head.Chain}
	if err := has(ctx, files[i], head); err != nil {
		return err
	}
	f.checked = last
	for at := last; i < len(files); i++ {
		if at, err = f.check(ctx, files[i], at, 1<<62, func(e entry) { f.known = append(f.known, e.ch) }); err != nil {
			return err
		}
		if i < len(files)-1 {
			f.checked = at
		}
	}
	f.added = last
	f.begun = head.N > 0
	f.checking.Add(2)
	go f.checkEarlier(f.checked)
	go f.tidyLater()
	return nil
}

func (f *Follower) path() string { return filepath.Join(f.dir, fileName) }

// checkEarlier reads the file up to an entry, and ends the node if somebody has written it.
func (f *Follower) checkEarlier(to entry) {
	defer f.checking.Done()
	var begin entry
	release, err := share(f.life, f.dir)
	if err == nil {
		defer release()
		begin, err = beginOf(f.life, f.path())
	}
	if err == nil && begin.n < to.n {
		begin, err = f.check(f.life, f.path(), begin, to.n, func(entry) {})
	}
	if err == nil && begin.ch != to.ch {
		err = fmt.Errorf("entry %d is not the one that the snapshot has: %w", to.n, errMoveAway)
	}
	switch {
	case f.life.Err() != nil:
	case errors.Is(err, errMoveAway):
		f.mutex.Lock()
		defer f.mutex.Unlock()
		f.fail(err)
	case err != nil:
		f.Log.Error("the earlier entries of the record can't be read", "why", err)
	}
}

// has refuses a file that doesn't have an entry with this link, if something else is before its first one.
func has(ctx context.Context, path string, wanted Head) error {
	return withView(ctx, path, func(v *view) error {
		if last := v.answered.n; last < wanted.N && v.begin().n < wanted.N {
			return fmt.Errorf("it ends at entry %d, and the snapshot has entry %d: %w", last, wanted.N, errMoveAway)
		}
		link, err := v.linkOf(ctx, wanted.N)
		if err == nil && link != wanted.Chain {
			err = fmt.Errorf("entry %d is not the one that the snapshot has: %w", wanted.N, errMoveAway)
		}
		return err
	})
}

// check reads the entries of a file after one, up to a number, and reports whether the chain holds. It returns the last one.
func (f *Follower) check(ctx context.Context, path string, last entry, to int64, each func(entry)) (entry, error) {
	last, err := followChain(ctx, path, last, to, each)
	var broken *breakError
	if errors.As(err, &broken) {
		err = fmt.Errorf("%v: %w", err, errMoveAway)
	}
	return last, err
}
