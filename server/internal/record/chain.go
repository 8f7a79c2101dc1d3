package record

import (
	"context"
	"errors"
	"fmt"
	"os"
	"path/filepath"
	"strings"
	"time"

	"rbac-node/internal/disk"
	"rbac-node/internal/pause"
)

const (
	// placeName is the name of the file that says up to which entry the chain was verified. It saves time, and is no evidence.
	placeName = "verified"
	// A part of the chain is read at once, and after it the front rests while it runs.
	mostVerified, restVerifying = 10_000, 200 * time.Millisecond
)

// A breakError reports where the chain breaks.
type breakError struct{ n int64 }

func (e *breakError) Error() string { return fmt.Sprintf("the chain breaks at entry %d", e.n) }

var errBroken = errors.New("somebody has changed the record; keep its folder as it is, find out more by `rbac-node record verify`, and " +
	"restore office and record from a backup, or move the folder away and let `rbac-node record adopt` begin another record")

// followChain computes the links of the entries of a file after one, up to a number, and returns the last one.
func followChain(ctx context.Context, path string, last entry, to int64, each ...func(entry)) (entry, error) {
	err := withView(ctx, path, func(v *view) error {
		return follow(ctx, v.tx, &last, to, func(e *entry) error {
			for _, do := range each {
				do(*e)
			}
			return nil
		})
	})
	return last, err
}

// place returns the entry up to which the chain of the file at hand was verified, or the one before its first.
func (r *Record) place(ctx context.Context, v *view) entry {
	text, err := os.ReadFile(filepath.Join(r.dir, placeName))
	if err != nil {
		return v.begin()
	}
	head, err := ParseHead(strings.TrimSpace(string(text)))
	if link, failed := v.linkOf(ctx, head.N); err != nil || failed != nil || link != head.Chain {
		return v.begin()
	}
	return entry{n: head.N, ch: head.Chain}
}

// keepPlace writes up to which entry the chain was verified.
func (r *Record) keepPlace(last entry) error {
	return disk.Write(filepath.Join(r.dir, placeName), last.head().String()+"\n")
}

// verifyStart verifies the chain of the file at hand from the last verified place on.
func (r *Record) verifyStart(ctx context.Context) (err error) {
	var last entry
	err = withView(ctx, filepath.Join(r.dir, fileName), func(v *view) error {
		last = r.place(ctx, v)
		r.say(fmt.Sprintf("the chain of the record is verified from entry %d on", last.n+1))
		return follow(ctx, v.tx, &last, r.head.n, func(*entry) error { return nil })
	})
	if err == nil && last.head() != r.head.head() {
		err = &breakError{last.n + 1}
	}
	if err != nil {
		return withAdvice(err)
	}
	if err := r.keepPlace(last); err != nil {
		r.Log.Warn("the place up to which the chain was verified can't be written", "why", err)
	}
	return nil
}

// withAdvice says what to do after a break of the chain.
func withAdvice(err error) error {
	var broken *breakError
	if errors.As(err, &broken) {
		return fmt.Errorf("%v: %w", err, errBroken)
	}
	return err
}

// verifyAgain verifies the whole chain and the bases again and again, slowly, while the front runs.
func (r *Record) verifyAgain() {
	if r.VerifyEvery <= 0 {
		return
	}
	ticker := time.NewTicker(r.VerifyEvery)
	defer ticker.Stop()
	for {
		select {
		case <-ticker.C:
		case <-r.life.Done():
			return
		}
		last, err := r.verifyWhole(r.life)
		if err == nil {
			err = r.verifyBases(r.life)
		}
		if r.life.Err() != nil {
			return
		}
		r.noteBreak(err)
		if err != nil {
			r.Log.Error("the record can't be verified", "why", withAdvice(err))
		} else if err = r.keepPlace(last); err == nil {
			r.Log.Info("the chain of the record was verified", "entry", last.n)
		}
	}
}

// verifyWhole computes the chain of all files up to the head, and returns that entry.
func (r *Record) verifyWhole(ctx context.Context) (last entry, err error) {
	head := r.Head()
	files, err := filesOf(r.dir)
	if err != nil {
		return last, err
	}
	for _, path := range files {
		if last, err = verifyFile(ctx, path, last, head.N); err != nil {
			return last, fmt.Errorf("%s: %w", path, err)
		}
	}
	if last.n != head.N || last.ch != head.Chain {
		return last, &breakError{last.n}
	}
	return last, nil
}

// verifyFile computes the chain of a file, which comes after an entry, up to a number, and rests now and then. It returns the last entry.
func verifyFile(ctx context.Context, path string, before entry, to int64) (last entry, err error) {
	if last, err = beginOf(ctx, path); err != nil {
		return last, err
	}
	if last.n == before.n && last.ch != before.ch {
		return last, &breakError{last.n + 1}
	}
	for from := int64(-1); from < last.n; {
		from = last.n
		end := from + mostVerified
		if end > to {
			end = to
		}
		if last, err = followChain(ctx, path, last, end); err != nil {
			return last, err
		}
		if err := pause.For(ctx, restVerifying); err != nil {
			return last, err
		}
	}
	if _, named, is := namesOf(path); is && last.n != named {
		return last, &breakError{last.n + 1}
	}
	return last, nil
}

// noteBreak notes whether the chain was broken, or a base was another one, when they were last verified.
func (r *Record) noteBreak(err error) {
	var broken *breakError
	var other *baseError
	r.mutex.Lock()
	defer r.mutex.Unlock()
	r.isBroken = errors.As(err, &broken) || errors.As(err, &other)
}
