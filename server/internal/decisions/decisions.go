// Package decisions writes some of the decisions about access as lines of JSON, for whoever has to see who was allowed what.
package decisions

import (
	"errors"
	"fmt"
	"io"
	"math/rand"
	"os"
	"path/filepath"
	"syscall"
	"time"

	"github.com/prometheus/client_golang/prometheus"
	"github.com/prometheus/client_golang/prometheus/promauto"

	"rbac-node/internal/api"
	"rbac-node/internal/disk"
	"rbac-node/internal/logs"
	"rbac-node/internal/state"
)

// mostWaiting is how many decisions may wait to be written. Others are only counted.
const mostWaiting = 4096

// A Log gets decisions, and writes a share of them. Whoever asks doesn't wait for that.
type Log struct {
	share float64
	out   *logs.Logger
	// file is nil if the lines are among those of another log, and other is that log.
	file      *reopened
	other     *logs.Logger
	isFailing bool
	waiting   chan entry
	lost      prometheus.Counter
	ends      chan struct{}
	ended     chan struct{}
}

// An entry is a decision, and when it was made.
type entry struct {
	api.Decision
	at time.Time
}

// New returns a log of a share of all decisions, from 0 to 1: in a file, or among the lines of another log if none is named.
func New(share float64, file string, other *logs.Logger, registry prometheus.Registerer) (*Log, error) {
	l := &Log{
		share: share, out: other, other: other,
		waiting: make(chan entry, mostWaiting), ends: make(chan struct{}), ended: make(chan struct{}),
	}
	if file != "" {
		l.file = &reopened{path: file}
		if err := l.file.open(); err != nil {
			return nil, fmt.Errorf("log of decisions: %w", err)
		}
		l.out = logs.New(l.file)
	}
	l.lost = promauto.With(registry).NewCounter(prometheus.CounterOpts{
		Name: "rbac_node_decisions_unlogged_total", Help: "Decisions that were to be logged, and were too many at once or could not be written.",
	})
	go l.run()
	return l, nil
}

// Note writes a decision if it is one of those that are written. It doesn't wait.
func (l *Log) Note(d api.Decision) {
	if l.share < 1 && rand.Float64() >= l.share {
		return
	}
	select {
	case l.waiting <- entry{d, time.Now()}:
	default:
		l.lost.Inc()
	}
}

// Close writes what waits, and ends the log.
func (l *Log) Close() {
	close(l.ends)
	<-l.ended
}

func (l *Log) run() {
	defer close(l.ended)
	for {
		select {
		case one := <-l.waiting:
			l.write(one)
		case <-l.ends:
			for len(l.waiting) > 0 {
				l.write(<-l.waiting)
			}
			return
		}
	}
}

// write writes a decision. Whoever knows the name of a session can use it, so it is a digest, as in the record.
func (l *Log) write(one entry) {
	said := "denied"
	if one.IsAllowed {
		said = "allowed"
	}
	fields := []any{"decision", said, "at", one.at.UTC().Format("2006-01-02T15:04:05.000000Z"), "caller", one.Caller}
	if one.User != "" {
		fields = append(fields, "user", one.User)
	} else {
		fields = append(fields, "session", state.DigestOf(one.Session))
	}
	fields = append(fields, "operation", one.Operation, "object", one.Object)
	if one.Code != 0 {
		fields = append(fields, "code", one.Code, "error", one.Name)
	}
	l.out.Info("decision", fields...)
	l.judge()
}

// judge counts a decision that couldn't be written. The other log says when that begins, and when it ends.
func (l *Log) judge() {
	if l.file == nil {
		return
	}
	failing := l.file.err != nil
	if failing {
		l.lost.Inc()
	}
	switch {
	case failing && !l.isFailing:
		l.other.Error("decisions can't be logged", "why", l.file.err)
	case l.isFailing && !failing:
		l.other.Info("decisions are logged again")
	}
	l.isFailing = failing
}

// glance is how often it is looked whether a file has been moved away.
const glance = time.Second

// errShort says why nothing is written to a disk that still has some room.
var errShort = errors.New("the disk has only the room that a start of the office needs")

// A reopened file is opened again once another program has moved it away, as logrotate does.
type reopened struct {
	path   string
	file   *os.File
	looked time.Time
	// isShort says that the disk has no room for decisions, and isTorn that the file ends with a part of a line.
	isShort, isTorn bool
	// err says why the last line isn't there.
	err error
}

// open opens the file, unless it is a link.
func (r *reopened) open() error {
	file, err := os.OpenFile(r.path, os.O_WRONLY|os.O_CREATE|os.O_APPEND|syscall.O_NOFOLLOW, 0o600)
	if err != nil {
		return err
	}
	if r.file != nil {
		_ = r.file.Close() // What was written is with the system.
	}
	r.file, r.looked, r.isTorn = file, time.Now(), false
	r.isShort = disk.IsShort(filepath.Dir(r.path))
	return nil
}

// Write implements io.Writer.
func (r *reopened) Write(text []byte) (int, error) {
	if time.Since(r.looked) > glance {
		r.looked, r.isShort = time.Now(), disk.IsShort(filepath.Dir(r.path))
		here, err := os.Lstat(r.path)
		own, ownErr := r.file.Stat()
		if err != nil || ownErr != nil || !os.SameFile(here, own) {
			_ = r.open() // If that fails, the file that was moved gets the line.
		}
	}
	if r.isShort {
		r.err = errShort
		return 0, r.err
	}
	if r.isTorn {
		text = append([]byte{'\n'}, text...)
	}
	size, err := r.file.Write(text)
	r.isTorn, r.err = err != nil && (size > 0 || r.isTorn), err
	return size, err
}

var _ io.Writer = &reopened{}
