// Package office runs the proved program, and keeps offices in files.
package office

import (
	"bufio"
	"bytes"
	"errors"
	"fmt"
	"io"
	"os"
	"os/exec"
	"runtime"
	"sync/atomic"
	"syscall"
	"time"
)

const (
	// maxWaitingLines is how many lines may wait for their answers.
	maxWaitingLines = 8192
	// chunk is the fewest bytes that one read of a full pipe returns.
	chunk = 4096
	// hangChecks is how often a replay is looked at before it is said to hang. A process that was paused itself notices
	// nothing of the time, so it counts.
	hangChecks = 5
)

// A Replay is one run of `rbac replay FILE`. Lines are written without waiting for answers, which come in the same
// order. One goroutine may call its methods.
type Replay struct {
	command *exec.Cmd
	input   io.WriteCloser
	lines   *bufio.Writer
	waiting chan func(answer []byte)
	stderr  bytes.Buffer
	err     error
	ended   chan struct{}
	// heard is when the replay has last answered a line, or got one while none waited, in nanoseconds since it began.
	began time.Time
	heard atomic.Int64
	// answered counts the lines that have an answer. closing is set when no more lines will come.
	answered atomic.Int64
	closing  atomic.Bool
	hangs    atomic.Bool
}

// Start runs the replay. No signal of a terminal reaches it: it ends when its input does. It is killed if it answers
// nothing for as long as hangTimeout although lines wait. It inherits the files, for example one with a lock that has
// to last as long as the replay.
func Start(program, file string, hangTimeout time.Duration, inherited ...*os.File) (*Replay, error) {
	r := &Replay{
		command: exec.Command(program, "replay", file), began: time.Now(),
		waiting: make(chan func([]byte), maxWaitingLines), ended: make(chan struct{}),
	}
	r.command.SysProcAttr = &syscall.SysProcAttr{Setpgid: true, Pdeathsig: syscall.SIGKILL}
	r.command.Stderr, r.command.ExtraFiles = &r.stderr, inherited
	input, err := r.command.StdinPipe()
	if err != nil {
		return nil, fmt.Errorf("input of the replay: %w", err)
	}
	output, err := r.command.StdoutPipe()
	if err != nil {
		return nil, fmt.Errorf("output of the replay: %w", err)
	}
	if err := r.start(); err != nil {
		return nil, fmt.Errorf("replay: %w", err)
	}
	r.input, r.lines = input, bufio.NewWriterSize(input, 1<<16)
	go r.read(bufio.NewReaderSize(output, 1<<16))
	go r.watch(hangTimeout)
	return r, nil
}

// start starts the process by a thread that lives as long as the process, since Pdeathsig is sent when that thread
// ends.
func (r *Replay) start() error {
	started := make(chan error)
	go func() {
		runtime.LockOSThread()
		defer runtime.UnlockOSThread()
		err := r.command.Start()
		started <- err
		if err == nil {
			<-r.ended
		}
	}()
	return <-started
}

// read hands each answer to whoever waits for it, until the replay ends.
func (r *Replay) read(output *bufio.Reader) {
	defer close(r.ended)
	answer, err := output.ReadBytes('\n')
	for ; err == nil; answer, err = output.ReadBytes('\n') {
		r.answered.Add(1)
		r.heard.Store(int64(time.Since(r.began)))
		(<-r.waiting)(answer[:len(answer)-1])
	}
	err = r.command.Wait()
	if err == nil && len(r.waiting) > 0 {
		err = errors.New("it left lines without an answer")
	}
	if r.hangs.Load() {
		err = fmt.Errorf("it answered nothing for too long: %w", err)
	}
	if err != nil {
		r.err = fmt.Errorf("replay: %w: %s", err, bytes.TrimSpace(r.stderr.Bytes()))
	}
}

// watch kills the replay if it hangs.
func (r *Replay) watch(hangTimeout time.Duration) {
	ticker := time.NewTicker(hangTimeout / hangChecks)
	defer ticker.Stop()
	for last, checks := int64(0), 0; checks <= hangChecks; checks++ {
		select {
		case <-r.ended:
			return
		case <-ticker.C:
		}
		if answered := r.answered.Load(); answered != last || len(r.waiting) == 0 && !r.closing.Load() {
			last, checks = answered, 0
		}
	}
	r.hangs.Store(true)
	_ = r.command.Process.Kill()
}

// ReadsOf returns the most reads of its input that a line can cost a replay.
func ReadsOf(line []byte) int64 { return 2 + int64(len(line)/chunk) }

// Send writes a line, which has no LF. Its answer goes to the function, which must not wait for anything. If the replay
// has ended, nobody gets an answer: see Ended.
func (r *Replay) Send(line []byte, answered func(answer []byte)) {
	switch len(r.waiting) {
	case 0:
		r.heard.Store(int64(time.Since(r.began)))
	case maxWaitingLines:
		r.Flush() // What is buffered has to be written, or nothing would make room.
	}
	select {
	case r.waiting <- answered:
	case <-r.ended:
		return
	}
	// A failure to write means that the replay has ended, which the reader notices.
	_, _ = r.lines.Write(line)
	_ = r.lines.WriteByte('\n')
}

// Flush makes the lines that were sent visible to the replay.
func (r *Replay) Flush() { _ = r.lines.Flush() }

// Silence returns how long the replay has answered nothing although lines wait. Any goroutine may call it.
func (r *Replay) Silence() time.Duration {
	if len(r.waiting) == 0 {
		return 0
	}
	return time.Since(r.began) - time.Duration(r.heard.Load())
}

// Ended is closed when the replay has ended.
func (r *Replay) Ended() <-chan struct{} { return r.ended }

// Close ends the input of the replay, and waits until it has answered all lines and left one file.
func (r *Replay) Close() error {
	r.Flush()
	r.closing.Store(true)
	_ = r.input.Close()
	<-r.ended
	return r.err
}

// Kill ends the replay at once. Another goroutine may call it.
func (r *Replay) Kill() { _ = r.command.Process.Kill() }
