package record

import (
	"bytes"
	"context"
	"crypto/sha256"
	"database/sql"
	"errors"
	"fmt"
	"io"
	"os"
	"os/exec"
	"path/filepath"
	"sort"
	"strconv"
	"strings"
	"syscall"
	"time"

	sqlite3 "github.com/mattn/go-sqlite3"

	"rbac-node/internal/disk"
	"rbac-node/internal/office"
)

const (
	makingBackup = ".making-rbac"
	// pausing is how long the replay may need until it is paused, or stay paused.
	pausing = 10 * time.Second
)

// Backup copies an office and its record as a pair into a new folder in a folder, whose path it prints. A front or a node may have them.
func (t *Tool) Backup(ctx context.Context, folder string) error {
	files, release, err := t.files(ctx)
	if err != nil {
		return err
	}
	defer release()
	free, err := lockDir(ctx, folder, syscall.LOCK_EX) // No other backup is made there meanwhile.
	if err != nil {
		return fmt.Errorf("backup: %w", err)
	}
	defer free()
	making, made := filepath.Join(folder, makingBackup), filepath.Join(folder, time.Now().UTC().Format("20060102-150405.000000"))
	defer os.RemoveAll(making) // It has another name if all went well.
	if err = os.RemoveAll(making); err == nil {
		err = os.Mkdir(making, 0o700)
	}
	switch {
	case err != nil:
	case t.Data != "":
		err = t.copyNode(ctx, files, making)
	default:
		err = t.copyPair(ctx, files, filepath.Join(making, "office"))
	}
	if err == nil {
		err = os.Rename(making, made)
	}
	if err == nil {
		err = disk.Sync(folder)
	}
	if err != nil {
		return fmt.Errorf("backup: %w", err)
	}
	fmt.Fprintln(t.Out, made)
	return nil
}

// linkOrCopy copies the file of an earlier part, which never changes. If a backup in the folder has the same, it becomes another name
// of that.
func linkOrCopy(path, to, folder string) error {
	earlier, err := filepath.Glob(filepath.Join(disk.EscapeGlob(folder), "*", filepath.Base(filepath.Dir(to)), filepath.Base(path)))
	if err != nil {
		return err
	}
	sort.Sort(sort.Reverse(sort.StringSlice(earlier)))
	for _, same := range earlier {
		if isSame(path, same) && os.Link(same, to) == nil {
			return nil
		}
	}
	return disk.Copy(path, to)
}

func isSame(one, other string) bool {
	first, err := digestOfFile(one)
	if err != nil {
		return false
	}
	second, err := digestOfFile(other)
	return err == nil && first == second
}

func digestOfFile(path string) (sum string, err error) {
	file, err := os.Open(path)
	if err != nil {
		return "", err
	}
	defer file.Close()
	h := sha256.New()
	_, err = io.Copy(h, file)
	return string(h.Sum(nil)), err
}

// copyPair copies an office and its record as of one moment.
func (t *Tool) copyPair(ctx context.Context, files []string, to string) error {
	if err := os.Mkdir(DirOf(to), 0o700); err != nil {
		return err
	}
	release, err := t.hold(ctx)
	if err != nil {
		return err
	}
	// All that the office has is in the record before the replay gets it. So the office and what the record has now are as after a
	// crash of both.
	kept, err := t.begin(ctx, files[len(files)-1], to)
	if failed := release(); err == nil {
		err = failed
	}
	if kept != nil {
		defer kept.Close()
	}
	if err != nil {
		return err
	}
	if err := office.Run(ctx, t.Program, "check", to); err != nil {
		return err
	}
	// The heads of the copy are known from now on.
	if err := syncLog(files[len(files)-1]); err != nil {
		return err
	}
	if err := kept.copyTo(ctx, filepath.Join(DirOf(to), fileName)); err != nil {
		return err
	}
	for _, path := range files[:len(files)-1] {
		if err := linkOrCopy(path, filepath.Join(DirOf(to), filepath.Base(path)), filepath.Dir(filepath.Dir(to))); err != nil {
			return err
		}
	}
	return disk.SyncAll(filepath.Dir(to))
}

// A keptPair is what is left to copy once the office goes on: the record as it was, and the newest base.
type keptPair struct {
	*view
	base *os.File
	name string
}

func (k *keptPair) Close() {
	k.view.Close()
	if k.base != nil {
		_ = k.base.Close()
	}
}

// begin copies the office, and opens the record as it is now.
func (t *Tool) begin(ctx context.Context, path, to string) (*keptPair, error) {
	if err := office.Copy(t.Office, to); err != nil {
		return nil, err
	}
	opened, err := openView(ctx, path)
	if err != nil {
		return nil, err
	}
	k := &keptPair{view: opened}
	if bases, err := basesIn(DirOf(t.Office)); err == nil && len(bases) > 0 {
		k.name = bases[0].name()
		if k.base, err = os.Open(filepath.Join(DirOf(t.Office), k.name)); err != nil {
			k.base = nil // Without one a start takes longer.
		}
	}
	return k, nil
}

// copyTo writes the record to a file, and the base beside it.
func (k *keptPair) copyTo(ctx context.Context, path string) error {
	db, err := openFile(path, "")
	if err != nil {
		return err
	}
	if err = disk.Close(db, k.copyPages(ctx, db)); err != nil {
		return err
	}
	if k.base == nil {
		return nil
	}
	target, err := os.OpenFile(filepath.Join(filepath.Dir(path), k.name), os.O_WRONLY|os.O_CREATE|os.O_EXCL, 0o600)
	if err != nil {
		return err
	}
	_, err = io.Copy(target, k.base)
	return disk.Close(target, err)
}

// hold keeps the office from being written until release is called: it locks the office, or pauses the replay of the front that has
// it.
func (t *Tool) hold(ctx context.Context) (release func() error, err error) {
	lock, err := t.lockIfFree(ctx)
	if err != nil {
		return nil, err
	}
	if lock != nil {
		return lock.Close, nil
	}
	replay, err := t.replayOf()
	if err != nil {
		return nil, err
	}
	forget, err := continueAfterDeath(replay)
	if err != nil {
		return nil, fmt.Errorf("pause the replay: %w", err)
	}
	if err := syscall.Kill(replay, syscall.SIGSTOP); err != nil {
		forget()
		return nil, fmt.Errorf("pause the replay: %w", err)
	}
	resume := func() error {
		defer forget()
		return syscall.Kill(replay, syscall.SIGCONT)
	}
	for deadline := time.Now().Add(pausing); !isPaused(replay); time.Sleep(time.Millisecond) {
		if time.Now().After(deadline) {
			_ = resume()
			return nil, errors.New("the replay can't be paused")
		}
	}
	began := time.Now()
	return func() error {
		wasPaused := isPaused(replay)
		if err := resume(); err != nil || !wasPaused || time.Since(began) > pausing {
			return errors.New("the replay did not stay paused until all was copied: try again")
		}
		return nil
	}, nil
}

// continueAfterDeath starts a program that continues a process if this one ends before it calls forget, even if it is killed.
func continueAfterDeath(pid int) (forget func(), err error) {
	guard := exec.Command("/bin/sh", "-c", `trap "" HUP INT TERM; echo; read -r word || kill -CONT "$0"`, strconv.Itoa(pid))
	guard.SysProcAttr = &syscall.SysProcAttr{Setsid: true} // What ends the group of this process doesn't end it.
	words, err := guard.StdinPipe()
	if err != nil {
		return nil, err
	}
	ready, err := guard.StdoutPipe()
	if err != nil {
		return nil, err
	}
	err = guard.Start()
	if errors.Is(err, os.ErrNotExist) {
		return func() {}, nil // An image has no shell. There this process is not to be killed.
	}
	if err != nil {
		return nil, err
	}
	forget = func() {
		_, _ = io.WriteString(words, "forget\n")
		_ = guard.Wait() // Whatever its status is, the process goes on.
	}
	if _, err := ready.Read(make([]byte, 1)); err != nil {
		forget()
		return nil, err
	}
	return forget, nil
}

// replayOf returns the process of the program that has the office open.
func (t *Tool) replayOf() (int, error) {
	wanted, err := os.Stat(t.Office)
	if err != nil {
		return 0, err
	}
	links, _ := filepath.Glob("/proc/[0-9]*/fd/*")
	for _, link := range links {
		about, err := os.Stat(link)
		if err != nil || !os.SameFile(wanted, about) {
			continue
		}
		pid, err := strconv.Atoi(strings.Split(link, "/")[2])
		name, _ := os.ReadFile(fmt.Sprintf("/proc/%d/comm", pid))
		if err == nil && string(bytes.TrimSpace(name)) == filepath.Base(t.Program) {
			return pid, nil
		}
	}
	return 0, errors.New("a front has the office, and its replay can't be found: run this as the user of the front or as root")
}

// isPaused reports whether all threads of a process are paused.
func isPaused(pid int) bool {
	tasks, _ := filepath.Glob(fmt.Sprintf("/proc/%d/task/*/stat", pid))
	for _, task := range tasks {
		text, err := os.ReadFile(task)
		_, state, _ := strings.Cut(string(text[bytes.LastIndexByte(text, ')')+1:]), " ")
		if err != nil || state == "" || state[0] != 'T' && state[0] != 't' {
			return false
		}
	}
	return len(tasks) > 0
}

// copyPages copies the pages that the file has in the transaction that is open.
func (k *keptPair) copyPages(ctx context.Context, to *sql.DB) error {
	target, err := to.Conn(ctx)
	if err != nil {
		return err
	}
	defer target.Close()
	return target.Raw(func(into any) error {
		return k.conn.Raw(func(from any) error {
			copying, err := into.(*sqlite3.SQLiteConn).Backup("main", from.(*sqlite3.SQLiteConn), "main")
			if err != nil {
				return err
			}
			_, err = copying.Step(-1)
			if failed := copying.Finish(); err == nil {
				err = failed
			}
			return err
		})
	})
}
