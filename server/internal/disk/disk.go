// Package disk says how much room there is on a disk, and locks, copies and writes files: those outlive a crash.
package disk

import (
	"context"
	"errors"
	"fmt"
	"io"
	"os"
	"path/filepath"
	"strings"
	"syscall"
	"time"

	"rbac-node/internal/pause"
)

// Sync makes a file, or the names in a folder, durable.
func Sync(path string) error {
	file, err := os.Open(path)
	if err != nil {
		return err
	}
	return Close(file, file.Sync())
}

// SyncAll makes a folder durable with all that is in it.
func SyncAll(folder string) error {
	return filepath.Walk(folder, func(path string, _ os.FileInfo, err error) error {
		if err != nil {
			return err
		}
		return Sync(path)
	})
}

// Write writes a file for the user of the program alone. After a crash it has this text or that of before.
func Write(path, text string) error {
	making := path + ".new"
	if err := os.WriteFile(making, []byte(text), 0o600); err != nil {
		return err
	}
	if err := Sync(making); err != nil {
		return err
	}
	if err := os.Rename(making, path); err != nil {
		return err
	}
	return Sync(filepath.Dir(path))
}

// Copy copies a file to another one, which is for the user of the program alone.
func Copy(from, to string) error {
	source, err := os.Open(from)
	if err != nil {
		return err
	}
	defer source.Close()
	target, err := os.OpenFile(to, os.O_WRONLY|os.O_CREATE|os.O_TRUNC, 0o600)
	if err != nil {
		return err
	}
	_, err = io.Copy(target, source)
	return Close(target, err)
}

// Close closes a file after something was done with it, and returns the first error of the two.
func Close(file io.Closer, err error) error {
	if closing := file.Close(); err == nil {
		return closing
	}
	return err
}

// lockInterval is the time between two attempts to lock a file.
const lockInterval = 10 * time.Millisecond

// Lock locks an open file or folder in a way that flock(2) has, and waits until the context ends for those who have another lock on it.
func Lock(ctx context.Context, file *os.File, how int) error {
	for {
		err := syscall.Flock(int(file.Fd()), how|syscall.LOCK_NB)
		if !errors.Is(err, syscall.EWOULDBLOCK) || pause.For(ctx, lockInterval) != nil {
			return err
		}
	}
}

// EscapeGlob returns a pattern that matches a path alone.
func EscapeGlob(path string) string {
	return strings.NewReplacer(`\`, `\\`, `*`, `\*`, `?`, `\?`, `[`, `\[`).Replace(path)
}

// Reserve is how many bytes are kept so that an office starts and answers questions on a full disk.
const Reserve = 16 << 20

// Free returns how many bytes may be written to the file system of a path.
func Free(path string) (int64, error) {
	var about syscall.Statfs_t
	if err := syscall.Statfs(path, &about); err != nil {
		return 0, fmt.Errorf("room of %s: %w", path, err)
	}
	return int64(about.Bavail) * about.Bsize, nil
}

// IsFull reports whether an error says that there is no room on the disk, or none that this user may have.
func IsFull(err error) bool {
	return errors.Is(err, syscall.ENOSPC) || errors.Is(err, syscall.EDQUOT)
}

// IsShort reports whether a file system has less room than is kept. If nobody knows, it has more.
func IsShort(path string) bool {
	free, err := Free(path)
	return err == nil && free < Reserve
}
