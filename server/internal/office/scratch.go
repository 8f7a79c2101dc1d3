package office

import (
	"crypto/sha256"
	"fmt"
	"os"
	"path/filepath"
	"syscall"

	"rbac-node/internal/disk"
)

const (
	// memory is a folder of files in memory: the program syncs often, which takes long on a disk.
	memory = "/dev/shm"
	// spareMemory is how much room there has to be besides some copies of an office.
	spareMemory, copies = 64 << 20, 4
	// mostTries is how often it is tried to make a folder that somebody else takes for one that a crash has left.
	mostTries = 5
)

// A Scratch has the beginnings of the paths of folders for copies of an office: in memory, and in a folder. They depend on the office, so
// that what a crash leaves is found again.
type Scratch [2]string

// ScratchOf returns the scratch of an office for a use, beside that in a folder.
func ScratchOf(use, office, folder string) Scratch {
	if absolute, err := filepath.Abs(office); err == nil {
		office = absolute
	}
	sum := sha256.Sum256([]byte(office))
	name := fmt.Sprintf("rbac-%s-%d-%x", use, os.Getuid(), sum[:8])
	return Scratch{filepath.Join(memory, name), filepath.Join(folder, "scratch")}
}

// New returns a new empty folder for copies of an office of a size, in memory if there is room, and what ends its use. What a crash has left
// of others is removed. None has the name of another one: `rbac check` that a crash of the front has left goes on, and removes the log of
// its copy by the name when it ends.
func (s Scratch) New(size int64) (path string, end func(), err error) {
	s.RemoveLeft()
	for i, prefix := range s {
		if free, err := disk.Free(memory); i == 0 && (err != nil || free <= spareMemory+copies*size) {
			continue
		}
		for try := 0; try < mostTries; try++ {
			if path, err = os.MkdirTemp(filepath.Dir(prefix), filepath.Base(prefix)+"-*"); err != nil {
				break
			}
			lock, lockErr := lockFolder(path)
			if err = lockErr; err == nil {
				return path, func() { _ = os.RemoveAll(path); _ = lock.Close() }, nil
			}
		}
	}
	return "", func() {}, fmt.Errorf("copies: %w", err)
}

// RemoveLeft removes the folders that nobody uses: a crash has left them.
func (s Scratch) RemoveLeft() {
	for _, prefix := range s {
		found, _ := filepath.Glob(disk.EscapeGlob(prefix) + "-*") // No pattern is wrong.
		for _, path := range found {
			if lock, err := lockFolder(path); err == nil {
				_ = os.RemoveAll(path)
				_ = lock.Close()
			}
		}
	}
}

// lockFolder locks a folder that is there, if nobody else has.
func lockFolder(path string) (*os.File, error) {
	folder, err := os.Open(path)
	if err != nil {
		return nil, err
	}
	if err = syscall.Flock(int(folder.Fd()), syscall.LOCK_EX|syscall.LOCK_NB); err == nil {
		_, err = os.Stat(path)
	}
	if err != nil {
		_ = folder.Close()
		return nil, err
	}
	return folder, nil
}
