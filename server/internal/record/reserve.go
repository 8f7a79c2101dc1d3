package record

import (
	"errors"
	"fmt"
	"os"
	"path/filepath"
	"syscall"
	"time"

	"rbac-node/internal/disk"
)

const (
	// reserveName is the name of a file that only takes up room. It is deleted when a start finds a full disk, and made again when
	// there is room.
	reserveName = "reserve"
	// reservePause is the time between two attempts to make it.
	reservePause = time.Second
	// spareRoom is how many bytes are left for a command when it was made again on a disk that was full.
	spareRoom = 1 << 20
)

// errNoRoom says why no command is recorded.
var errNoRoom = errors.New("the disk is full: too little is free besides the 16 MiB that are kept for a start")

// FreeReserve deletes the reserve of the record of an office if its disk is full. The office is locked.
func FreeReserve(office string) error { return freeReserve(DirOf(office)) }

func freeReserve(dir string) error {
	if !disk.IsShort(dir) {
		return nil
	}
	err := os.Remove(filepath.Join(dir, reserveName))
	if err != nil && !errors.Is(err, os.ErrNotExist) {
		return fmt.Errorf("record: %w", err)
	}
	return nil
}

// makeReserve makes the reserve if it isn't there, and if so much room is left besides. A disk without that is full. It isn't tried
// then, since an attempt takes up what is free for a moment.
func makeReserve(dir string, besides int64) error {
	path := filepath.Join(dir, reserveName)
	if about, err := os.Stat(path); err == nil && about.Size() == disk.Reserve {
		return nil
	}
	if free, err := disk.Free(dir); err == nil && free < disk.Reserve+besides {
		return errNoRoom
	}
	making := path + ".making"
	file, err := os.OpenFile(making, os.O_WRONLY|os.O_CREATE|os.O_TRUNC, 0o600)
	if err != nil {
		return err
	}
	err = allocate(file)
	err = disk.Close(file, err)
	if err == nil {
		err = os.Rename(making, path)
	}
	if err != nil {
		_ = os.Remove(making) // What it has takes up room.
	}
	return err
}

// allocate gives a file its room.
func allocate(file *os.File) error {
	err := syscall.Fallocate(int(file.Fd()), 0, 0, disk.Reserve)
	switch {
	case disk.IsFull(err):
		return errNoRoom
	case !errors.Is(err, syscall.EOPNOTSUPP):
		return err
	}
	for written := 0; written < disk.Reserve; {
		n, err := file.Write(make([]byte, 1<<20))
		if err != nil {
			return err
		}
		written += n
	}
	return nil
}

// leaveSpare demands room for the next command besides the reserve, if that was freed since the disk was full: the reserve may take up
// all that is left, and then each command would fail at the office, and end the replay.
func (r *Record) leaveSpare() {
	_, err := os.Stat(filepath.Join(r.dir, reserveName))
	r.mutex.Lock()
	defer r.mutex.Unlock()
	if errors.Is(err, os.ErrNotExist) && r.head.n > 1 {
		r.spare = spareRoom
	}
}

// keepReserve makes the reserve if it isn't there, and refuses commands without it or without room besides. It tries once a second.
func (r *Record) keepReserve() error {
	if r.hasReserve && r.spare == 0 || !r.keepsReserve {
		return nil
	}
	if time.Since(r.triedReserve) < reservePause {
		return errNoRoom
	}
	r.triedReserve = time.Now()
	if !r.hasReserve {
		if err := makeReserve(r.dir, r.besides); err != nil {
			return err
		}
		r.hasReserve = true
	}
	if free, err := disk.Free(r.dir); err == nil && free < r.spare {
		return errNoRoom
	}
	r.spare = 0
	return nil
}
