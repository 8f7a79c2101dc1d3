package office

import (
	"context"
	"errors"
	"fmt"
	"os"
	"path/filepath"
	"syscall"
	"time"

	"rbac-node/internal/disk"
)

// overlap is how long an earlier program may take to end that has the office open.
const overlap = 5 * time.Second

// Lock returns a lock that no other program has. An earlier replay may need a moment to end.
func Lock(ctx context.Context, path string) (*os.File, error) {
	file, err := os.OpenFile(path, os.O_RDWR|os.O_CREATE|syscall.O_NOFOLLOW, 0o600)
	if err != nil {
		return nil, fmt.Errorf("lock: %w", err)
	}
	within, cancel := context.WithTimeout(ctx, overlap)
	defer cancel()
	if err := disk.Lock(within, file, syscall.LOCK_EX); err != nil {
		_ = file.Close()
		return nil, fmt.Errorf("lock %s, which another front has: %w", path, err)
	}
	return file, nil
}

// RestoringSuffix is added to the path of an office for the folder in which a restore prepares what it puts in place of the office.
const RestoringSuffix = ".restoring"

// PlanOf returns the path of a file that is there while a restore of an office isn't finished.
func PlanOf(office string) string { return filepath.Join(office+RestoringSuffix, "plan") }

// CheckRestored refuses an office that is locked and whose restore isn't finished: it may have another record than its own.
func CheckRestored(office string) error {
	if _, err := os.Lstat(PlanOf(office)); !errors.Is(err, os.ErrNotExist) {
		return fmt.Errorf("a restore of %s was interrupted: run its command, rbac-node restore, again", office)
	}
	return nil
}
