package single

import (
	"bytes"
	"context"
	"errors"
	"fmt"
	"io"
	"os"

	"rbac-node/internal/office"
)

// beginning is how a file of SQLite begins.
var beginning = []byte("SQLite format 3\x00")

// CheckFile refuses a file that is no office, before anything is made beside it. What a front has had before isn't checked here: the replay
// does that at each start.
func CheckFile(ctx context.Context, program, path string) error {
	for _, made := range []string{path + ".numbers", path + ".record"} {
		if _, err := os.Stat(made); err == nil {
			return nil
		}
	}
	about, err := os.Stat(path)
	switch {
	case errors.Is(err, os.ErrNotExist):
		return nil // It is made.
	case err == nil && !about.Mode().IsRegular():
		return fmt.Errorf("%s is no office: it isn't a file", path)
	case err != nil:
		return fmt.Errorf("office: %w", err)
	}
	file, err := os.Open(path)
	if err != nil {
		return fmt.Errorf("office: %w", err)
	}
	first := make([]byte, len(beginning))
	_, err = io.ReadFull(file, first)
	_ = file.Close() // Nothing was written.
	if err != nil || !bytes.Equal(first, beginning) {
		return fmt.Errorf("%s is no office: it isn't a file of SQLite", path)
	}
	if err := office.Run(ctx, program, "check", path); err != nil {
		return fmt.Errorf("%s is no office that can be used: %w", path, err)
	}
	return nil
}
