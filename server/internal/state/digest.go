package state

import (
	"context"
	"encoding/hex"
	"fmt"
	"runtime/debug"

	"golang.org/x/crypto/sha3"

	"rbac/clients/go/rbacoffice"

	"rbac-node/internal/office"
)

// digestBytes is how many bytes of the SHA3-256 of a session's name are its name outside the office.
const digestBytes = 16

// DigestOf returns what is written in place of a text that may let others in: the name that a session has outside the office, or
// what that name would be. Whoever knows the session's own name may use it.
func DigestOf(text string) string {
	sum := sha3.Sum256([]byte(text))
	return hex.EncodeToString(sum[:digestBytes])
}

// Digest returns the digest of the rows that office.Digest returns for a file with the same rows.
func (s *State) Digest() (string, error) {
	sums := office.NewSummer(office.Version)
	err := s.Look(func(v *View) {
		for table := 0; table < office.Tables; table++ {
			v.each(rbacoffice.Table(table), 0, func(row *rbacoffice.Row) bool {
				sums.Add(row)
				return true
			})
		}
	})
	return sums.Sums().Digest, err
}

// readingSuffix is added to the path of an office for the copy of which its rows are read.
const readingSuffix = ".reading"

// Load makes the office of the file of one that no program writes now, as Begin does. Commands that were kept are forgotten.
func (s *State) Load(ctx context.Context, path string) error {
	if err := Copy(path); err != nil {
		return err
	}
	return s.LoadCopy(ctx, path)
}

// Copy copies the file of an office that no program writes now, for LoadCopy.
func Copy(path string) error {
	if err := office.Copy(path, path+readingSuffix); err != nil {
		return fmt.Errorf("rows: %w", err)
	}
	return nil
}

// LoadCopy is Load of the copy of a file, which it removes. The file itself may be in use.
func (s *State) LoadCopy(ctx context.Context, path string) error {
	copied := path + readingSuffix
	defer office.RemoveCopy(copied)
	rows, version, err := office.ReadRows(ctx, copied, office.OfCopy, false)
	if err != nil {
		return err
	}
	defer debug.FreeOSMemory() // At the limits the rows take more than the office.
	// The file isn't asked for the closure pairs, since there may be half a million: librbac refuses pairs that don't follow from the
	// inheritances. The rows are sorted, since librbac needs much longer for another order.
	if err := s.Begin(append(rows, rbacoffice.Closure(rows)...), version > 1); err != nil {
		return fmt.Errorf("librbac and the rows of the file: %w", err)
	}
	return nil
}
