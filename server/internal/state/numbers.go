package state

import (
	"crypto/rand"
	"encoding/binary"
	"time"

	"rbac-node/internal/api"
)

// Numbers say how far the order of commands has come. They never come back: an office that was opened again begins with greater ones,
// and so does one that was restored from a backup, whatever was restored with it.
type Numbers struct {
	// All grows with each accepted command, and Policy with each that isn't about one session. On one machine they count them. On several
	// machines a refused command counts for All too, and Policy is what All was at the last such command: so all nodes have the same
	// numbers, whichever snapshot they began with.
	All, Policy int64
	// Revision is that of the last entry of the log that was done. On one machine it is 0.
	Revision int64
}

// After returns the numbers after a command with a number of its own.
func (n Numbers) After(number int64, call *api.Call, isAccepted bool) Numbers {
	n.All = number
	if isAccepted && !isAboutSession(call.Function) {
		n.Policy = number
	}
	return n
}

// perSecond is more than how many numbers an office uses in a second. JavaScript has numbers up to 2^53 exactly, which is enough for the
// next two centuries.
const perSecond = 1 << 20

// FirstNumber returns a number with which those of an office begin. It is made of the time, so that it is greater than all numbers that
// were used before, and its last digits are random, so that it is another one even if the clock was set back. It is above a number that
// is known to have been used.
func FirstNumber(now time.Time, above int64) (int64, error) {
	var random [8]byte
	if _, err := rand.Read(random[:]); err != nil {
		return 0, err
	}
	first := now.Unix() * perSecond
	if first < above {
		first = above
	}
	return first + 1 + int64(binary.BigEndian.Uint64(random[:])%perSecond), nil
}
