package single

import (
	"errors"
	"fmt"
	"os"
	"strconv"
	"strings"
	"sync"
	"sync/atomic"
	"time"

	"rbac-node/internal/disk"
	"rbac-node/internal/state"
)

// block is how many numbers are reserved at once.
const block = 1 << 24

// A numbering has the file that says which numbers may have been used. Without it, as after a restore, the time alone says so.
type numbering struct {
	path string
	// writing is held while the file is written.
	writing sync.Mutex
	// reserved is the number in the file: no number above it has been used, and no command has been done while it is 0. isReserving
	// says that a greater one is being written.
	reserved    atomic.Int64
	isReserving atomic.Bool
}

// count makes the state, whose numbers are greater than all that earlier fronts of this office have used. On a full disk they are
// reserved before the first command.
func (o *Office) count() error {
	o.numbering.path = o.File + ".numbers"
	used, err := o.numbering.read()
	if err != nil {
		return fmt.Errorf("numbers: %w", err)
	}
	first, err := state.FirstNumber(time.Now(), used)
	if err == nil {
		err = o.numbering.reserve(first)
	}
	if err != nil && !disk.IsFull(err) {
		return fmt.Errorf("numbers: %w", err)
	}
	o.state = state.New(state.Numbers{All: first, Policy: first})
	return nil
}

// read returns the number up to which numbers may have been used, or 0 if nothing is known of that.
func (n *numbering) read() (int64, error) {
	text, err := os.ReadFile(n.path)
	if errors.Is(err, os.ErrNotExist) {
		return 0, nil
	}
	if err != nil {
		return 0, err
	}
	used, err := strconv.ParseInt(strings.TrimSpace(string(text)), 10, 64)
	if err != nil || used < 0 {
		return 0, fmt.Errorf("%s has no number", n.path)
	}
	return used, nil
}

// reserve writes that the numbers behind one may be used.
func (n *numbering) reserve(number int64) error {
	n.writing.Lock()
	defer n.writing.Unlock()
	if err := disk.Write(n.path, strconv.FormatInt(number+block, 10)+"\n"); err != nil {
		return err
	}
	n.reserved.Store(number + block)
	return nil
}

// require reserves numbers if a start on a full disk couldn't. It comes before each command.
func (n *numbering) require(number int64) error {
	if n.reserved.Load() > 0 {
		return nil
	}
	if err := n.reserve(number); err != nil {
		return fmt.Errorf("numbers: %w", err)
	}
	return nil
}

// keepAhead reserves more numbers before those that are reserved are used. It doesn't wait. If it fails, it is called again at the next
// command.
func (n *numbering) keepAhead(number int64) {
	if number+block/2 < n.reserved.Load() || !n.isReserving.CompareAndSwap(false, true) {
		return
	}
	go func() {
		defer n.isReserving.Store(false)
		_ = n.reserve(number)
	}()
}
