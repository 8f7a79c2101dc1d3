package feed

import (
	"sync"
	"time"

	"rbac-node/internal/faults"
)

const (
	// mostKept is how many lines of commands may be at the replay at once: after a crash it has to be found out which were done.
	mostKept = 256
	// retry is when a keeper that has failed is given the answers again.
	retry = time.Second
)

// A keeping has what is between the replay and the keeper.
type keeping struct {
	mutex sync.Mutex
	// done has the units whose answers the keeper hasn't got, in their order. unanswered is how many lines are at the replay.
	done       []*Unit
	unanswered int
	// wake has an element if there are such units.
	wake chan struct{}
	// failed is when the keeper is given again what it couldn't keep, or nil. Only the goroutine of Run uses it.
	failed <-chan time.Time
}

// answered takes a unit that the replay has answered and the observer has followed. It doesn't wait.
func (k *keeping) answered(u *Unit) {
	k.mutex.Lock()
	k.done = append(k.done, u)
	if last := len(k.done) - 1; faults.Has(faults.MixesUp) {
		k.done[0], k.done[last] = k.done[last], k.done[0]
	}
	k.unanswered -= len(u.Lines)
	k.mutex.Unlock()
	select {
	case k.wake <- struct{}{}:
	default:
	}
}

func (k *keeping) takeAnswered() (answered []*Unit) {
	k.mutex.Lock()
	defer k.mutex.Unlock()
	answered, k.done = k.done, nil
	return answered
}

// count adds to how many lines are at the replay, and returns it.
func (k *keeping) count(lines int) int {
	k.mutex.Lock()
	defer k.mutex.Unlock()
	k.unanswered += lines
	return k.unanswered
}

// room returns where units come from that the replay may get, or nil if it may get none, and how many lines are there. If the keeper has to
// rest, the replay gets none.
func (f *Feed) room() (more <-chan *Unit, open int) {
	if open = f.count(0); open < mostKept && !f.Keeper.IsDue() {
		more = f.asked
	}
	return more, open
}

// take returns units that wait, as many as the replay may have besides some lines.
func take(more <-chan *Unit, lines int) (units []*Unit) {
	for lines < mostKept && len(more) > 0 {
		u := <-more
		units, lines = append(units, u), lines+len(u.Lines)
	}
	return units
}

// rest gives the keeper the last answers, and lets it rest. The file of the office doesn't change meanwhile.
func (f *Feed) rest() {
	if answered := f.takeAnswered(); len(answered) > 0 {
		f.keep(answered, nil)
	}
	f.isBusy.Store(true)
	defer f.isBusy.Store(false)
	f.resting.Lock()
	defer f.resting.Unlock()
	f.Keeper.Rest()
}

// keep gives the keeper answers and commands, and passes on what it has kept.
func (f *Feed) keep(answered, asked []*Unit) {
	var wanted []*Unit
	for _, u := range asked {
		if u.ctx.Err() != nil || u.Life != 0 && u.Life != f.Life() {
			u.lose() // Nobody waits any more, or another replay was to get it.
			continue
		}
		wanted = append(wanted, u)
	}
	if faults.Has(faults.SendsEarly) {
		f.send(wanted)
		time.Sleep(500 * time.Microsecond)
	}
	f.isBusy.Store(true)
	err := f.Keeper.Keep(answered, wanted)
	f.isBusy.Store(false)
	if f.failed = nil; err != nil {
		f.failed = time.After(retry)
	}
	for _, u := range answered {
		if err != nil {
			u.lose()
			continue
		}
		u.release()
	}
	switch {
	case faults.Has(faults.SendsEarly):
	case err == nil:
		f.send(wanted)
	default:
		for _, u := range wanted {
			u.lose()
		}
	}
}
