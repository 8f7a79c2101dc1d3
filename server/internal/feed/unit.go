package feed

import (
	"context"
	"sync/atomic"

	"rbac-node/internal/api"
)

// A Unit is some lines that are asked at once: nothing comes between them.
type Unit struct {
	Lines [][]byte
	// Calls has what the lines ask for.
	Calls []*api.Call
	// Recorded has the lines as the keeper writes them down. Whoever makes the unit sets it.
	Recorded [][]byte
	// Numbers has the numbers of the entries that the keeper has made of the commands.
	Numbers []int64
	// Answers has an answer to each line once the replay has answered all.
	Answers [][]byte
	// Life is that of the only replay that may get the unit, or 0.
	Life int64
	// Policy is the revision of the policy behind the unit. The observer sets it.
	Policy int64
	// Finally is called when the replay has answered all, or when it never will: also if nobody waits any more. It may be nil.
	Finally func()
	ctx     context.Context
	// lost says that nobody knows all answers.
	lost atomic.Bool
	done chan struct{}
}

// NewUnit returns a unit of commands.
func NewUnit(calls ...*api.Call) *Unit {
	u := &Unit{Calls: calls, Lines: make([][]byte, len(calls))}
	for i, call := range calls {
		u.Lines[i] = call.Line
	}
	return u
}

// Commands returns the places of the lines that are recorded: commands, and entries that change nothing.
func (u *Unit) Commands() (places []int) {
	for i, call := range u.Calls {
		if call.IsRecorded() {
			places = append(places, i)
		}
	}
	return places
}

// begin says who waits for the answers.
func (u *Unit) begin(ctx context.Context) {
	u.ctx, u.Answers, u.done = ctx, make([][]byte, len(u.Lines)), make(chan struct{})
}

func (u *Unit) release() {
	close(u.done)
	if u.Finally != nil {
		u.Finally()
	}
}

// Fail says that not all answers are known. An observer may call it while it follows the unit.
func (u *Unit) Fail() { u.lost.Store(true) }

// lose tells whoever asks that there is no answer.
func (u *Unit) lose() {
	u.Fail()
	u.release()
}

// An Observer is told of all commands, in the one order.
type Observer interface {
	// Answered gets each unit that the replay has answered, before whoever asks gets the answers, and before the next unit. The replay
	// goes on meanwhile.
	Answered(u *Unit)
}

// A Keeper keeps commands before the replay gets them, and the answers before whoever asks gets them.
type Keeper interface {
	// Keep keeps the answers to some units, in their order, and makes others durable, which the replay gets next. If it fails, the
	// replay gets none of the latter, and whoever waits for any of them is told that there is no answer.
	Keep(answered, asked []*Unit) error
	// IsDue reports whether Rest is to be called. Then commands wait until the replay has none.
	IsDue() bool
	Rest()
}
