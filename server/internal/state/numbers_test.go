package state

import (
	"testing"
	"time"
)

// The numbers of a start are greater than those that were used, by the time or by what is known, and never the same ones.
func TestFirstNumber(t *testing.T) {
	then := time.Date(2026, 11, 28, 0, 0, 0, 0, time.UTC)
	first := func(now time.Time, above int64) int64 {
		number, err := FirstNumber(now, above)
		if err != nil {
			t.Fatal(err)
		}
		return number
	}
	before := first(then, 0)
	for _, test := range []struct {
		name  string
		now   time.Time
		above int64
	}{
		{"a second later, and nothing is known", then.Add(time.Second), 0},
		{"a second later", then.Add(time.Second), before},
		{"the clock was set back", then.Add(-time.Hour), before},
		{"a machine without the time", time.Unix(0, 0), before},
		{"more was used than the time allows", then.Add(time.Second), before + 1<<40},
	} {
		if number := first(test.now, test.above); number <= before || number <= test.above || number > 1<<53 {
			t.Errorf("%s: %d after %d", test.name, number, before)
		}
	}
	if first(then, 0) == before && first(then, 0) == before {
		t.Error("it isn't random")
	}
}
