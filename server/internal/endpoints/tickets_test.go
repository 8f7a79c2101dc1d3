package endpoints

import (
	"errors"
	"testing"
	"time"

	"rbac-node/internal/api"
	"rbac-node/internal/callers"
)

// ofCaller returns a ticket of a caller.
func ofCaller(name string) *ticket { return &ticket{visit: &callers.Visit{Caller: name}} }

func TestTickets(t *testing.T) {
	now := time.Unix(0, 0)
	all := newTickets()
	all.now = func() time.Time { return now }
	add := func(owner string) string {
		t.Helper()
		name, err := all.add(ofCaller(owner))
		if err != nil {
			t.Fatal(err)
		}
		now = now.Add(time.Second)
		return name
	}
	first := add("ann")
	if !all.has(first) || all.take(first) == nil {
		t.Error("a ticket isn't of use")
	}
	if all.has(first) || all.take(first) != nil || all.take("") != nil {
		t.Error("a ticket is of use twice")
	}
	second := add("ann")
	now = now.Add(ticketAge - 2*time.Second)
	if !all.has(second) {
		t.Error("a ticket is of no use before its time is over")
	}
	now = now.Add(time.Second)
	if all.has(second) || all.take(second) != nil {
		t.Error("a ticket is of use after its time")
	}
	var names []string
	for i := 0; i <= mostOfOne; i++ {
		names = append(names, add("ann"))
	}
	if all.has(names[0]) || !all.has(names[1]) {
		t.Error("not the oldest ticket of a caller has made room")
	}
	for i := mostOfOne; i < mostTickets; i++ {
		add(string(rune('a' + i)))
	}
	if _, err := all.add(ofCaller("zoe")); !errors.Is(err, api.TooManyRequests) {
		t.Errorf("one ticket too many: %v", err)
	}
	if _, err := all.add(ofCaller("ann")); err != nil || all.has(names[1]) {
		t.Errorf("a caller with tickets gets none: %v", err)
	}
}
