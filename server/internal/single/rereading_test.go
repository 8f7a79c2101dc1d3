package single

import (
	"context"
	"os"
	"path/filepath"
	"testing"
	"time"

	"github.com/prometheus/client_golang/prometheus"

	"rbac-node/internal/api"
)

// An office that differs is read again at once, and after longer and longer pauses if it goes on differing.
func TestPauses(t *testing.T) {
	registry := prometheus.NewRegistry()
	r, now := newRereading(registry), time.Now()
	if rest := r.rest(now); rest != 0 || r.has() {
		t.Errorf("an office that doesn't differ: %v", rest)
	}
	for i, wanted := range []time.Duration{0, firstPause, 2 * firstPause, 4 * firstPause, 8 * firstPause, longestPause, longestPause} {
		if pause := r.differs(now); pause != wanted || r.rest(now.Add(time.Second)) != wanted-time.Second || !r.has() {
			t.Errorf("time %d: a pause of %v and not %v", i, pause, wanted)
		}
		now = now.Add(calmInterval)
		if pause := r.differs(now); pause != wanted {
			t.Errorf("time %d, before it was read: %v", i, pause)
		}
		if r.isOver(); r.has() || r.rest(now) != 0 {
			t.Errorf("time %d: it was read", i)
		}
	}
	if pause := r.differs(now.Add(time.Second)); pause != 0 {
		t.Errorf("after a calm time: %v", pause)
	}
	if found, err := registry.Gather(); err != nil || len(found) != 1 || found[0].GetMetric()[0].GetCounter().GetValue() != 8 {
		t.Errorf("it is counted %v, %v", found, err)
	}
}

// If the file can't be read again, nothing is answered, and health says why. Once it can be, the office has what the file has.
func TestReadingAgainFails(t *testing.T) {
	options := optionsOf(t, filepath.Join(t.TempDir(), "office"))
	o, stop := run(t, options)
	ask(t, o, `{"fn":"addUser","user":"ann"}`)
	good := linesOf(t, o.State())
	hindering := options.File + ".reading/hindering"
	if err := os.MkdirAll(hindering, 0o700); err != nil {
		t.Fatal(err)
	}
	if err := o.state.Begin(nil, true); err != nil {
		t.Fatal(err)
	}
	before := o.numbers()
	if err := o.compare(context.Background()); err != nil {
		t.Fatal(err)
	}
	const says = "the office in this process isn't that of its file, which is read again: the replay doesn't start: rows: "
	waitUntil(t, "health says what fails", func() bool { return len(o.Health().Why) > len(says) && o.Health().Why[:len(says)] == says })
	call, err := api.NewCall("assignedRoles", "user", "ann")
	if err != nil {
		t.Fatal(err)
	}
	if given, err := o.Do(context.Background(), api.NewBatch(api.Question, call)); err != api.Unavailable || o.IsReady() || o.Health().Ready {
		t.Errorf("a question meanwhile: %s, %v", given.Texts, err)
	}
	if _, known := o.state.After(before.All, 1); known {
		t.Error("a watch goes on")
	}
	if err := os.RemoveAll(filepath.Dir(hindering)); err != nil {
		t.Fatal(err)
	}
	waitUntil(t, "it answers", func() bool { return o.Health().Ready })
	if given := linesOf(t, o.State()); given != good {
		t.Errorf("after it: %s", given)
	}
	if given := ask(t, o, `{"fn":"addUser","user":"bob"}`); given != `{"ok":true}` {
		t.Errorf("a command after it: %s", given)
	}
	if err := stop(); err != nil {
		t.Error(err)
	}
}

func waitUntil(t *testing.T, what string, is func() bool) {
	t.Helper()
	for end := time.Now().Add(20 * time.Second); !is(); time.Sleep(10 * time.Millisecond) {
		if time.Now().After(end) {
			t.Fatalf("not in time: %s", what)
		}
	}
}
