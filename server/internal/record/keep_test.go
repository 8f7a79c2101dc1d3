package record

import (
	"errors"
	"fmt"
	"io"
	"testing"

	"rbac-node/internal/api"
	"rbac-node/internal/feed"
	"rbac-node/internal/logs"
)

// The alarm of a record that can't be written goes on until something was written.
func TestAlarm(t *testing.T) {
	dir := t.TempDir()
	if err := makeFile(dir, part{first: 1, why: beginning, rows: ""}, now(), "/dev/null"); err != nil {
		t.Fatal(err)
	}
	r := &Record{Options: Options{Log: logs.New(io.Discard)}, dir: dir}
	if err := r.load(); err != nil {
		t.Fatal(err)
	}
	defer r.db.Close()
	call, err := api.NewCall("addUser", "user", "ann")
	if err != nil {
		t.Fatal(err)
	}
	unit := feed.NewUnit(call)
	if err := r.Admit(unit); err != nil {
		t.Fatal(err)
	}
	r.note(errors.New("no room"), "it fails")
	for _, step := range []struct {
		name  string
		asked []*feed.Unit
		why   string
	}{{"nothing to write", nil, "no room"}, {"a command", []*feed.Unit{unit}, ""}, {"nothing more", nil, ""}} {
		if err := r.Keep(nil, step.asked); err != nil || r.Why() != step.why {
			t.Errorf("%s: %v, %q", step.name, err, r.Why())
		}
	}
}

// BenchmarkKeep keeps batches of 16 commands with the answers to the batch before.
func BenchmarkKeep(b *testing.B) {
	const size = 16
	dir := b.TempDir()
	if err := makeFile(dir, part{first: 1, why: beginning, rows: ""}, now(), "/dev/null"); err != nil {
		b.Fatal(err)
	}
	r := &Record{dir: dir}
	if err := r.load(); err != nil {
		b.Fatal(err)
	}
	defer r.db.Close()
	var before []*feed.Unit
	b.ResetTimer()
	for i := 0; i < b.N; i++ {
		units := make([]*feed.Unit, size)
		for k := range units {
			call, err := api.NewCall("addUser", "user", fmt.Sprintf("u%d", k))
			if err != nil {
				b.Fatal(err)
			}
			units[k] = feed.NewUnit(call)
			if err := r.Admit(units[k]); err != nil {
				b.Fatal(err)
			}
			units[k].Answers = [][]byte{[]byte(`{"ok":true}`)}
		}
		if err := r.Keep(before, units); err != nil {
			b.Fatal(err)
		}
		before = units
	}
}
