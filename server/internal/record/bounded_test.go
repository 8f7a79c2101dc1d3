package record

import (
	"context"
	"crypto/sha256"
	"encoding/hex"
	"encoding/json"
	"errors"
	"os"
	"path/filepath"
	"strings"
	"testing"
	"time"

	"rbac-node/internal/disk"
)

// TestBounded has commands that are refused: what is recorded of a long one has its beginning, its digest and its names, and verify
// accepts it. An accepted one is recorded whole.
func TestBounded(t *testing.T) {
	b := open(t)
	long := strings.Repeat("ü", 30_000)
	refused := `{"fn":"assignUser","user":"ann","role":"` + long + `"}`
	imported := `{"fn":"importAssignments","csv":"` + strings.Repeat("secret,name\\n", 5000) + `"}`
	accepted := `{"fn":"importAssignments","csv":"user,role\n` + strings.Repeat(`nobody,clerk\n`, 2000) + `"}`
	b.answered(addAnn, refused, imported, accepted, `{"fn":"addUser","user":"`+strings.Repeat("a", 900)+`"}`)
	tool, out := b.tool()
	if err := tool.Verify(context.Background(), nil); err != nil {
		t.Fatalf("%v, %s", err, out)
	}
	out.Reset()
	if err := tool.Show(context.Background(), Filter{User: "ann", IsRefused: true}, JSON); err != nil {
		t.Fatal(err)
	}
	var line struct {
		Number  int
		Request struct {
			Fn, Sha256, Begins, User string
			Role                     *string
			Bytes                    int
		}
	}
	sum := sha256.Sum256([]byte(refused))
	if err := json.Unmarshal(out.Bytes(), &line); err != nil || line.Number != 3 || line.Request.Fn != "assignUser" || line.Request.User != "ann" ||
		line.Request.Role != nil || line.Request.Bytes != len(refused) || line.Request.Sha256 != hex.EncodeToString(sum[:]) ||
		!strings.HasPrefix(refused, line.Request.Begins) || len(line.Request.Begins) < begunBytes-1 {
		t.Errorf("%v, %+v", err, line)
	}
	b.reopen(b.Office)
	for n, most := range map[int]int{3: 600, 4: 600, 5: len(accepted) + 1, 6: 1000} {
		var request string
		if err := b.db.QueryRow("SELECT request FROM entry WHERE n = ?", n).Scan(&request); err != nil || len(request) > most {
			t.Errorf("entry %d has %d bytes: %v", n, len(request), err)
		}
		if isWhole := n >= 5; isWhole == strings.Contains(request, `"sha256"`) {
			t.Errorf("entry %d is whole: %v", n, isWhole)
		}
	}
}

// Each machine records only the beginning of a long request that was refused, if the log wants that, and the whole otherwise. So all have
// the same record, also after a start at which the log comes again.
func TestFollowBounded(t *testing.T) {
	refused := `{"fn":"addRole","role":"` + strings.Repeat("r", 60_000) + `"}`
	// No node writes such a line into the log. It is done again whole, since its beginning would not be known for one.
	escaped := `{"fn":"add\u0052ole","role":"` + strings.Repeat("r", 2000) + `"}`
	for _, isWhole := range []bool{false, true} {
		one, other := newMachine(t, ""), newMachine(t, "")
		for _, m := range []*machine{one, other} {
			m.isWhole = isWhole
			m.resume("", false)
			m.begin()
			m.do(addAnn)
		}
		path, head := other.snapshot(7)
		for _, m := range []*machine{one, other} {
			m.do(refused, addRole, escaped)
		}
		other.start(path)
		other.resume(head, false)
		other.do(refused, addRole, escaped)
		if one.Added() != other.Added() || other.Failure() != nil {
			t.Errorf("%s and %s, %v", one.Added(), other.Added(), other.Failure())
		}
		_ = one.flush("NORMAL")
		if has := len(one.entries()); has > 60_000 != isWhole || has < 2000 {
			t.Errorf("the entries have %d bytes", has)
		}
		one.snapshot(7)
		if said, err := one.verify(nil); err != nil {
			t.Errorf("%s%v", said, err)
		}
	}
}

// tryReserve makes the next write try to make the room that is kept, if so much is free besides.
func (m *machine) tryReserve(besides int64) {
	m.writing.Lock()
	defer m.writing.Unlock()
	m.hasReserve, m.triedReserve, m.besides = false, time.Time{}, besides
}

// While there is no room for what is kept for a full disk, entries wait and no snapshot is made. A start frees what is kept.
func TestFollowReserve(t *testing.T) {
	m := newMachine(t, "")
	m.resume("", false)
	m.begin()
	m.do(addAnn)
	path, head := m.snapshot(7)
	reserve := filepath.Join(m.dir, reserveName)
	if about, err := os.Stat(reserve); err != nil || about.Size() != disk.Reserve {
		t.Fatalf("%v, %v", about, err)
	}
	// A start on a full disk has freed it, and something is in the way of another one.
	m.tryReserve(disk.Reserve)
	if err := os.Remove(reserve); err != nil {
		t.Fatal(err)
	}
	if err := os.Mkdir(reserve+".making", 0o700); err != nil {
		t.Fatal(err)
	}
	m.do(addRole)
	if m.flush("NORMAL") == nil || m.Why() == "" || m.Failure() != nil || m.Keep(context.Background(), m.Added()) == nil {
		t.Errorf("%q, %v", m.Why(), m.Failure())
	}
	if has := m.entries(); strings.Contains(has, "addRole") {
		t.Errorf("it has\n%s", has)
	}
	if err := os.RemoveAll(reserve + ".making"); err != nil {
		t.Fatal(err)
	}
	// With less room than the office may need besides, it isn't tried.
	m.tryReserve(1 << 60)
	if err := m.Keep(context.Background(), m.Added()); !errors.Is(err, errNoRoom) || m.Failure() != nil {
		t.Errorf("%v, %v", err, m.Failure())
	}
	m.tryReserve(disk.Reserve)
	if err := m.Keep(context.Background(), m.Added()); err != nil || m.Why() != "" || !strings.Contains(m.entries(), "addRole") {
		t.Errorf("%v, %q, it has\n%s", err, m.Why(), m.entries())
	}
	m.start(path)
	m.resume(head, false)
	m.do(addRole)
	if m.Failure() != nil {
		t.Error(m.Failure())
	}
}

// TestFlood refuses many long requests. The files of the record stay small.
func TestFlood(t *testing.T) {
	b := open(t)
	line := `{"fn":"addUser","user":"` + strings.Repeat("a", 65_000) + `"}`
	for i := 0; i < 40; i++ {
		b.answered(line, line, line, line, line)
	}
	var all int64
	files, err := os.ReadDir(b.dir)
	if err != nil {
		t.Fatal(err)
	}
	for _, file := range files {
		if about, err := os.Stat(filepath.Join(b.dir, file.Name())); err == nil && file.Name() != reserveName {
			all += about.Size()
		}
	}
	if all > 8<<20 {
		t.Errorf("200 requests of 65 kB have left %d bytes", all)
	}
}

// TestForgedBounded has entries that say that only their beginning is recorded, and aren't those of a refused command.
func TestForgedBounded(t *testing.T) {
	b := open(t)
	long := `{"fn":"addUser","user":"` + strings.Repeat("a", 2000) + `"}`
	b.answered(addAnn, long, addRole)
	tool, _ := b.tool()
	path := filepath.Join(b.dir, fileName)
	const bounded = `(SELECT request FROM entry WHERE n = 3)`
	for name, statement := range map[string]string{
		"an accepted command": "UPDATE entry SET request = " + bounded + " WHERE n = 4",
		"another form":        `UPDATE entry SET request = '{"bytes":2000}' WHERE n = 3`,
		"no answer":           "UPDATE entry SET answer = '" + unknown + "' WHERE n = 3",
	} {
		t.Run(name, func(t *testing.T) {
			kept, err := os.ReadFile(path)
			if err != nil {
				t.Fatal(err)
			}
			change(t, path, statement)
			chainAnew(t, path, "")
			if err := tool.Verify(context.Background(), nil); err == nil {
				t.Error("it is accepted")
			}
			if err := os.WriteFile(path, kept, 0o600); err != nil {
				t.Fatal(err)
			}
		})
	}
}
