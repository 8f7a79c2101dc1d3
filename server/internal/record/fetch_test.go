package record

import (
	"bytes"
	"context"
	"io"
	"net/http"
	"net/http/httptest"
	"os"
	"path/filepath"
	"testing"

	"rbac-node/internal/disk"
	"rbac-node/internal/recorded"
)

// sent returns the archive that a machine sends of its record.
func (m *machine) sent() []byte {
	m.Helper()
	reply := httptest.NewRecorder()
	m.ServeHTTP(reply, httptest.NewRequest(http.MethodGet, "/record", nil))
	if reply.Code != http.StatusOK || reply.Header().Get(recorded.FirstField) != "1" {
		m.Fatalf("%d, %v", reply.Code, reply.Header())
	}
	return reply.Body.Bytes()
}

// giving gives an archive in which a statement has changed the file at hand.
func (m *machine) giving(archive []byte, statement string) recorded.Fetch {
	return func(_ context.Context, _ int64, accept func(text io.Reader) error) error {
		folder := filepath.Join(m.TempDir(), "record")
		if err := extract(bytes.NewReader(archive), folder); err != nil {
			return err
		}
		db, err := openFile(filepath.Join(folder, fileName), "")
		if err != nil {
			return err
		}
		_, err = db.Exec(statement)
		if err := disk.Close(db, err); err != nil {
			return err
		}
		other := NewFollower(Options{Dir: folder, Office: m.Office, Log: m.Follower.Log})
		reply := httptest.NewRecorder()
		other.begun = true
		other.ServeHTTP(reply, httptest.NewRequest(http.MethodGet, "/record", nil))
		return accept(reply.Body)
	}
}

// A record of another node is taken only if it is one as a whole: no link has the copies of offices, the tables and the triggers.
func TestFetched(t *testing.T) {
	m := newMachine(t, "")
	m.resume("", false)
	m.begin()
	m.do(addAnn, addRole)
	path, text := m.snapshot(7)
	head, err := ParseHead(text)
	if err != nil {
		t.Fatal(err)
	}
	archive := m.sent()
	for what, one := range map[string]struct {
		statement string
		isTaken   bool
	}{
		"the honest one":        {"SELECT 1", true},
		"a forged entry":        {"UPDATE entry SET caller = 'token:forged' WHERE n = 2", false},
		"a forged beginning":    {"UPDATE part SET office = x'00'", false},
		"other rows":            {"UPDATE part SET rows = 'other'", false},
		"another why":           {"UPDATE part SET why = 'joins'", false},
		"a part that isn't one": {"INSERT INTO part SELECT 3, 'adopts', chain, '', x'00' FROM entry WHERE n = 2", false},
		"a table":               {"CREATE TABLE more (x)", false},
		"a trigger":             {"CREATE TRIGGER more AFTER INSERT ON entry BEGIN UPDATE entry SET caller = 'token:forged' WHERE n = 2; END", false},
	} {
		other := newMachine(t, path)
		if taken := other.fetch(context.Background(), head, nil, other.giving(archive, one.statement)); taken != one.isTaken {
			t.Errorf("%s: it is taken: %v", what, taken)
		}
		if _, err := os.Stat(other.dir + fetchedSuffix); err == nil {
			t.Errorf("%s: the folder is left", what)
		}
	}
	for _, cut := range []int{0, 511, 512, 1024, len(archive) / 2, len(archive) - 1025} {
		other := newMachine(t, path)
		from := func(_ context.Context, _ int64, accept func(text io.Reader) error) error {
			return accept(bytes.NewReader(archive[:cut]))
		}
		if other.fetch(context.Background(), head, nil, from) {
			t.Errorf("%d bytes of %d are taken", cut, len(archive))
		}
	}
}

// What a record of another node has after the snapshot is nobody's word but that node's: it comes from the log, whatever was sent.
func TestFetchedLater(t *testing.T) {
	m, honest := newMachine(t, ""), newMachine(t, "")
	var path, head string
	for _, one := range []*machine{honest, m} {
		one.PartEntries = 1
		one.resume("", false)
		one.begin()
		one.do(addAnn, addRole)
		path, head = one.snapshot(7)
		one.do(assign)
		one.flush("NORMAL")
	}
	forge := func(archive []byte) recorded.Fetch {
		return m.giving(archive, "UPDATE entry SET caller = 'token:forged', chain = '"+chained(head[2:], &entry{
			n: 4, at: "2026-11-27T09:00:01.000Z", caller: "token:forged", reason: "why", request: assign, answer: accepted,
		})+"' WHERE n = 4")
	}
	for _, what := range []string{"in the same part", "in a later part"} {
		if what == "in a later part" {
			newest, last := m.snapshot(8)
			m.divided(newest, last)
		}
		other := newMachine(t, path)
		from := forge(m.sent())
		if what == "in a later part" {
			from = m.giving(m.sent(), "SELECT 1")
		}
		if err := other.Resume(context.Background(), head, true, from); err != nil {
			t.Fatal(err)
		}
		other.do(assign)
		other.follows(honest, 4)
	}
}

// A node that has wrong rows may have divided its record at a snapshot of them: no entry has the rows with which such a part begins.
func TestFetchedRows(t *testing.T) {
	wrong := newMachine(t, "")
	wrong.resume("", false)
	wrong.begin()
	wrong.do(addAnn, addRole, addBob)
	bad, _ := wrong.snapshot(7)
	for what, isTaken := range map[string]bool{"": true, bad: false} {
		m := newMachine(t, "")
		m.PartEntries = 1
		m.resume("", false)
		m.begin()
		m.do(addAnn, addRole)
		divided, text := m.snapshot(7)
		if what != "" {
			divided = what
		}
		if names := m.divided(divided, text); len(names) != 1 {
			t.Fatalf("it is in %v", names)
		}
		m.do(assign)
		newest, text := m.snapshot(8)
		head, err := ParseHead(text)
		if err != nil {
			t.Fatal(err)
		}
		other := newMachine(t, newest)
		if taken := other.fetch(context.Background(), head, nil, m.giving(m.sent(), "SELECT 1")); taken != isTaken {
			t.Errorf("divided at %s: it is taken: %v", filepath.Base(divided), taken)
		}
	}
}
