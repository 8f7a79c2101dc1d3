package record

import (
	"bytes"
	"context"
	"database/sql"
	"errors"
	"fmt"
	"os"
	"path/filepath"
	"strings"
	"testing"
	"time"

	"rbac-node/internal/disk"
	"rbac-node/internal/recorded"
)

const addBob = `{"fn":"addUser","user":"bob"}`

// divided lets a machine divide its record at a snapshot, and returns the names of its earlier parts.
func (m *machine) divided(snapshot, head string) (names []string) {
	m.Helper()
	m.Divide(context.Background(), snapshot, head)
	parts, _, err := partsIn(m.dir)
	if err != nil {
		m.Fatal(err)
	}
	for _, path := range parts {
		names = append(names, filepath.Base(path))
	}
	return names
}

// follows reports an error if a machine doesn't have the entries of another one, all of them once, as verify reads them.
func (m *machine) follows(other *machine, count int) {
	m.Helper()
	has, want := m.entries(), other.entries()
	if has != want || strings.Count(has, "\n") != count || m.Failure() != nil {
		m.Errorf("it has\n%s\nand the other one\n%s, %v", has, want, m.Failure())
	}
	if said, err := m.verify(nil); err != nil {
		m.Errorf("%s%v", said, err)
	}
}

// A node divides its record while it goes on. Its entries stay those of the others, and whoever reads them finds them all.
func TestDivide(t *testing.T) {
	first, second := newMachine(t, ""), newMachine(t, "")
	first.PartEntries = 3
	var path, head string
	for _, m := range []*machine{second, first} {
		m.resume("", false)
		m.begin()
		m.do(addAnn)
		path, head = m.snapshot(7)
		if m == first {
			if names := m.divided(path, head); names != nil {
				t.Errorf("with two entries it has %q", names)
			}
		}
		m.do(addRole)
		path, head = m.snapshot(8)
		m.do(assign, login) // They are written, but not in the snapshot.
		m.flush("NORMAL")
	}
	if names := strings.Join(first.divided(path, head), " "); names != "record-1-3.db" {
		t.Fatalf("it has %q", names)
	}
	first.do(addBob)
	second.do(addBob)
	first.follows(second, 6)
	if names := strings.Join(first.divided(path, head), " "); names != "record-1-3.db" {
		t.Errorf("at the same snapshot again it has %q", names)
	}
	page, err := first.Recorded(context.Background(), recorded.Query{Limit: 9})
	if err != nil || page.First != 1 || len(page.Entries) != 6 {
		t.Errorf("%+v, %v", page, err)
	}
	links, err := first.Links(context.Background(), 1)
	if err != nil || links.First != 1 || len(links.Entries) != 5 {
		t.Errorf("%+v, %v", links, err)
	}
	path, head = first.snapshot(9)
	if names := strings.Join(first.divided(path, head), " "); names != "record-1-3.db record-4-6.db" {
		t.Errorf("at the next snapshot it has %q", names)
	}
	first.flush("NORMAL")
	first.start(path)
	first.resume(head, false)
	first.do(`{"fn":"deleteUser","user":"bob"}`)
	second.do(`{"fn":"deleteUser","user":"bob"}`)
	first.follows(second, 7)
}

// A record that is being read is divided later, and nothing is written to other files meanwhile.
func TestDivideWaits(t *testing.T) {
	defer func(before time.Duration) { patience = before }(patience)
	patience = 100 * time.Millisecond
	m := newMachine(t, "")
	m.PartEntries = 1
	m.resume("", false)
	m.begin()
	m.do(addAnn)
	path, head := m.snapshot(7)
	tool := &Tool{Data: m.data, Out: os.Stdout}
	_, release, err := tool.files(context.Background())
	if err != nil {
		t.Fatal(err)
	}
	if names := m.divided(path, head); names != nil {
		t.Errorf("while somebody reads there is %q", names)
	}
	m.do(addBob)
	release()
	if names := strings.Join(m.divided(path, head), " "); names != "record-1-2.db" || m.Failure() != nil {
		t.Errorf("then there is %q, %v", names, m.Failure())
	}
}

// A crash while the record is divided loses no entry. The next start, from the newest snapshot or an older one, goes on with it.
func TestKilledDivide(t *testing.T) {
	for _, test := range []string{"the next file is made", "the file at hand has two names", "the next file is in place"} {
		for _, isOlder := range []bool{false, true} {
			t.Run(test, func(t *testing.T) {
				first, second := newMachine(t, ""), newMachine(t, "")
				var older, newer struct{ path, head string }
				for _, m := range []*machine{second, first} {
					m.resume("", false)
					m.begin()
					m.do(addAnn)
					older.path, older.head = m.snapshot(7)
					m.do(addRole)
					newer.path, newer.head = m.snapshot(8)
					m.do(assign)
					m.flush("NORMAL")
				}
				_ = first.Close()
				first.divideUntil(test, newer.path, newer.head)
				first.start(newer.path)
				first.follows(second, 4) // Before the node goes on.
				from, again := newer, []string{assign}
				if isOlder {
					from, again = older, []string{addRole, assign}
				}
				first.start(from.path)
				first.PartEntries = 1
				first.resume(from.head, false)
				first.do(again...)
				first.do(login)
				second.do(login)
				first.follows(second, 5)
				path, head := first.snapshot(9)
				names := first.divided(path, head)
				if len(names) == 0 || !strings.HasSuffix(names[len(names)-1], "-5.db") {
					t.Errorf("then it has %q", names)
				}
				first.do(addBob)
				second.do(addBob)
				first.follows(second, 6)
			})
		}
	}
}

// A start leaves what a killed division has left as long as somebody reads the record, and removes it then.
func TestTidyLater(t *testing.T) {
	m := newMachine(t, "")
	m.resume("", false)
	m.begin()
	m.do(addAnn)
	path, head := m.snapshot(7)
	_ = m.Close()
	m.divideUntil("the file at hand has two names", path, head)
	isLeft := func() bool {
		_, left, err := partsIn(m.dir)
		return err != nil || len(left) > 0
	}
	_, release, err := (&Tool{Data: m.data}).files(context.Background())
	if err != nil {
		t.Fatal(err)
	}
	m.start(path)
	m.resume(head, false)
	m.do(addRole)
	if m.flush("NORMAL"); !isLeft() || m.Failure() != nil {
		t.Errorf("while somebody reads, something is left: %v, %v", isLeft(), m.Failure())
	}
	release()
	within(t, "the other name is still there", func() bool { return !isLeft() })
}

// A node that is killed while it divides its record, and lacks entries before its next start, closes the file: no entry is there twice.
func TestKilledDivideBehind(t *testing.T) {
	for _, test := range []string{"the file at hand has two names", "the next file is in place"} {
		t.Run(test, func(t *testing.T) {
			first, second := newMachine(t, ""), newMachine(t, "")
			var path, head string
			for _, m := range []*machine{second, first} {
				m.resume("", false)
				m.begin()
				m.do(addAnn)
				path, head = m.snapshot(7)
				m.do(addRole)
				m.flush("NORMAL")
			}
			_ = first.Close()
			first.divideUntil(test, path, head)
			second.do(assign)
			path, head = second.snapshot(8)
			first.start(path)
			first.resume(head, true)
			first.do(login)
			if has := first.entries(); strings.Count(has, "addRole") != 1 || strings.Count(has, "\n") != 5 || !strings.Contains(has, "entries 4 to 4 are not here") {
				t.Errorf("it has\n%s", has)
			}
			if said, err := first.verify(nil); !errors.Is(err, ErrMissing) {
				t.Errorf("%s%v", said, err)
			}
		})
	}
}

// divideUntil does what divide does, up to a step.
func (m *machine) divideUntil(step, snapshot, text string) {
	m.Helper()
	head, err := ParseHead(text)
	if err != nil {
		m.Fatal(err)
	}
	var made *next
	err = m.withCopy(context.Background(), snapshot, func(copied, rows string) (err error) {
		made, err = newNext(context.Background(), m.dir, joinedAt(head, rows), "", copied)
		return err
	})
	if err == nil {
		err = mergeLog(m.path())
	}
	if err == nil && step != "the next file is made" {
		err = os.Link(m.path(), partPath(m.dir, 1, head.N))
	}
	if err == nil && step == "the next file is in place" {
		err = putInPlace(m.dir, made.making)
	}
	if err != nil {
		m.Fatal(err)
	}
}

// halfDivided lays out a record as a division at an entry leaves it that is killed before its last step, and returns its last entry. Its
// entries take several pages of SQLite.
func halfDivided(t *testing.T, dir string, at int64) (last int64) {
	t.Helper()
	if err := os.Mkdir(dir, 0o700); err != nil {
		t.Fatal(err)
	}
	if err := makeFile(dir, part{first: 1, why: beginning}, now(), "/dev/null"); err != nil {
		t.Fatal(err)
	}
	db, err := openFile(filepath.Join(dir, fileName), "")
	if err != nil {
		t.Fatal(err)
	}
	e, _, err := lastOf(db)
	if err != nil {
		t.Fatal(err)
	}
	var head Head
	var added []entry
	for e.n < at+12 {
		before := e.ch
		e = entry{n: e.n + 1, at: now(), caller: "token:desk", reason: "why", request: fmt.Sprintf(`{"fn":"addUser","user":"u%d"}`, e.n), answer: accepted}
		e.ch = chained(before, &e)
		if added = append(added, e); e.n == at {
			head = e.head()
		}
	}
	if err := disk.Close(db, inTransaction(db, func(tx *sql.Tx) error { return insertAll(tx, added, "NORMAL") })); err != nil {
		t.Fatal(err)
	}
	made, err := newNext(context.Background(), dir, joinedAt(head, ""), "", "/dev/null")
	if err == nil {
		_, err = made.putInPlace()
	}
	if err != nil {
		t.Fatal(err)
	}
	return e.n
}

// A hookedBuffer does something before it is first written to.
type hookedBuffer struct {
	bytes.Buffer
	before func()
}

func (b *hookedBuffer) Write(text []byte) (int, error) {
	if b.before != nil {
		b.before()
		b.before = nil
	}
	return b.Buffer.Write(text)
}

// Somebody completes a killed division while the record is shown, and does not wait for the reader. Each entry is shown once.
func TestShowKilledDivide(t *testing.T) {
	for at := int64(360); at < 390; at += 4 {
		data := t.TempDir()
		last := halfDivided(t, DirIn(data), at)
		out := &hookedBuffer{before: func() {
			if err := tidyParts(DirIn(data)); err != nil {
				t.Error(err)
			}
		}}
		if err := (&Tool{Data: data, Out: out, Err: out}).Show(context.Background(), Filter{}, Text); err != nil {
			t.Error(err)
		}
		n := int64(0)
		for _, line := range strings.Split(strings.TrimSuffix(out.String(), "\n"), "\n") {
			if n++; !strings.HasPrefix(line, fmt.Sprintf("%d\t", n)) {
				t.Fatalf("divided at %d, it shows %.20q in place of entry %d", at, line, n)
			}
		}
		if n != last {
			t.Errorf("divided at %d, it shows %d entries of %d", at, n, last)
		}
	}
}
