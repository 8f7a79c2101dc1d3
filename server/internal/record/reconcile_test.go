package record

import (
	"bytes"
	"context"
	"errors"
	"os"
	"os/exec"
	"path/filepath"
	"strings"
	"sync"
	"testing"

	"rbac-node/internal/api"
	"rbac-node/internal/feed"
	"rbac-node/internal/logs"
	"rbac-node/internal/office"
	"rbac-node/internal/programtest"
	"rbac-node/internal/state"
)

// A heard log is written by goroutines of a record while a test reads it.
type heard struct {
	mutex sync.Mutex
	text  bytes.Buffer
}

func (h *heard) Write(text []byte) (int, error) {
	h.mutex.Lock()
	defer h.mutex.Unlock()
	return h.text.Write(text)
}

func (h *heard) String() string {
	h.mutex.Lock()
	defer h.mutex.Unlock()
	return h.text.String()
}

func (h *heard) Reset() {
	h.mutex.Lock()
	defer h.mutex.Unlock()
	h.text.Reset()
}

// A bench is an office with its record, and no front.
type bench struct {
	*testing.T
	*Record
	log heard
}

func open(t *testing.T) *bench {
	t.Helper()
	b := &bench{T: t}
	file := filepath.Join(t.TempDir(), "office")
	if said, err := exec.Command(programtest.Path(t), "init", file).CombinedOutput(); err != nil {
		t.Fatalf("%s", said)
	}
	b.reopen(file)
	t.Cleanup(func() { _ = b.Record.close() })
	return b
}

func (b *bench) reopen(file string) {
	b.Helper()
	var err error
	b.Record, err = Open(context.Background(), Options{
		Office: file, Program: programtest.Path(b.T), Every: 1000, Log: logs.New(&b.log),
	})
	if err != nil {
		b.Fatal(err)
	}
}

// do does lines over the office, and returns the answers.
func (b *bench) do(lines ...string) []string {
	b.Helper()
	command := exec.Command(b.Program, "replay", b.Office)
	command.Stdin = strings.NewReader(strings.Join(lines, "\n") + "\n")
	out, err := command.Output()
	if err != nil {
		b.Fatal(err)
	}
	return strings.Split(strings.TrimSuffix(string(out), "\n"), "\n")
}

// unit returns a unit of one command.
func unit(t *testing.T, line string) *feed.Unit {
	t.Helper()
	call, err := api.ParseLine([]byte(line))
	if err != nil {
		t.Fatal(err)
	}
	call.Caller, call.Reason = "token:desk", "a reason"
	u := feed.NewUnit(call)
	if err := (&Record{}).Admit(u); err != nil {
		t.Fatal(err)
	}
	return u
}

// ask records commands that get no answer.
func (b *bench) ask(lines ...string) (units []*feed.Unit) {
	b.Helper()
	for _, line := range lines {
		units = append(units, unit(b.T, line))
	}
	if err := b.Keep(nil, units); err != nil {
		b.Fatal(err)
	}
	return units
}

// answer records answers to units.
func answer(units []*feed.Unit, answers []string) []*feed.Unit {
	for i, u := range units {
		u.Answers = [][]byte{[]byte(answers[i])}
	}
	return units
}

func (b *bench) count(condition string) (count int) {
	b.Helper()
	if err := b.db.QueryRow("SELECT count(*) FROM entry WHERE " + condition).Scan(&count); err != nil {
		b.Fatal(err)
	}
	return count
}

const (
	addAnn    = `{"fn":"addUser","user":"ann"}`
	deleteAnn = `{"fn":"deleteUser","user":"ann"}`
	addRole   = `{"fn":"addRole","role":"clerk"}`
	assign    = `{"fn":"assignUser","user":"ann","role":"clerk"}`
	login     = `{"fn":"createSession","user":"ann","roles":["clerk"],"session":"secret"}`
)

// TestBefore has commands without an answer, of which the office has done the first ones. The others stay, with their numbers.
func TestBefore(t *testing.T) {
	for _, test := range []struct {
		name        string
		lines       []string
		done, found int
	}{
		{"none is open", nil, 0, 0},
		{"none was done", []string{addAnn, addRole}, 0, 0},
		{"the first one was done", []string{addAnn, addRole, assign}, 1, 1},
		{"all were done", []string{addAnn, addRole, assign, login}, 4, 4},
		{"one that is refused before one that was done", []string{deleteAnn, addAnn}, 2, 2},
		{"refused ones at the end may have been done", []string{addAnn, addAnn, addAnn}, 1, 3},
		{"none was done, and the first one is refused", []string{deleteAnn, addAnn}, 0, 1},
		{"two that undo one another may have been done", []string{addAnn, deleteAnn, addRole}, 0, 2},
		{"the longest beginning counts", []string{addAnn, deleteAnn, addAnn, addRole}, 1, 3},
	} {
		t.Run(test.name, func(t *testing.T) {
			b := open(t)
			known := b.ask(`{"fn":"addRole","role":"known"}`)
			if err := b.Keep(answer(known, b.do(string(known[0].Lines[0]))), nil); err != nil {
				t.Fatal(err)
			}
			b.ask(test.lines...)
			if test.done > 0 {
				b.do(test.lines[:test.done]...)
			}
			for again := 0; again < 2; again++ { // The second time there is nothing to find.
				if err := b.Before(context.Background()); err != nil {
					t.Fatal(err)
				}
				found, never := b.count("found AND answer <> '"+lost+"'"), b.count("found AND answer = '"+lost+"'")
				if found != test.found || found+never != len(test.lines) || b.count("1") != 2+len(test.lines) {
					t.Errorf("%d entries were found and %d never done, and not %d of %d", found, never, test.found, len(test.lines))
				}
				if b.count("answer IS NULL OR chain IS NULL") > 0 {
					t.Error("an entry has no answer")
				}
			}
		})
	}
}

func TestBeforeRefuses(t *testing.T) {
	for _, test := range []struct {
		name  string
		wrong func(b *bench)
		says  string
	}{
		{"a command that nobody recorded", func(b *bench) { b.do(addRole) }, "not what the record gives"},
		{"the second of two commands alone", func(b *bench) { b.ask(addAnn, addRole); b.do(addRole) }, "not what the record gives"},
		{"an answer that the program doesn't give", func(b *bench) {
			if err := b.Keep(answer(b.ask(addAnn), []string{`{"code":3,"error":"UserExists"}`}), nil); err != nil {
				b.Fatal(err)
			}
		}, "and librbac gives"},
		{"an entry that is missing", func(b *bench) {
			b.ask(addAnn, addRole)
			if _, err := b.db.Exec("DELETE FROM entry WHERE n = 2"); err != nil {
				b.Fatal(err)
			}
		}, "entry 2 is missing"},
		{"a name that has the names of a row", func(b *bench) {
			b.answered(addAnn, addRole, assign)
			change(b.T, b.Office, "UPDATE pair_row SET a = 'ann' || char(9) || 'clerk', b = ''")
		}, "Damaged"},
		{"no office", func(b *bench) { _ = os.Truncate(b.Office, 0) }, "NotAnOffice"},
		{"neither a base nor a beginning", func(b *bench) {
			b.ask(addAnn)
			_ = os.Remove(filepath.Join(b.dir, base{1, b.newest()}.name()))
			if _, err := b.db.Exec("UPDATE part SET office = x'00'"); err != nil {
				b.Fatal(err)
			}
		}, errNoStart.Error()},
	} {
		t.Run(test.name, func(t *testing.T) {
			b := open(t)
			test.wrong(b)
			err := b.Before(context.Background())
			if err == nil || !strings.Contains(err.Error(), test.says) || strings.Contains(err.Error(), "\n") {
				t.Errorf("%v doesn't say %q in a line", err, test.says)
			}
		})
	}
}

func (b *bench) newest() string {
	found, err := basesIn(b.dir)
	if err != nil || len(found) == 0 {
		b.Fatal(err)
	}
	return found[0].rows
}

// TestDamagedBase passes over a base that has other rows than its name says.
func TestDamagedBase(t *testing.T) {
	b := open(t)
	units := b.ask(addAnn, addRole)
	if err := b.Keep(answer(units, b.do(addAnn, addRole)), nil); err != nil {
		t.Fatal(err)
	}
	path := filepath.Join(b.dir, base{1, b.newest()}.name())
	if err := office.Copy(b.Office, path); err != nil {
		t.Fatal(err)
	}
	if err := b.Before(context.Background()); err != nil {
		t.Error(err)
	}
}

// TestFull has no room for a while. What was answered meanwhile is kept once there is room, in its order.
func TestFull(t *testing.T) {
	b := open(t)
	limit := func(pages string) {
		t.Helper()
		if _, err := b.db.Exec("PRAGMA max_page_count = " + pages); err != nil {
			t.Fatal(err)
		}
	}
	first := b.ask(addAnn)
	limit("1") // It is at least what there is.
	long := `{"fn":"importAssignments","csv":"user,role` + strings.Repeat(`\nann,clerk`, 2000) + `"}`
	if err := b.Keep(answer(first, b.do(addAnn)), []*feed.Unit{unit(t, long)}); err == nil || !strings.Contains(err.Error(), "full") {
		t.Fatalf("without room: %v", err)
	}
	if b.Why() == "" || b.count("answer IS NOT NULL") != 1 || b.count("1") != 2 {
		t.Errorf("%q, %d answers", b.Why(), b.count("answer IS NOT NULL"))
	}
	limit("100000")
	second := b.ask(addRole)
	if err := b.Keep(answer(second, b.do(addRole)), nil); err != nil {
		t.Fatal(err)
	}
	if b.Why() != "" || b.count("answer IS NOT NULL") != 3 || b.Head().N != 3 {
		t.Errorf("%q, %d answers, head %v", b.Why(), b.count("answer IS NOT NULL"), b.Head())
	}
	if err := b.Before(context.Background()); err != nil {
		t.Error(err)
	}
}

// TestSessions has sessions whose names are digests of one another, and two names with one digest.
func TestSessions(t *testing.T) {
	b := open(t)
	lines := []string{addAnn, addRole, assign}
	for _, name := range []string{"s", state.DigestOf("s"), state.DigestOf(state.DigestOf("s")), "t"} {
		lines = append(lines, `{"fn":"createSession","user":"ann","roles":["clerk"],"session":"`+name+`"}`)
	}
	if err := b.Keep(answer(b.ask(lines...), b.do(lines...)), nil); err != nil {
		t.Fatal(err)
	}
	if err := b.Before(context.Background()); err != nil {
		t.Error(err)
	}
	copied := filepath.Join(t.TempDir(), "copy")
	plain, err := sumsOf(context.Background(), b.Program, b.Office, copied)
	if err != nil {
		t.Fatal(err)
	}
	if err := office.Copy(b.Office, copied); err != nil {
		t.Fatal(err)
	}
	if given, err := mapped(context.Background(), b.Program, copied); err != nil || given != plain.Digest {
		t.Errorf("%v, %v and not %v", err, given, plain.Digest)
	}
	if text, err := os.ReadFile(copied); err != nil || bytes.Contains(text, []byte("secret")) {
		t.Errorf("%v, or a name is left", err)
	}
	digestOf = func(string) string { return "the same" }
	defer func() { digestOf = state.DigestOf }()
	if err := b.Before(context.Background()); !errors.Is(err, errTwoNames) {
		t.Errorf("two names with one digest: %v", err)
	}
}

// TestRest makes bases, of which two are kept.
func TestRest(t *testing.T) {
	b := open(t)
	b.Every = 1
	for i, line := range []string{addAnn, addRole, assign, login} {
		if err := b.Keep(answer(b.ask(line), b.do(line)), nil); err != nil {
			t.Fatal(err)
		}
		if !b.IsDue() {
			t.Error("no base is due")
		}
		b.Rest()
		b.making.Wait()
		if b.IsDue() {
			t.Error("a base is due again")
		}
		bases, err := basesIn(b.dir)
		if err != nil || len(bases) != 2 || bases[0].n != int64(i+2) {
			t.Errorf("%v, %v", bases, err)
		}
	}
	file := b.Office
	if err := b.Close(true); err != nil {
		t.Fatal(err)
	}
	b.reopen(file)
	b.log.Reset()
	if err := b.Before(context.Background()); err != nil || strings.Contains(b.log.String(), "again") {
		t.Errorf("%v, or commands were done again: %s", err, &b.log)
	}
}
