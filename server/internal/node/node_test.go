package node

import (
	"context"
	"errors"
	"fmt"
	"io"
	"strings"
	"testing"
	"time"

	"github.com/prometheus/client_golang/prometheus"

	"rbac-node/internal/api"
	"rbac-node/internal/boottime"
	"rbac-node/internal/ledger"
	"rbac-node/internal/logs"
)

// The age of an answer counts from the newest state that it may be of.
func TestAgeOfAnswers(t *testing.T) {
	n, log := newNode(t)
	running(t, n.feed, n.confirm)
	eventually(t, "it is ready", func() bool { return n.Health().Ready })
	change(log, func() { log.lost = errFull })
	time.Sleep(2 * readInterval)
	before := boottime.Now()
	time.Sleep(100 * time.Millisecond)
	answer, err := n.Do(context.Background(), of(api.Local, question))
	if err != nil || answer.Newest == 0 || answer.Newest > before {
		t.Errorf("%v, an answer of a state of %v after it was heard of", err, time.Duration(answer.Newest-before))
	}
}

// A question waits until all is done that the log has when it comes.
func TestQuestionWaits(t *testing.T) {
	n, log := newNode(t)
	running(t, n.feed, n.confirm)
	change(log, func() { log.revision = 1 })
	answers := make(chan api.Answers)
	go func() {
		answer, err := n.Do(context.Background(), of(api.Question, `{"fn":"assignedRoles","user":"a"}`))
		if err != nil {
			t.Error(err)
		}
		answers <- answer
	}()
	select {
	case answer := <-answers:
		t.Fatalf("it was answered: %s", answer.Texts)
	case <-time.After(100 * time.Millisecond):
	}
	n.tasks <- task{0, func() { n.apply(entry(1, "a")) }}
	if answer := <-answers; len(answer.Texts) != 1 || string(answer.Texts[0]) != `{"ok":true,"value":[]}` || answer.Revision != 1 {
		t.Errorf("%s at %+v", answer.Texts, answer.Point)
	}
}

// A node whose office has failed answers nothing, says so, and ends with the next entry.
func TestFailedOffice(t *testing.T) {
	n, _ := newNode(t)
	n.hear(boottime.Now())
	n.state.Forget()
	if s := n.Health(); s.Ready || !strings.Contains(s.Why, "has failed") {
		t.Errorf("%+v", s)
	}
	if _, err := n.Do(context.Background(), of(api.Local, question)); !errors.Is(err, api.Unavailable) {
		t.Errorf("a question: %v", err)
	}
	n.tasks <- task{0, func() { n.apply(entry(1, "a")) }}
	if err := n.feed(context.Background()); err == nil || n.applied.Load().Revision != 0 {
		t.Errorf("it goes on: %v", err)
	}
}

func TestIsAlive(t *testing.T) {
	n, _ := newNode(t)
	if !n.IsAlive(context.Background()) {
		t.Error("a node that recovers is not alive")
	}
	running(t, n.feed)
	eventually(t, "it is fed", n.isFed.Load)
	if !n.IsAlive(context.Background()) {
		t.Error("a node that is fed is not alive")
	}
	stuck := make(chan struct{})
	n.tasks <- task{0, func() { <-stuck }}
	within, cancel := context.WithTimeout(context.Background(), 100*time.Millisecond)
	defer cancel()
	if n.IsAlive(within) {
		t.Error("a node that is stuck is alive")
	}
	close(stuck)
}

// An entry is done once, and what waits for it comes after it, in the order of the log.
func TestApply(t *testing.T) {
	n, _ := newNode(t)
	asked := ""
	n.perform(task{2, func() { asked = usersOf(t, n) }})
	n.perform(task{1, func() { n.apply(entry(2, "c")) }})
	lines := append(users("a"), nil, []byte(strings.Repeat("x", api.MaxLineBytes+1)))
	n.perform(task{0, func() { n.apply(entryOf(1, append(lines, users("b")...))) }})
	n.perform(task{0, func() { n.apply(entry(1, "d")) }})
	n.perform(task{0, func() { n.apply(entry(2, "d")) }})
	if asked != "a b c" || usersOf(t, n) != asked || len(n.held) > 0 || n.err != nil {
		t.Errorf("the users were %s, then %s, and %d wait: %v", asked, usersOf(t, n), len(n.held), n.err)
	}
	if at := n.applied.Load(); at.Revision != 2 || at.count != 5 {
		t.Errorf("applied is %+v", at)
	}
}

// A node ends when the log no longer has what it has done, whoever asks.
func TestLogWentBack(t *testing.T) {
	n, log := newNode(t)
	running(t, n.feed)
	done := entry(7, "a")
	n.tasks <- task{0, func() { n.apply(done) }}
	eventually(t, "it is done", func() bool { return n.applied.Load().Revision == 7 })
	log.lost = ledger.ErrWentBack
	if err := n.confirm(context.Background()); !errors.Is(err, ledger.ErrWentBack) {
		t.Errorf("%v", err)
	}
	if log.done != done.Place {
		t.Errorf("it asks for %+v", log.done)
	}
}

// Each command gets the answer of its own line, and its place.
func TestCommands(t *testing.T) {
	n, log := newNode(t)
	running(t, n.feed, n.appendCommands)
	for i := 1; i <= 3; i++ {
		answer, err := n.Do(context.Background(), of(api.Command, fmt.Sprintf(`{"fn":"addUser","user":"u%d"}`, i)))
		if err != nil || string(answer.Texts[0]) != `{"ok":true}` || answer.Revision != int64(i) || answer.Place != 0 {
			t.Fatalf("%+v, %v", answer, err)
		}
	}
	// A full etcd refuses a command at once.
	log.setFull(true)
	start := time.Now()
	if _, err := n.Do(context.Background(), of(api.Command, "c")); !errors.Is(err, api.Unavailable) {
		t.Errorf("%v", err)
	}
	if time.Since(start) >= n.options.AnswerTimeout {
		t.Error("it has waited for nothing")
	}
}

// A node that differs refuses everything, and one that hasn't heard of the log yet local questions.
func TestAskRefuses(t *testing.T) {
	n, _ := newNode(t)
	if _, err := n.Do(context.Background(), of(api.Local, question)); !errors.Is(err, api.Unavailable) {
		t.Errorf("%v", err)
	}
	n.differs.Store("at revision 9")
	for _, kind := range []api.Kind{api.Command, api.Question, api.Local} {
		if _, err := n.Do(context.Background(), of(kind, question)); !errors.Is(err, api.Diverged) {
			t.Errorf("%s: %v", kind, err)
		}
	}
}

// A node that turns out to differ while a request waits refuses it too, such as one that comes while the node recovers.
func TestAskRefusesWhatWaited(t *testing.T) {
	n, _ := newNode(t)
	for _, kind := range []api.Kind{api.Command, api.Question} {
		failed := make(chan error)
		go func() {
			_, err := n.Do(context.Background(), of(kind, question))
			failed <- err
		}()
		waiting := <-n.asked[kind]
		n.differs.Store("at revision 9")
		waiting.reply <- reply{}
		if err := <-failed; !errors.Is(err, api.Diverged) {
			t.Errorf("%s: %v", kind, err)
		}
		n.differs.Store("")
	}
}

// A node needs no program but the proved one.
func TestNewWithoutPrograms(t *testing.T) {
	t.Setenv("PATH", t.TempDir())
	if _, err := New(Options{Data: t.TempDir()}, newFakeLog(), logs.New(io.Discard), prometheus.NewRegistry()); err != nil {
		t.Error(err)
	}
}

// Two nodes may be in one process, and one that can't be made is none.
func TestNew(t *testing.T) {
	for i := 0; i < 2; i++ {
		newNode(t)
	}
	if n, err := New(Options{Data: "/dev/null"}, newFakeLog(), logs.New(io.Discard), prometheus.NewRegistry()); n != nil || err == nil {
		t.Errorf("%v, %v", n, err)
	}
}
