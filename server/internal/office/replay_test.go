package office

import (
	"context"
	"fmt"
	"os"
	"path/filepath"
	"strings"
	"syscall"
	"testing"
	"time"

	"rbac-node/internal/programtest"
)

func start(t *testing.T) (*Replay, string) {
	file := filepath.Join(t.TempDir(), "office")
	if err := Run(context.Background(), programtest.Path(t), "init", file); err != nil {
		t.Fatal(err)
	}
	r, err := Start(programtest.Path(t), file, time.Minute)
	if err != nil {
		t.Fatal(err)
	}
	return r, file
}

func TestReplayAnswersInOrder(t *testing.T) {
	r, file := start(t)
	const count = 3 * maxWaitingLines
	var answers []string
	for i := 0; i < count; i++ {
		r.Send([]byte(fmt.Sprintf(`{"fn":"assignedRoles","user":"%s"}`, strings.Repeat("x", i%60+1))), func(answer []byte) {
			answers = append(answers, string(answer))
		})
	}
	r.Send([]byte(`{"fn":"addUser","user":"ann"}`), func(answer []byte) { answers = append(answers, string(answer)) })
	if err := r.Close(); err != nil {
		t.Fatal(err)
	}
	if len(answers) != count+1 || answers[0] != `{"code":2,"error":"NoUser"}` || answers[count] != `{"ok":true}` {
		t.Errorf("%d answers, the last is %s", len(answers), answers[len(answers)-1])
	}
	if left, _ := filepath.Glob(file + "?*"); len(left) > 0 {
		t.Errorf("%v is left beside the file", left)
	}
	if err := Run(context.Background(), programtest.Path(t), "check", file); err != nil {
		t.Errorf("the file: %v", err)
	}
}

// A replay is silent while it answers nothing although lines wait, and only then.
func TestSilence(t *testing.T) {
	r, _ := start(t)
	answered := make(chan struct{})
	ask := func() {
		r.Send([]byte(`{"fn":"ssdRoleSets"}`), func([]byte) { answered <- struct{}{} })
		r.Flush()
	}
	ask()
	<-answered
	time.Sleep(20 * time.Millisecond)
	if silence := r.Silence(); silence != 0 {
		t.Errorf("nothing waits, and it is silent for %v", silence)
	}
	if err := syscall.Kill(r.command.Process.Pid, syscall.SIGSTOP); err != nil {
		t.Fatal(err)
	}
	before := time.Now()
	ask()
	time.Sleep(20 * time.Millisecond)
	if silence := r.Silence(); silence < 20*time.Millisecond || silence > time.Since(before) {
		t.Errorf("it is silent for %v", silence)
	}
	if err := syscall.Kill(r.command.Process.Pid, syscall.SIGCONT); err != nil {
		t.Fatal(err)
	}
	<-answered
	if err := r.Close(); err != nil || r.Silence() != 0 {
		t.Errorf("at the end: %v, %v", r.Silence(), err)
	}
}

func TestReplayThatIsKilled(t *testing.T) {
	r, _ := start(t)
	if err := r.command.Process.Signal(syscall.SIGKILL); err != nil {
		t.Fatal(err)
	}
	<-r.Ended()
	r.Send([]byte("{}"), func([]byte) { t.Error("there is an answer") })
	if r.Close() == nil {
		t.Error("the end is not noticed")
	}
}

func TestReplayThatStops(t *testing.T) {
	r, _ := start(t)
	r.Send([]byte(strings.Repeat("x", 65_537)), func([]byte) { t.Error("there is an answer") })
	if err := r.Close(); err == nil || !strings.Contains(err.Error(), "stop Line 1") {
		t.Errorf("why it ended: %v", err)
	}
}

// hanging returns a program that reads and answers nothing.
func hanging(t *testing.T, end string) string {
	path := filepath.Join(t.TempDir(), "rbac")
	if err := os.WriteFile(path, []byte("#!/bin/sh\n"+end+"\n"), 0o700); err != nil {
		t.Fatal(err)
	}
	return path
}

// A replay that answers nothing is killed, also at its end. One that has nothing to answer is not.
func TestReplayThatHangs(t *testing.T) {
	const hangTimeout = 250 * time.Millisecond
	for _, one := range []struct {
		name string
		line bool
	}{{"with a line", true}, {"at its end", false}} {
		t.Run(one.name, func(t *testing.T) {
			r, err := Start(hanging(t, "exec sleep 60"), "office", hangTimeout)
			if err != nil {
				t.Fatal(err)
			}
			select {
			case <-r.Ended():
				t.Fatal("it was killed although nothing waits")
			case <-time.After(2 * hangTimeout):
			}
			if one.line {
				r.Send([]byte("{}"), func([]byte) { t.Error("there is an answer") })
				r.Flush()
				<-r.Ended()
			}
			if err := r.Close(); err == nil || !strings.Contains(err.Error(), "answered nothing for too long") {
				t.Errorf("why it ended: %v", err)
			}
		})
	}
}

func TestReplayThatCannotStart(t *testing.T) {
	if r, err := Start("/nonexistent", "office", time.Minute); err == nil || r != nil {
		t.Errorf("%v, %v", r, err)
	}
}

// A check that hangs ends with its context.
func TestRunEndsWithItsContext(t *testing.T) {
	within, cancel := context.WithTimeout(context.Background(), 100*time.Millisecond)
	defer cancel()
	if err := Run(within, hanging(t, "exec sleep 60"), "check", "office"); err == nil {
		t.Error("a check that hangs has succeeded")
	}
}
