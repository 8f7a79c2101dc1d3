package record

import (
	"context"
	"os"
	"os/exec"
	"path/filepath"
	"testing"
	"time"

	"rbac-node/internal/office"
)

// heldOffice names the variable with the office that this process holds when a test has started it.
const heldOffice = "RBAC_TEST_HELD_OFFICE"

// within waits until something is so.
func within(t *testing.T, what string, isSo func() bool) {
	t.Helper()
	for deadline := time.Now().Add(time.Minute); !isSo(); time.Sleep(time.Millisecond) {
		if time.Now().After(deadline) {
			t.Fatal(what)
		}
	}
}

// TestKilledHold kills a program that has paused the replay of an office. The replay goes on.
func TestKilledHold(t *testing.T) {
	tool := &Tool{Office: os.Getenv(heldOffice), Program: "sleep"}
	if tool.Office != "" {
		if _, err := tool.hold(context.Background()); err != nil {
			t.Fatal(err)
		}
		select {} // Until it is killed.
	}
	tool.Office = filepath.Join(t.TempDir(), "office")
	if err := os.WriteFile(tool.Office, nil, 0o600); err != nil {
		t.Fatal(err)
	}
	lock, err := office.Lock(context.Background(), tool.Office+".lock")
	if err != nil {
		t.Fatal(err)
	}
	defer lock.Close()
	replay := exec.Command("sleep", "1000")
	if replay.Stdin, err = os.Open(tool.Office); err == nil {
		err = replay.Start()
	}
	if err != nil {
		t.Fatal(err)
	}
	defer func() { _ = replay.Process.Kill(); _ = replay.Wait() }()
	// One that goes on by itself is continued, and paused again by the next one.
	for turn := 0; turn < 2; turn++ {
		release, err := tool.hold(context.Background())
		if err != nil || !isPaused(replay.Process.Pid) {
			t.Fatalf("it is not paused: %v", err)
		}
		if err := release(); err != nil {
			t.Fatal(err)
		}
		within(t, "it is still paused", func() bool { return !isPaused(replay.Process.Pid) })
	}
	holder := exec.Command(os.Args[0], "-test.run=^TestKilledHold$")
	holder.Env = append(os.Environ(), heldOffice+"="+tool.Office)
	if err := holder.Start(); err != nil {
		t.Fatal(err)
	}
	within(t, "it is not paused", func() bool { return isPaused(replay.Process.Pid) })
	_ = holder.Process.Kill()
	_ = holder.Wait()
	within(t, "it is paused after the death of the one that paused it", func() bool { return !isPaused(replay.Process.Pid) })
}
