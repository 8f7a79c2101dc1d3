package boottime

import (
	"os"
	"os/exec"
	"strconv"
	"strings"
	"testing"
	"time"
)

// The clock is that of /proc/uptime, which counts the time in which the machine was suspended.
func TestNow(t *testing.T) { judgeNow(t) }

// As if the machine had been suspended for a day. That needs the rights of root, and a kernel with namespaces of times.
func TestSuspended(t *testing.T) {
	if os.Getenv(suspended) != "" {
		judgeNow(t)
		return
	}
	if err := exec.Command("unshare", "--time", "--boottime", "86400", "true").Run(); err != nil {
		t.Logf("not here: %v", err)
		return
	}
	again := exec.Command("unshare", "--time", "--boottime", "86400", os.Args[0], "-test.run", "^TestSuspended$")
	again.Env = append(os.Environ(), suspended+"=yes")
	if said, err := again.CombinedOutput(); err != nil {
		t.Errorf("%v: %s", err, said)
	}
}

// suspended is set in a run that has another time since the start of the machine.
const suspended = "RBAC_TEST_SUSPENDED"

func judgeNow(t *testing.T) {
	t.Helper()
	before := Now()
	text, err := os.ReadFile("/proc/uptime")
	if err != nil {
		t.Fatal(err)
	}
	after := Now()
	seconds, err := strconv.ParseFloat(strings.Fields(string(text))[0], 64)
	if err != nil {
		t.Fatal(err)
	}
	const step = 10 * time.Millisecond // That of the file.
	if at := time.Duration(seconds * 1e9); at < time.Duration(before)-2*step || at > time.Duration(after)+step {
		t.Errorf("%v is not from %v to %v", at, time.Duration(before), time.Duration(after))
	}
	if since := Since(before); since < time.Duration(after-before) || since > time.Minute {
		t.Errorf("%v", since)
	}
}
