// Command rbac-node answers clients from an office: on one machine from its file, or on several machines over a log in etcd.
// rbac-node --help lists the commands, and rbac-node COMMAND --help the options of one.
//
// See docs/reference/front.md, and docs/howto/cluster.md for several machines.
package main

import (
	"errors"
	"fmt"
	"os"
	"runtime"
	"runtime/debug"
	"strings"
)

// mostMemory is from how much memory on garbage is collected more often.
const mostMemory = 1 << 30

func main() {
	if os.Getenv("GOGC") == "" {
		// It keeps little memory and makes much garbage. Collecting it less often leaves more processor time to requests.
		debug.SetGCPercent(400)
	}
	if os.Getenv("GOMEMLIMIT") == "" {
		// With very many connections it is collected more often, rather than take five times the memory that they need.
		debug.SetMemoryLimit(mostMemory)
	}
	err := run(os.Args[1:])
	if err == nil {
		err = stdout.err
	}
	if err != nil {
		fmt.Fprintln(os.Stderr, "rbac-node:", err)
		status := statusError{1, nil}
		_ = errors.As(err, &status)
		os.Exit(status.status)
	}
}

// A statusError is an error with which the program ends with another status than 1.
type statusError struct {
	status int
	error
}

func serve(s *settings) error {
	if (s.office == "") != s.cluster.isChosen() {
		return errors.New("give --office FILE for one machine, or --etcd URL,.. for several")
	}
	if err := s.check(); err != nil {
		return err
	}
	if s.cluster.isChosen() {
		return s.cluster.serve(s)
	}
	return untilSignal(s.serveOne)
}

// version is that of the file VERSION.
const version = "1.0.0"

// What bin/node says at a build: the digest of the sources, and that of the proved program beside them.
var sources, proved string

// versionText says of what this program was built. Its first line is the name and the version alone.
func versionText() string {
	var out strings.Builder
	fmt.Fprintf(&out, "rbac-node %s\n", version)
	for _, one := range [][2]string{{"sources", sources}, {"proved program", proved}, {"built with", runtime.Version()}} {
		if one[1] != "" {
			fmt.Fprintf(&out, "%s: %s\n", one[0], one[1])
		}
	}
	return out.String()
}
