// Times decisions and commands from Go, as quick.c does from C: the lines of the office are on standard input.
package main

import (
	"bufio"
	"fmt"
	"log"
	"os"
	"sort"
	"time"

	"rbac/clients/go/rbacoffice"
)

const (
	rounds    = 200
	decisions = 2048
	commands  = 256
)

// perCall returns the median time of a call.
func perCall(count int, work func() error) time.Duration {
	took := make([]time.Duration, rounds)
	for i := range took {
		start := time.Now()
		if err := work(); err != nil {
			log.Fatal(err)
		}
		took[i] = time.Since(start) / time.Duration(count)
	}
	sort.Slice(took, func(i, j int) bool { return took[i] < took[j] })
	return took[rounds/2]
}

func main() {
	office, err := rbacoffice.Open()
	if err != nil {
		log.Fatal(err)
	}
	defer office.Close()
	for lines := bufio.NewScanner(os.Stdin); lines.Scan(); {
		if _, err := office.Answer(lines.Bytes()); err != nil {
			log.Fatal(err)
		}
	}
	var sessions, objects [decisions]string
	for i := range sessions {
		sessions[i], objects[i] = fmt.Sprintf("s%d", i*37%1000), fmt.Sprintf("o%d", i*91%1000)
	}
	lines := [][]byte{[]byte(`{"fn":"addUser","user":"extra"}`), []byte(`{"fn":"deleteUser","user":"extra"}`)}
	granted := 0
	decision := perCall(decisions, func() error {
		granted = 0
		for i := range sessions {
			allowed, err := office.Check(sessions[i], "read", objects[i])
			if err != nil {
				return err
			}
			if allowed {
				granted++
			}
		}
		return nil
	})
	command := perCall(commands, func() error {
		for i := 0; i < commands; i++ {
			if _, err := office.Answer(lines[i%2]); err != nil {
				return err
			}
		}
		return nil
	})
	fmt.Println(decision.Nanoseconds(), command.Nanoseconds(), granted)
}
