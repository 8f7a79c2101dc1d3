package main

import (
	"context"
	"errors"
	"flag"
	"net"
	"os"
	"path/filepath"
	"strings"
	"testing"
	"time"
)

// Words that are no command are refused by one line, with status 2.
func TestUnknown(t *testing.T) {
	unknown := [][]string{{}, {"fly"}, {"records"}, {"-office"}, {"record", "fly"}, {"record"}}
	for _, words := range unknown {
		var status statusError
		if err := run(words); !errors.As(err, &status) || status.status != usageStatus || strings.Contains(err.Error(), "\n") {
			t.Errorf("%v: %v", words, err)
		}
	}
}

// Each flag is in the help of its command, below what it is about, and the list of subjects has no flag that no command has.
func TestHelp(t *testing.T) {
	has := map[string]bool{}
	for _, one := range commands() {
		flags := flag.NewFlagSet("", flag.ContinueOnError)
		one.prepare(flags)
		help := one.help(flags)
		flags.VisitAll(func(f *flag.Flag) {
			if count := strings.Count(help, "\n  --"+f.Name+" ") + strings.Count(help, "\n  --"+f.Name+"\n"); count != 1 {
				t.Errorf("%s: --%s is there %d times", one.name, f.Name, count)
			}
			has[f.Name], has[one.name+" "+f.Name] = true, true
		})
		if given := strings.Count(help, "\n  --"); given != countFlags(flags) {
			t.Errorf("%s: %d options in the help of %d", one.name, given, countFlags(flags))
		}
		if !strings.Contains(helpText(""), "\n  rbac-node "+one.name+" ") {
			t.Errorf("%s is not in the list", one.name)
		}
		for _, words := range [][]string{append(strings.Fields(one.name), "--help"), append(strings.Fields(one.name), "-h")} {
			if err := run(words); err != nil {
				t.Errorf("%v: %v", words, err)
			}
		}
	}
	for _, about := range subjects {
		for _, name := range about.flags {
			if !has[name] {
				t.Errorf("%s: no command has --%s", about.title, name)
			}
		}
	}
	for _, words := range [][]string{{"--help"}, {"-h"}, {"record", "--help"}, {"--version"}} {
		if err := run(words); err != nil {
			t.Errorf("%v: %v", words, err)
		}
	}
}

func countFlags(flags *flag.FlagSet) (count int) {
	flags.VisitAll(func(*flag.Flag) { count++ })
	return count
}

// What is wrong with options or arguments is said in one line that names the command.
func TestUsage(t *testing.T) {
	for _, words := range [][]string{{"serve", "x"}, {"serve", "--fly"}, {"setup"}, {"callers"}, {"health"}, {"adopt"}, {"serve", "--connections", "many"}} {
		var status statusError
		err := run(words)
		if err == nil || errors.As(err, &status) || strings.Contains(err.Error(), "\n") || !strings.Contains(err.Error(), "rbac-node "+words[0]) {
			t.Errorf("%v: %v", words, err)
		}
	}
}

// An origin that no browser sends is refused, and so is null, which any site can make a browser send.
func TestOrigins(t *testing.T) {
	s := &settings{}
	for text, isRight := range map[string]bool{
		"": true, "https://a.example": true, "http://localhost:8080,https://[::1]:1": true, "chrome-extension://abc": true,
		"null": false, "*": false, "https://*.example": false, "https://a.example/": false, "https://A.example": false,
		"https://a.example, https://b.example": false, "https://a.example,null": false, "a.example": false, "https://": false,
	} {
		s.origins, s.front.PublicURL = text, ""
		if err := s.checkURLs(); (err == nil) != isRight {
			t.Errorf("origin %q: %v", text, err)
		}
	}
	for text, isRight := range map[string]bool{
		"https://a.example": true, "https://a.example/": true, "http://a/b/c": true,
		"javascript:x": false, "https://a?b": false, "a.example": false, "https://": false,
	} {
		s.origins, s.front.PublicURL = "", text
		if err := s.checkURLs(); (err == nil) != isRight {
			t.Errorf("URL %q: %v", text, err)
		}
	}
	for _, words := range [][]string{{"serve", "--office", "none", "--origin", "null"}, {"serve", "--office", "none", "--public-url", "x"}} {
		if err := run(words); err == nil || !strings.Contains(err.Error(), words[3]+": ") {
			t.Errorf("%v: %v", words, err)
		}
	}
}

// The process reports to systemd that it is ready, and then again and again that it is alive, but only while it is.
func TestWatchdog(t *testing.T) {
	path := filepath.Join(t.TempDir(), "notify")
	socket, err := net.ListenUnixgram("unixgram", &net.UnixAddr{Name: path, Net: "unixgram"})
	if err != nil {
		t.Fatal(err)
	}
	defer socket.Close()
	t.Setenv("NOTIFY_SOCKET", path)
	t.Setenv("WATCHDOG_USEC", "40000")
	said := func() (string, error) {
		text := make([]byte, 100)
		n, err := socket.Read(text)
		return string(text[:n]), err
	}
	ctx, cancel := context.WithCancel(context.Background())
	done, isStuck, stuck := make(chan struct{}), make(chan struct{}), make(chan struct{})
	go func() {
		defer close(done)
		watchdog(ctx, func(ctx context.Context) bool {
			select {
			case <-isStuck:
				<-ctx.Done()
				stuck <- struct{}{}
				return false
			default:
				return true
			}
		})
	}()
	for _, wanted := range []string{"READY=1", "WATCHDOG=1", "WATCHDOG=1", "WATCHDOG=1"} {
		if text, err := said(); text != wanted || err != nil {
			t.Fatalf("%q, %v", text, err)
		}
	}
	close(isStuck)
	<-stuck
	// What it said before it was stuck is read. Afterwards there is nothing.
	_ = socket.SetReadDeadline(time.Now().Add(100 * time.Millisecond))
	for err == nil {
		_, err = said()
	}
	for i := 0; i < 3; i++ {
		<-stuck
	}
	_ = socket.SetReadDeadline(time.Now().Add(100 * time.Millisecond))
	if text, err := said(); !errors.Is(err, os.ErrDeadlineExceeded) {
		t.Errorf("%q, %v", text, err)
	}
	cancel()
	go func() {
		for range stuck {
		}
	}()
	<-done
	close(stuck)
}

func TestNotifyWithoutSystemd(t *testing.T) {
	t.Setenv("NOTIFY_SOCKET", "")
	t.Setenv("WATCHDOG_USEC", "")
	watchdog(context.Background(), func(context.Context) bool { return true })
}
