package rbacclient

import (
	"bufio"
	"bytes"
	"context"
	"errors"
	"fmt"
	"io"
	"log"
	"net"
	"net/http"
	"os"
	"regexp"
	"strings"
	"testing"
	"time"
)

// harmless is one line of printable ASCII that isn't long.
var harmless = regexp.MustCompile(`^[ -~]{0,400}\n?$`)

// TestWrongAnswers sends what no client may take for a permission: clients/conformance/wrong_answers.json. Nothing that a client says
// about it has the token or the name of the session.
func TestWrongAnswers(t *testing.T) {
	var data struct {
		Token, Session string
		Cases          []struct {
			Name, Reason string
			Answer       []interface{}
			Reset        bool
		}
	}
	shared(t, "wrong_answers.json", &data)
	s := serve(t)
	_, port, _ := net.SplitHostPort(s.Addr().String())
	for _, test := range data.Cases {
		t.Run(test.Name, func(t *testing.T) {
			var said bytes.Buffer
			office, err := New(Config{Addresses: []string{s.address()}, Token: data.Token, Log: log.New(&said, "", 0), Pause: time.Hour})
			if err != nil {
				t.Fatal(err)
			}
			s.set(bytesOf(test.Answer, port), test.Reset)
			decision := office.Check(context.Background(), data.Session, "open", "safe")
			if decision.Allowed() || string(decision.Reason) != test.Reason {
				t.Errorf("got %t, %s; want %s", decision.Allowed(), decision.Reason, test.Reason)
			}
			if requests, _ := s.set(bytesOf(test.Answer, port), test.Reset); len(requests) != 1 {
				t.Errorf("%d requests", len(requests))
			}
			_, failure := office.SessionRoles(context.Background(), data.Session)
			if failure == nil {
				t.Fatal("the answer is taken for one")
			}
			texts := []string{said.String(), decision.Detail, failure.Error()}
			for _, text := range append(texts, fmt.Sprintf("%+v %#v", decision, decision), fmt.Sprintf("%+v", failure)) {
				if !harmless.MatchString(text) || strings.Contains(text, data.Token) || strings.Contains(text, data.Session) {
					t.Errorf("it says %q", text)
				}
			}
			for err := failure; err != nil; {
				if strings.Contains(err.Error(), data.Token) || strings.Contains(err.Error(), data.Session) {
					t.Errorf("what it wraps says %q", err)
				}
				wrapping, isWrapping := err.(interface{ Unwrap() error })
				if !isWrapping {
					break
				}
				err = wrapping.Unwrap()
			}
		})
	}
	var said bytes.Buffer
	office, _ := New(Config{Addresses: []string{s.address()}, Token: data.Token, Log: log.New(&said, "", 0), Pause: time.Hour})
	s.set(right, false)
	if decision := office.Check(context.Background(), data.Session, "open", "safe"); !decision.Allowed() || said.Len() > 0 {
		t.Errorf("the right answer is %s: %s", decision.Reason, said.String())
	}
}

// TestConnections keeps a connection after an answer of the server, and closes it after another one: clients/conformance/connections.json.
func TestConnections(t *testing.T) {
	var cases []struct {
		Name, Answer, Reason string
		Keeps                bool
	}
	shared(t, "connections.json", &cases)
	s := serve(t)
	s.mu.Lock()
	s.keep = true
	s.mu.Unlock()
	for _, test := range cases {
		office, err := New(Config{Addresses: []string{s.address()}, Log: log.New(io.Discard, "", 0), Pause: time.Hour})
		if err != nil {
			t.Fatal(err)
		}
		s.set(test.Answer, false)
		decision := office.Check(context.Background(), "s1", "open", "safe")
		_, first := s.set(right, false)
		isAllowed := office.May(context.Background(), "s1", "open", "safe")
		_, second := s.set(right, false)
		if string(decision.Reason) != test.Reason || first+second != map[bool]int{true: 1, false: 2}[test.Keeps] || !isAllowed {
			t.Errorf("%s: %s, %d connections, %t", test.Name, decision.Reason, first+second, isAllowed)
		}
		office.Close()
	}
}

// TestUnasked closes a connection on which something comes that nobody has asked for, and says nothing about it.
func TestUnasked(t *testing.T) {
	var said bytes.Buffer
	log.SetOutput(&said)
	defer log.SetOutput(os.Stderr)
	for _, late := range []string{right, "HTTP/1.1 400 Bad Request\r\n\r\nBearer secret", ""} {
		late := late
		listener, err := net.Listen("tcp", "127.0.0.1:0")
		if err != nil {
			t.Fatal(err)
		}
		asked := make(chan struct{})
		go func() {
			conn, err := listener.Accept()
			if err != nil {
				return
			}
			defer conn.Close()
			_, _ = http.ReadRequest(bufio.NewReader(conn))
			_, _ = io.WriteString(conn, right)
			<-asked
			_, _ = io.WriteString(conn, late)
			if late != "" {
				_, _ = conn.Read(make([]byte, 1)) // Until the client closes it.
			}
		}()
		office, err := New(Config{Addresses: []string{"http://" + listener.Addr().String()}})
		if err != nil {
			t.Fatal(err)
		}
		if !office.May(context.Background(), "s1", "open", "safe") {
			t.Error("the right answer denies")
		}
		close(asked)
		address := office.addresses[0]
		for isKept := true; isKept; time.Sleep(time.Millisecond) {
			address.mu.Lock()
			isKept = len(address.idle) > 0
			address.mu.Unlock()
		}
		listener.Close()
	}
	if said.Len() > 0 {
		t.Errorf("the standard logger has %q", said.String())
	}
}

// TestContext ends a call when its context does, and the connection isn't used again.
func TestContext(t *testing.T) {
	s := serve(t)
	s.mu.Lock()
	s.keep = true
	s.mu.Unlock()
	s.set("HTTP/1.1 200 OK\r\n", false)
	var said bytes.Buffer
	office, err := New(Config{Addresses: []string{s.address()}, Log: log.New(&said, "", 0)})
	if err != nil {
		t.Fatal(err)
	}
	ctx, cancel := context.WithCancel(context.Background())
	go func() {
		for isAsked := false; !isAsked; time.Sleep(time.Millisecond) {
			s.mu.Lock()
			isAsked = len(s.requests) > 0
			s.mu.Unlock()
		}
		cancel()
	}()
	_, err = office.CheckAccess(ctx, "s1", "open", "safe")
	if asError(err).Reason != Unanswered || !errors.Is(err, context.Canceled) {
		t.Errorf("a context that ends: %v", err)
	}
	if err := office.AddUser(ctx, "ann"); asError(err).Reason != Unreachable {
		t.Errorf("a context that has ended: %v", err)
	}
	if office.May(ctx, "s1", "open", "safe") || len(office.Counts()) > 0 || said.Len() > 0 {
		t.Errorf("a caller's cancel is counted %v, and logged %q", office.Counts(), said.String())
	}
	s.set(right, false)
	if !office.May(context.Background(), "s1", "open", "safe") {
		t.Error("the next question is denied")
	}
}
