package rbacclient

import (
	"bufio"
	"encoding/json"
	"io"
	"net"
	"net/http"
	"os"
	"strings"
	"sync"
	"testing"
)

const (
	right  = "HTTP/1.1 200 OK\r\nContent-Length: 24\r\n\r\n" + allowedText
	denied = "HTTP/1.1 200 OK\r\nContent-Length: 25\r\n\r\n" + deniedText
)

// server sends one answer after each request, and closes the connection unless it keeps it; or it resets the connection.
type server struct {
	net.Listener
	mu          sync.Mutex
	answer      string
	reset, keep bool
	requests    []*http.Request
	connections int
}

// set says what the next answers are. It returns the requests since the last call, and how many connections there were.
func (s *server) set(answer string, reset bool) ([]*http.Request, int) {
	s.mu.Lock()
	defer s.mu.Unlock()
	requests, connections := s.requests, s.connections
	s.answer, s.reset, s.requests, s.connections = answer, reset, nil, 0
	return requests, connections
}

func (s *server) address() string {
	return "http://" + s.Addr().String()
}

func serve(t *testing.T) *server {
	t.Helper()
	listener, err := net.Listen("tcp", "127.0.0.1:0")
	if err != nil {
		t.Fatal(err)
	}
	s := &server{Listener: listener}
	t.Cleanup(func() { listener.Close() })
	go func() {
		for {
			conn, err := listener.Accept()
			if err != nil {
				return
			}
			go s.converse(conn)
		}
	}()
	return s
}

func (s *server) converse(conn net.Conn) {
	defer conn.Close()
	s.mu.Lock()
	s.connections++
	s.mu.Unlock()
	reader := bufio.NewReader(conn)
	for {
		request, err := http.ReadRequest(reader)
		if err != nil {
			return
		}
		io.Copy(io.Discard, request.Body)
		s.mu.Lock()
		s.requests = append(s.requests, request)
		answer, reset, keep := s.answer, s.reset, s.keep
		s.mu.Unlock()
		if reset {
			conn.(*net.TCPConn).SetLinger(0)
			return
		}
		if _, err := io.WriteString(conn, answer); err != nil || !keep {
			return
		}
	}
}

// shared reads a file of clients/conformance.
func shared(t *testing.T, name string, into interface{}) {
	t.Helper()
	text, err := os.ReadFile("../../conformance/" + name)
	if err == nil {
		err = json.Unmarshal(text, into)
	}
	if err != nil {
		t.Fatal(err)
	}
}

// bytesOf is an answer as wrong_answers.json has it: texts, in which each character is a byte, or how often one comes.
func bytesOf(pieces []interface{}, port string) string {
	var answer strings.Builder
	for _, piece := range pieces {
		text, times := "", 1
		switch piece := piece.(type) {
		case string:
			text = piece
		case []interface{}:
			text, times = piece[0].(string), int(piece[1].(float64))
		}
		var one []byte
		for _, char := range strings.ReplaceAll(text, "{port}", port) {
			one = append(one, byte(char))
		}
		answer.WriteString(strings.Repeat(string(one), times))
	}
	return answer.String()
}
