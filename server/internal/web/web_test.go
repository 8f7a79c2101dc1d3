package web

import (
	"bufio"
	"context"
	"io"
	"net"
	"net/http"
	"strings"
	"testing"
	"time"
)

// served returns the address of a server, which ends with the test.
func served(t *testing.T, connections int, limits Limits, handler http.HandlerFunc) string {
	listener, err := Listen("127.0.0.1:0", TLS{})
	if err != nil {
		t.Fatal(err)
	}
	ended := make(chan error, 1)
	server := ServeIn(NewRoom(connections), func(work func() error) { go func() { ended <- work() }() }, listener, handler, limits)
	t.Cleanup(func() {
		over, cancel := context.WithCancel(context.Background())
		cancel()
		Shutdown(over, server)
		if err := <-ended; err != nil {
			t.Error(err)
		}
	})
	return listener.Addr().String()
}

func dial(t *testing.T, address string) net.Conn {
	conn, err := net.Dial("tcp", address)
	if err != nil {
		t.Fatal(err)
	}
	t.Cleanup(func() { conn.Close() })
	return conn
}

const request = "GET / HTTP/1.1\r\nHost: a\r\n\r\n"

// ask sends a request, and returns whether it was answered before the connection was closed.
func ask(t *testing.T, conn net.Conn) bool {
	_ = conn.SetDeadline(time.Now().Add(20 * time.Second))
	if _, err := io.WriteString(conn, request); err != nil {
		return false
	}
	reply, err := http.ReadResponse(bufio.NewReader(conn), nil)
	if err != nil {
		return false
	}
	_, err = io.Copy(io.Discard, reply.Body)
	return err == nil
}

// A client that reads nothing doesn't keep its connection.
func TestNeverReading(t *testing.T) {
	answer := strings.Repeat("x", 1<<20)
	left := make(chan struct{})
	address := served(t, 10, Limits{AnswerTimeout: 200 * time.Millisecond}, func(w http.ResponseWriter, _ *http.Request) {
		for i := 0; i < 64; i++ { // More than any socket holds.
			if _, err := io.WriteString(w, answer); err != nil {
				close(left)
				return
			}
		}
	})
	if _, err := io.WriteString(dial(t, address), request); err != nil {
		t.Fatal(err)
	}
	select {
	case <-left:
	case <-time.After(20 * time.Second):
		t.Error("the connection is kept")
	}
}

// If there are as many connections as may be, an idle one makes room.
func TestConnections(t *testing.T) {
	stuck, busy := make(chan struct{}), make(chan struct{}, 10)
	address := served(t, 3, Limits{AnswerTimeout: time.Minute}, func(w http.ResponseWriter, r *http.Request) {
		if r.URL.Path == "/stuck" {
			busy <- struct{}{}
			<-stuck
		}
	})
	defer close(stuck)
	working := dial(t, address)
	if _, err := io.WriteString(working, strings.Replace(request, "/", "/stuck", 1)); err != nil {
		t.Fatal(err)
	}
	<-busy
	for i := 0; i < 10; i++ {
		if !ask(t, dial(t, address)) {
			t.Fatalf("connection %d is not answered", i)
		}
	}
}

// A fakeConn notes that it is closed.
type fakeConn struct {
	net.Conn
	closed chan struct{}
}

func (f *fakeConn) Close() error {
	close(f.closed)
	return nil
}

// The connection makes room that has been without a request for longest, or else the one that has been idle for longest, and none
// that has only just come or waits for an answer.
func TestCloseOne(t *testing.T) {
	for _, test := range []struct {
		name   string
		states []http.ConnState
		// isOld says that the new ones came some time ago, and isStrange that nobody may be here who has sent a request.
		isOld, isStrange bool
		// closed is the connection that is closed, or -1.
		closed int
	}{
		{"the first idle one", []http.ConnState{http.StateActive, http.StateIdle, http.StateIdle}, true, false, 1},
		{"a new one that came some time ago", []http.ConnState{http.StateIdle, http.StateActive, http.StateNew, http.StateNew}, true, false, 2},
		{"one whose request shows no right", []http.ConnState{http.StateIdle, http.StateActive, http.StateNew}, true, true, 1},
		{"none while one has just come", []http.ConnState{http.StateNew, http.StateIdle}, false, false, -1},
		{"none that has ended", []http.ConnState{http.StateClosed, http.StateIdle}, true, false, 1},
		{"none", nil, true, false, -1},
	} {
		t.Run(test.name, func(t *testing.T) {
			r := NewRoom(9)
			var conns []*fakeConn
			for i, state := range test.states {
				conns = append(conns, &fakeConn{closed: make(chan struct{})})
				r.taken <- struct{}{}
				r.noteState(conns[i], http.StateNew)
				r.noteState(conns[i], state)
				if state == http.StateActive && !test.isStrange {
					Admitted(context.WithValue(context.Background(), placeKey{}, place{r, conns[i]}))
				}
			}
			for place := r.fresh.order.Front(); place != nil && test.isOld; place = place.Next() {
				place.Value = waiting{place.Value.(waiting).conn, time.Now().Add(-time.Hour)}
			}
			r.closeOne()
			if test.closed >= 0 {
				<-conns[test.closed].closed
				r.noteState(conns[test.closed], http.StateClosed)
			}
			for i, conn := range conns {
				select {
				case <-conn.closed:
					if i != test.closed {
						t.Errorf("connection %d is closed", i)
					}
				default:
				}
				if state := test.states[i]; state != http.StateClosed && i != test.closed {
					r.noteState(conn, http.StateClosed)
				}
			}
			if left := r.Connections() + r.fresh.order.Len() + r.idle.order.Len() + len(r.fresh.places) + len(r.idle.places); left > 0 {
				t.Errorf("%d are left", left)
			}
		})
	}
}

// A connection whose request is refused before it has come makes room, until its request is done.
func TestRefused(t *testing.T) {
	for _, test := range []struct {
		name     string
		refused  bool
		isDone   bool
		isClosed bool
	}{
		{"a request that is answered", false, false, false},
		{"one that is refused", true, false, true},
		{"one that was refused before another one came", true, true, false},
	} {
		t.Run(test.name, func(t *testing.T) {
			r, conn := NewRoom(9), &fakeConn{closed: make(chan struct{})}
			ctx := context.WithValue(context.Background(), placeKey{}, place{r, conn})
			r.noteState(conn, http.StateNew)
			r.noteState(conn, http.StateActive)
			Admitted(ctx)
			if test.refused {
				Refused(ctx)
			}
			if test.isDone {
				r.noteState(conn, http.StateIdle)
				r.noteState(conn, http.StateActive)
				Admitted(ctx)
			}
			for at := r.fresh.order.Front(); at != nil; at = at.Next() {
				at.Value = waiting{conn, time.Now().Add(-time.Hour)}
			}
			r.closeOne()
			if test.isClosed {
				<-conn.closed
				return
			}
			select {
			case <-conn.closed:
				t.Error("it is closed")
			case <-time.After(50 * time.Millisecond):
			}
		})
	}
	Refused(context.Background()) // Without a server it means nothing.
}

// Connections that wait for their answers are not closed: others wait until there is room.
func TestConnectionsBusy(t *testing.T) {
	stuck, busy := make(chan struct{}), make(chan struct{}, 10)
	address := served(t, 2, Limits{AnswerTimeout: time.Minute}, func(w http.ResponseWriter, _ *http.Request) {
		busy <- struct{}{}
		<-stuck
	})
	answered := make(chan bool, 3)
	for i := 0; i < 3; i++ {
		conn := dial(t, address)
		go func() { answered <- ask(t, conn) }()
	}
	<-busy
	<-busy
	select {
	case <-busy:
		t.Error("there are three at once")
	case <-time.After(20 * roomInterval):
	}
	close(stuck)
	for i := 0; i < 3; i++ {
		if !<-answered {
			t.Error("a connection got no answer")
		}
	}
}

func TestTLSRefuses(t *testing.T) {
	for _, one := range []struct {
		name  string
		files TLS
	}{
		{"no certificate", TLS{CA: "/etc/ssl/certs/ca-certificates.crt"}},
		{"a file that is missing", TLS{Cert: "/nonexistent", Key: "/nonexistent"}},
		{"an authority without a certificate", TLS{CA: "/dev/null"}},
	} {
		t.Run(one.name, func(t *testing.T) {
			if _, err := Listen("127.0.0.1:0", one.files); err == nil {
				t.Error("it listens")
			}
		})
	}
}
