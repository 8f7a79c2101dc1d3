package web

import (
	"net"
	"testing"
	"time"
)

// A writer notes the deadline at which something is written.
type writer struct {
	net.Conn
	deadline, at time.Time
}

func (w *writer) SetWriteDeadline(deadline time.Time) error {
	w.deadline = deadline
	return nil
}

func (w *writer) Write(text []byte) (int, error) {
	w.at = w.deadline
	return len(text), nil
}

// What is written has to be taken in time, and before the deadline of the server.
func TestConn(t *testing.T) {
	now := time.Now()
	for _, test := range []struct {
		name      string
		server    time.Time
		from, til time.Duration
	}{
		{"no deadline of the server", time.Time{}, writeTimeout, writeTimeout + time.Minute},
		{"a later one", now.Add(time.Hour), writeTimeout, writeTimeout + time.Minute},
		{"an earlier one", now.Add(time.Second), time.Second, time.Second},
		{"one that has passed", now.Add(-time.Second), -time.Second, -time.Second},
	} {
		t.Run(test.name, func(t *testing.T) {
			w := &writer{}
			c := &Conn{Conn: w}
			if err := c.SetWriteDeadline(test.server); err != nil {
				t.Fatal(err)
			}
			for i := 0; i < 2; i++ {
				if _, err := c.Write([]byte("x")); err != nil {
					t.Fatal(err)
				}
				if given := w.at.Sub(now); given < test.from-time.Millisecond || given > test.til+time.Millisecond {
					t.Errorf("%v after now", given)
				}
			}
		})
	}
}
