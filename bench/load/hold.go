package main

import (
	"fmt"
	"io"
	"net"
	"sync"
	"sync/atomic"
	"time"
)

const (
	// slowPause is the time between two bytes of a slow client.
	slowPause = 400 * time.Millisecond
	// beginning is the beginning of a request, and wholeRequest a request that any server answers.
	beginning    = "POST /v1/ssdRoleSets HTTP/1.1\r\nHost: localhost\r\nContent-Len"
	wholeRequest = "GET /healthz HTTP/1.1\r\nHost: localhost\r\n\r\n"
)

// ways are those in which a connection can be a burden.
var ways = map[string]func(net.Conn){
	// An idle one has asked once.
	"idle": func(conn net.Conn) {
		_, _ = io.WriteString(conn, wholeRequest)
		_, _ = io.Copy(io.Discard, conn)
	},
	// A half open one never sends the rest of its request.
	"half": func(conn net.Conn) {
		_, _ = io.WriteString(conn, beginning)
		_, _ = io.Copy(io.Discard, conn)
	},
	// One without a body sends a head, and no token.
	"body": func(conn net.Conn) {
		_, _ = io.WriteString(conn, beginning+"gth: 9\r\n\r\n")
		_, _ = io.Copy(io.Discard, conn)
	},
	// A slow one sends its head byte by byte.
	"slow": func(conn net.Conn) {
		for _, err := io.WriteString(conn, beginning); err == nil; _, err = io.WriteString(conn, "x") {
			time.Sleep(slowPause)
		}
	},
}

// hold keeps as many connections as there are clients, some of each of the ways, until the time is over. One that the server closes
// is made again.
func hold(o options, names []string) error {
	var made, failed atomic.Int64
	var group sync.WaitGroup
	end := time.Now().Add(time.Duration(o.seconds * float64(time.Second)))
	for client := 0; client < o.clients; client++ {
		way, known := ways[names[client%len(names)]]
		if !known {
			return fmt.Errorf("unknown way %q", names[client%len(names)])
		}
		// A connection that was closed keeps its port for a while, and one address has too few ports.
		dialer := net.Dialer{LocalAddr: &net.TCPAddr{IP: net.IPv4(127, 0, 1, byte(1+client%200))}, Deadline: end}
		target := o.targets[client%len(o.targets)]
		group.Add(1)
		go func() {
			defer group.Done()
			for time.Now().Before(end) {
				conn, err := dialer.Dial("tcp", target)
				if err != nil {
					failed.Add(1)
					time.Sleep(slowPause)
					continue
				}
				made.Add(1)
				_ = conn.SetDeadline(end)
				way(conn)
				_ = conn.Close()
			}
		}()
	}
	group.Wait()
	fmt.Printf("%d connections at once, %d made, %d attempts failed\n", o.clients, made.Load(), failed.Load())
	return nil
}
