// Package web has servers of HTTP/1.1 on which no client holds up another one, with and without TLS.
package web

import (
	"container/list"
	"context"
	"crypto/tls"
	"crypto/x509"
	"errors"
	"fmt"
	"log"
	"net"
	"net/http"
	"os"
	"sync"
	"sync/atomic"
	"syscall"
	"time"
)

const (
	// RequestTimeout is how long a client may take to send a request, and headTimeout how long its head.
	RequestTimeout, headTimeout = 10 * time.Second, 5 * time.Second
	// idleTimeout is how long a connection may be kept without a request.
	idleTimeout  = 2 * time.Minute
	maxHeadBytes = 8192
	// writeTimeout is how long a client may take to take what is written at once: an answer, or a part of a long one.
	writeTimeout = 10 * time.Second
	// spareDescriptors is how many file descriptors a process needs for anything but connections.
	spareDescriptors = 256
	// roomInterval is how long a listener without room waits before it looks for a connection that can be closed again.
	roomInterval = 10 * time.Millisecond
	// freshTime is how long a connection without a request is not closed in favour of another one.
	freshTime = 100 * time.Millisecond
)

// TLS names the files of one side of connections. Without any of them the side has no TLS.
type TLS struct {
	// Cert and Key are those of this node, and CA is the authority of the certificates of the other side.
	Cert, Key, CA string
}

// Scheme returns https if there is a file.
func (t TLS) Scheme() string {
	if t.Cert+t.Key+t.CA != "" {
		return "https"
	}
	return "http"
}

// read returns what both sides have in common. The certificate is read again for each connection.
func (t TLS) read() (config *tls.Config, certificate func() (*tls.Certificate, error), err error) {
	config = &tls.Config{MinVersion: tls.VersionTLS12, CipherSuites: suites}
	certificate = func() (*tls.Certificate, error) {
		pair, err := tls.LoadX509KeyPair(t.Cert, t.Key)
		return &pair, err
	}
	if t.Cert+t.Key != "" {
		if _, err := certificate(); err != nil {
			return nil, nil, fmt.Errorf("certificate: %w", err)
		}
	}
	config.RootCAs, err = ReadAuthority(t.CA)
	return config, certificate, err
}

// ReadAuthority returns the authority in a file, or none if there is no file.
func ReadAuthority(path string) (*x509.CertPool, error) {
	if path == "" {
		return nil, nil
	}
	text, err := os.ReadFile(path)
	if err != nil {
		return nil, fmt.Errorf("authority: %w", err)
	}
	pool := x509.NewCertPool()
	if !pool.AppendCertsFromPEM(text) {
		return nil, fmt.Errorf("authority: %s has no certificate", path)
	}
	return pool, nil
}

// Server returns what a server needs. With an authority it accepts only clients with a certificate of it.
func (t TLS) Server() (*tls.Config, error) {
	config, certificate, err := t.read()
	if err != nil {
		return nil, err
	}
	if t.Cert == "" {
		return nil, errors.New("certificate: a server needs one")
	}
	config.GetCertificate = func(*tls.ClientHelloInfo) (*tls.Certificate, error) { return certificate() }
	// Without this a client could resume a session that an earlier authority has begun.
	config.SessionTicketsDisabled = true
	if config.RootCAs != nil {
		VerifyClients(config, config.RootCAs, true)
		config.RootCAs = nil
	}
	return config, nil
}

// Client returns what a client needs. Without an authority it trusts those of the system. The names and addresses are those of the servers
// to which it connects by an address.
func (t TLS) Client(known ...string) (*tls.Config, error) {
	config, certificate, err := t.read()
	if err != nil {
		return nil, err
	}
	verifyServer(config, known)
	if t.Cert != "" {
		config.GetClientCertificate = func(*tls.CertificateRequestInfo) (*tls.Certificate, error) { return certificate() }
	}
	return config, nil
}

// Dial connects to a server over TLS, for a transport of HTTP.
func (t TLS) Dial(ctx context.Context, network, address string) (net.Conn, error) {
	host, _, err := net.SplitHostPort(address)
	if err != nil {
		return nil, err
	}
	config, err := t.Client(host)
	if err != nil {
		return nil, err
	}
	return (&tls.Dialer{Config: config}).DialContext(ctx, network, address)
}

// MaxConnections returns how many connections the descriptors of the process allow.
func MaxConnections() int {
	var limit syscall.Rlimit
	if err := syscall.Getrlimit(syscall.RLIMIT_NOFILE, &limit); err != nil || limit.Cur > 1<<20 {
		return 1 << 20
	}
	return int(limit.Cur) - spareDescriptors
}

// Limits are those of the connections of a server.
type Limits struct {
	// AnswerTimeout is how long an answer may take to be made and to be read by the client, from the head of its request.
	AnswerTimeout time.Duration
	// Connected returns the context of the requests of a connection. It may be nil.
	Connected func(ctx context.Context, conn net.Conn) context.Context
	// Errors gets what goes wrong with connections. Without it that goes to standard error.
	Errors *log.Logger
	// Admits says that the handler calls Admitted for the requests of those who may be here. Without it everybody may.
	Admits bool
}

// ServeIn starts a server in a goroutine. Servers may share a room. HTTP/2 is off: Go 1.19 lacks what was mended in it since.
func ServeIn(room *Room, start func(func() error), listener net.Listener, handler http.Handler, limits Limits) *http.Server {
	if !limits.Admits {
		handler = admitting{handler}
	}
	server := &http.Server{
		Handler: handler, MaxHeaderBytes: maxHeadBytes, ConnState: room.noteState, ErrorLog: limits.Errors,
		ConnContext: func(ctx context.Context, conn net.Conn) context.Context {
			ctx = context.WithValue(ctx, placeKey{}, place{room, conn})
			if limits.Connected != nil {
				ctx = limits.Connected(ctx, conn)
			}
			return ctx
		},
		ReadHeaderTimeout: headTimeout, ReadTimeout: RequestTimeout, IdleTimeout: idleTimeout, WriteTimeout: limits.AnswerTimeout,
		TLSNextProto: map[string]func(*http.Server, *tls.Conn, http.Handler){},
	}
	start(func() error {
		closed := make(chan struct{})
		if err := server.Serve(&limited{Listener: listener, Room: room, closed: closed}); !errors.Is(err, http.ErrServerClosed) {
			return fmt.Errorf("server: %w", err)
		}
		return nil
	})
	return server
}

// Listen listens on an address of TCP, with TLS if there are files for it.
func Listen(address string, files TLS) (net.Listener, error) {
	var config *tls.Config
	if files.Scheme() == "https" {
		var err error
		if config, err = files.Server(); err != nil {
			return nil, fmt.Errorf("%s: %w", address, err)
		}
	}
	listener, err := net.Listen("tcp", address)
	if err != nil {
		return nil, fmt.Errorf("listen: %w", err)
	}
	return Secure(listener, config), nil
}

// Secure returns a listener whose clients have to take in time what is written, over TLS if there is a configuration.
func Secure(listener net.Listener, config *tls.Config) net.Listener {
	listener = &prompt{listener}
	if config != nil {
		listener = tls.NewListener(listener, config)
	}
	return listener
}

// A prompt listener has connections whose other end has to take in time what is written.
type prompt struct{ net.Listener }

func (l *prompt) Accept() (net.Conn, error) {
	conn, err := l.Listener.Accept()
	if err != nil {
		return nil, err
	}
	return &Conn{Conn: conn}, nil
}

// A Conn is a connection whose other end has to take in time what is written.
type Conn struct {
	net.Conn
	// until is the deadline that the server has set, in nanoseconds, or 0.
	until atomic.Int64
}

// SetWriteDeadline sets a deadline for all that is written.
func (c *Conn) SetWriteDeadline(deadline time.Time) error {
	c.until.Store(0)
	if !deadline.IsZero() {
		c.until.Store(deadline.UnixNano())
	}
	return c.Conn.SetWriteDeadline(deadline)
}

func (c *Conn) Write(text []byte) (int, error) {
	deadline := time.Now().Add(writeTimeout)
	if until := c.until.Load(); until != 0 && until < deadline.UnixNano() {
		deadline = time.Unix(0, until)
	}
	if err := c.Conn.SetWriteDeadline(deadline); err != nil {
		return 0, err
	}
	return c.Conn.Write(text)
}

// A Room has one element in taken for each connection. It knows which connections have sent no request, or a part of one, that shows that
// they may be here, and which are idle after one.
type Room struct {
	taken       chan struct{}
	mutex       sync.Mutex
	fresh, idle queue
}

// NewRoom returns a room for some connections. The one that has been idle for longest makes room for another one.
func NewRoom(connections int) *Room {
	return &Room{
		taken: make(chan struct{}, connections),
		fresh: queue{places: map[net.Conn]*list.Element{}}, idle: queue{places: map[net.Conn]*list.Element{}},
	}
}

// Connections returns how many connections there are.
func (r *Room) Connections() int { return len(r.taken) }

// A limited listener hands over a connection only when there is room for it. Others wait in the queue of the system.
type limited struct {
	net.Listener
	*Room
	once   sync.Once
	closed chan struct{}
}

func (l *limited) Accept() (net.Conn, error) {
	conn, err := l.Listener.Accept()
	if err != nil {
		return nil, err
	}
	for {
		select {
		case l.taken <- struct{}{}:
			return conn, nil
		default:
			l.closeOne()
		}
		select {
		case l.taken <- struct{}{}:
			return conn, nil
		case <-l.closed:
			conn.Close()
			return nil, net.ErrClosed
		case <-time.After(roomInterval):
		}
	}
}

func (l *limited) Close() error {
	l.once.Do(func() { close(l.closed) })
	return l.Listener.Close()
}

// closeOne closes the connection that has been without an admitted request for longest, unless it has only just come. If there is none, it
// closes the one that has been idle for longest, if there is one. So those that never ask, or that may not, don't push out the others.
func (r *Room) closeOne() {
	r.mutex.Lock()
	defer r.mutex.Unlock()
	from, atLeast := &r.fresh, freshTime
	if from.order.Len() == 0 {
		from, atLeast = &r.idle, 0
	}
	if oldest := from.oldest(atLeast); oldest != nil {
		from.remove(oldest)
		go oldest.Close() // With TLS it says so, and may wait for the client.
	}
}

// A place is that of a connection in a room.
type place struct {
	room *Room
	conn net.Conn
}

type placeKey struct{}

// Admitted says that whoever has sent the request with this context may be here. Until it is answered, its connection makes no room for
// others, however long that takes.
func Admitted(ctx context.Context) {
	if at, has := ctx.Value(placeKey{}).(place); has {
		at.room.mutex.Lock()
		defer at.room.mutex.Unlock()
		at.room.fresh.remove(at.conn)
	}
}

// An admitting handler admits everybody.
type admitting struct{ http.Handler }

func (a admitting) ServeHTTP(w http.ResponseWriter, r *http.Request) {
	Admitted(r.Context())
	a.Handler.ServeHTTP(w, r)
}

// Refused says that the request with this context has shown no right to be here. Until it is done its connection makes room as one does
// that has not sent any: the client may take long to send the rest.
func Refused(ctx context.Context) {
	if at, has := ctx.Value(placeKey{}).(place); has {
		at.room.mutex.Lock()
		defer at.room.mutex.Unlock()
		at.room.fresh.add(at.conn)
	}
}

// Unlimited removes the time limit of a whole answer, for the request with this context. Each single write keeps its own limit.
func Unlimited(ctx context.Context) {
	if at, has := ctx.Value(placeKey{}).(place); has {
		_ = at.conn.SetWriteDeadline(time.Time{}) // If it fails, nothing can be written.
	}
}

// noteState is called at each change of a connection's state.
func (r *Room) noteState(conn net.Conn, state http.ConnState) {
	r.mutex.Lock()
	defer r.mutex.Unlock()
	r.fresh.remove(conn)
	r.idle.remove(conn)
	switch state {
	case http.StateNew, http.StateActive: // The rest of a request may take long, and who sends it isn't known yet.
		r.fresh.add(conn)
	case http.StateIdle:
		r.idle.add(conn)
	case http.StateClosed, http.StateHijacked:
		<-r.taken
	}
}

// A queue has connections in the order in which they were added, each with the time.
type queue struct {
	order  list.List
	places map[net.Conn]*list.Element
}

// A waiting connection is an element of a queue.
type waiting struct {
	conn  net.Conn
	since time.Time
}

func (q *queue) add(conn net.Conn) {
	q.remove(conn)
	q.places[conn] = q.order.PushBack(waiting{conn, time.Now()})
}

func (q *queue) remove(conn net.Conn) {
	if place, has := q.places[conn]; has {
		q.order.Remove(place)
		delete(q.places, conn)
	}
}

// oldest returns the connection that was added first if that was long enough ago, or nil.
func (q *queue) oldest(atLeast time.Duration) net.Conn {
	first := q.order.Front()
	if first == nil {
		return nil
	}
	one, _ := first.Value.(waiting)
	if time.Since(one.since) < atLeast {
		return nil
	}
	return one.conn
}

// Shutdown ends servers, which answer the requests that they have until the context ends.
func Shutdown(ctx context.Context, servers ...*http.Server) {
	for _, server := range servers {
		if server.Shutdown(ctx) != nil {
			server.Close()
		}
	}
}
