package rbacclient

import (
	"bufio"
	"bytes"
	"context"
	"crypto/tls"
	"crypto/x509"
	"errors"
	"fmt"
	"io"
	"math"
	"net"
	"net/http"
	"net/url"
	"os"
	"strconv"
	"strings"
	"sync"
	"time"
)

const (
	// longestHead is how many bytes the head of an answer may have.
	longestHead = 16 << 10
	// mostIdle is how many connections to an address are kept, and idleTime for how long.
	mostIdle, idleTime = 16, time.Minute
)

// address is where a server listens. Questions go over connections that are kept, commands over new ones.
type address struct {
	network, place string      // what is dialed
	host           string      // the value of the field Host
	tls            *tls.Config // nil without TLS
	hides          bool        // whether nobody on the way can read what is sent: over TLS, or on this machine

	mu   sync.Mutex
	idle []*conn
}

// conn is a connection that carries one request at a time. It is not one of a transport of net/http, which logs what comes without a
// request, and asks questions over connections of commands.
type conn struct {
	net.Conn
	reader  *bufio.Reader
	limited *io.LimitedReader // what the reader reads
	broken  error             // what ended the connection, or the time for an answer
	ended   chan error        // has what ended the wait for the next request
}

// Read notes what ends the connection: net/http takes a line that was cut off for a wrong one.
func (c *conn) Read(into []byte) (int, error) {
	size, err := c.Conn.Read(into)
	c.broken = err
	return size, err
}

// past is a time that is over.
var past = time.Unix(1, 0)

// readAddress reads an address.
func readAddress(text string, config *tls.Config) (*address, error) {
	if path := strings.TrimPrefix(text, "unix:"); path != text && path != "" {
		return &address{network: "unix", place: path, host: "localhost", hides: true}, nil
	}
	parsed, err := url.Parse(text)
	if err != nil || parsed.Scheme != "http" && parsed.Scheme != "https" || parsed.Hostname() == "" ||
		parsed.User != nil || strings.Trim(parsed.Path, "/") != "" || parsed.RawQuery != "" || parsed.Fragment != "" {
		// The text isn't shown: it may have a password.
		return nil, errors.New("rbacclient: this is no address such as https://localhost:8080 or unix:/run/rbac/office.sock")
	}
	ip := net.ParseIP(parsed.Hostname())
	isHere := strings.EqualFold(parsed.Hostname(), "localhost") || ip != nil && ip.IsLoopback()
	made := &address{network: "tcp", host: parsed.Host, hides: parsed.Scheme == "https" || isHere}
	port := parsed.Port()
	if parsed.Scheme == "https" {
		made.tls = &tls.Config{MinVersion: tls.VersionTLS12}
		if config != nil {
			made.tls = config.Clone()
		}
		if made.tls.ServerName == "" {
			made.tls.ServerName = parsed.Hostname()
		}
		made.tls.NextProtos = nil
	}
	if port == "" {
		port = map[string]string{"http": "80", "https": "443"}[parsed.Scheme]
	}
	made.place = net.JoinHostPort(parsed.Hostname(), port)
	return made, nil
}

// dial makes a connection before the context ends: whatever takes long, such as to find the host, each of its addresses, or TLS.
func (a *address) dial(ctx context.Context) (*conn, *Error) {
	var dialer net.Dialer
	made, err := dialer.DialContext(ctx, a.network, a.place)
	if err != nil {
		return nil, failed(Unreachable, false, shownError{err})
	}
	if a.tls != nil {
		secured := tls.Client(made, a.tls)
		if err := secured.HandshakeContext(ctx); err != nil {
			made.Close()
			if text := err.Error(); ctx.Err() == nil && (strings.Contains(text, "x509:") || strings.Contains(text, "tls:")) {
				return nil, failed(Untrusted, false, shownError{err})
			}
			return nil, failed(Unreachable, false, shownError{err})
		}
		if err := a.named(secured.ConnectionState().PeerCertificates[0]); err != nil {
			made.Close()
			return nil, failed(Untrusted, false, shownError{err})
		}
		made = secured
	}
	c := &conn{Conn: made}
	c.limited = &io.LimitedReader{R: c}
	c.reader = bufio.NewReaderSize(c.limited, longestHead) // A whole head is looked at before it is read.
	return c, nil
}

// named returns an error if a certificate is for the host by the name * alone, which no client in another language takes for localhost.
func (a *address) named(certificate *x509.Certificate) error {
	if a.tls.InsecureSkipVerify {
		return nil
	}
	copied := *certificate
	copied.DNSNames = nil
	for _, name := range certificate.DNSNames {
		if name != "*" {
			copied.DNSNames = append(copied.DNSNames, name)
		}
	}
	return copied.VerifyHostname(a.tls.ServerName)
}

// kept returns a connection that is open, and on which nothing has come meanwhile, or nil.
func (a *address) kept() *conn {
	for {
		a.mu.Lock()
		last := len(a.idle) - 1
		if last < 0 {
			a.mu.Unlock()
			return nil
		}
		c := a.idle[last]
		a.idle = a.idle[:last]
		a.mu.Unlock()
		_ = c.SetReadDeadline(past)
		if err := <-c.ended; errors.Is(err, os.ErrDeadlineExceeded) && c.reader.Buffered() == 0 {
			return c
		}
		c.Close()
	}
}

// keep keeps a connection for the next question. What comes without a request closes it, and so does its end, or a minute without one.
func (a *address) keep(c *conn) {
	a.mu.Lock()
	defer a.mu.Unlock()
	if len(a.idle) >= mostIdle {
		c.Close()
		return
	}
	a.idle = append(a.idle, c)
	c.limited.N, c.ended = longestHead, make(chan error, 1)
	_ = c.SetReadDeadline(time.Now().Add(idleTime))
	go func() {
		_, err := c.reader.Peek(1)
		c.ended <- err
		a.drop(c)
	}()
}

// drop closes a connection unless somebody has taken it for a question.
func (a *address) drop(c *conn) {
	a.mu.Lock()
	defer a.mu.Unlock()
	for i, one := range a.idle {
		if one == c {
			a.idle = append(a.idle[:i], a.idle[i+1:]...)
			c.Close()
			return
		}
	}
}

// closeIdle closes the connections that are kept.
func (a *address) closeIdle() {
	a.mu.Lock()
	defer a.mu.Unlock()
	for _, c := range a.idle {
		c.Close()
	}
	a.idle = nil
}

// request returns the bytes of a request. Without a body it has no length.
func (a *address) request(method, path, token string, body []byte, keeps bool) []byte {
	text := append(make([]byte, 0, 256+len(body)), method+" "+path+" HTTP/1.1\r\nHost: "+a.host+"\r\n"...)
	if method != http.MethodGet {
		text = append(text, "Content-Type: application/json\r\nContent-Length: "...)
		text = append(strconv.AppendInt(text, int64(len(body)), 10), "\r\n"...)
	}
	if token != "" {
		text = append(text, "Authorization: Bearer "+token+"\r\n"...)
	}
	if !keeps {
		text = append(text, "Connection: close\r\n"...)
	}
	return append(append(text, "\r\n"...), body...)
}

// exchange sends a request, and reads its answer until a limit. It also returns whether the connection may be kept.
func (c *conn) exchange(ctx context.Context, limit time.Time, request []byte) (*http.Response, []byte, bool, *Error) {
	_ = c.SetDeadline(limit)
	defer c.endsWith(ctx)()
	// A server may refuse a request that it hasn't read to the end.
	_, broken := c.Write(request)
	response, err := c.readHead()
	if err != nil {
		return nil, nil, false, c.lost(ctx, err)
	}
	if response.ContentLength < 0 || response.ContentLength > longestAnswer {
		return nil, nil, false, failed(Unexpected, true, fmt.Errorf("the answer has a length of %d", response.ContentLength))
	}
	c.limited.N = response.ContentLength + 1
	answer := make([]byte, response.ContentLength)
	if _, err := io.ReadFull(response.Body, answer); err != nil {
		return nil, nil, false, c.lost(ctx, err)
	}
	if c.reader.Buffered() > 0 {
		return nil, nil, false, failed(Unexpected, true, errors.New("there is more than an answer"))
	}
	return response, answer, !response.Close && response.ProtoAtLeast(1, 1) && broken == nil, nil
}

// readHead reads the head of an answer. The body is limited by what follows.
func (c *conn) readHead() (*http.Response, error) {
	c.limited.N, c.broken = longestHead, nil
	if err := c.judgeHead(); err != nil {
		return nil, err
	}
	response, err := http.ReadResponse(c.reader, nil)
	c.limited.N = math.MaxInt64
	return response, err
}

// httpStart is how an answer begins. Each 0 stands for a digit.
const httpStart = "HTTP/1.0 000 "

var errWrongHead, errLongHead = errors.New("no HTTP"), errors.New("the head of the answer is too long")

// judgeHead waits for a head, and returns an error unless it is as HTTP has it: net/http reads more.
func (c *conn) judgeHead() error {
	for {
		_, err := c.reader.Peek(c.reader.Buffered() + 1)
		head, _ := c.reader.Peek(c.reader.Buffered())
		if !isStart(head) {
			return errWrongHead
		}
		if end := bytes.Index(head, []byte("\r\n\r\n")); end >= 0 {
			return judgeFields(head[:end])
		}
		switch {
		case err != nil && (c.limited.N <= 0 || errors.Is(err, bufio.ErrBufferFull)):
			return errLongHead
		case err != nil && c.broken != nil:
			return c.broken
		case err != nil:
			return err
		}
	}
}

// isStart reports whether an answer of HTTP/1.0 or HTTP/1.1 may begin so.
func isStart(head []byte) bool {
	for i := 0; i < len(head) && i < len(httpStart); i++ {
		isDigit := head[i] >= '0' && head[i] <= '9' && httpStart[i] == '0'
		if head[i] != httpStart[i] && !isDigit || i == len("HTTP/1.") && head[i] > '1' {
			return false
		}
	}
	return true
}

// endsWith ends what is read and written when a context does, until the function that it returns is called.
func (c *conn) endsWith(ctx context.Context) func() {
	if ctx.Done() == nil {
		return func() {}
	}
	over, ended := make(chan struct{}), make(chan struct{})
	go func() {
		defer close(ended)
		select {
		case <-ctx.Done():
			_ = c.SetDeadline(past)
		case <-over:
		}
	}()
	return func() {
		close(over)
		<-ended
	}
}

// lost returns the error of a request without an answer. What net/http says of a wrong one has bytes of it, and isn't shown.
func (c *conn) lost(ctx context.Context, err error) *Error {
	var operation *net.OpError
	switch {
	case ctx.Err() != nil:
		return failed(Unanswered, true, ctx.Err())
	case errors.Is(err, io.EOF), errors.Is(err, io.ErrUnexpectedEOF):
		return failed(Unanswered, true, errors.New("the connection was closed before the answer ended"))
	case errors.Is(err, os.ErrDeadlineExceeded):
		return failed(Unanswered, true, errors.New("no complete answer came in time"))
	case errors.As(err, &operation):
		return failed(Unanswered, true, shownError{err})
	}
	return failed(Unexpected, true, errors.New("no answer of rbac: a wrong head"))
}

// judgeFields returns an error unless each line of a head but the first is a field with a name.
func judgeFields(head []byte) error {
	for i, line := range bytes.Split(head, []byte("\r\n")) {
		name, value, isField := bytes.Cut(line, []byte{':'})
		if i == 0 {
			name, value, isField = []byte("status"), line, true
		}
		if !isField || len(name) == 0 || bytes.IndexFunc(name, isNoName) >= 0 {
			return errWrongHead
		}
		for _, one := range value {
			if one < ' ' && one != '\t' || one == 0x7f {
				return errWrongHead
			}
		}
	}
	return nil
}

// isNoName reports whether a letter can't be in the name of a field.
func isNoName(letter rune) bool {
	return letter <= ' ' || letter > '~' || strings.ContainsRune(`"(),/:;<=>?@[\]{}`, letter)
}
