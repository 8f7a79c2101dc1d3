package callers

import (
	"bufio"
	"bytes"
	"context"
	"crypto/sha256"
	"crypto/tls"
	"crypto/x509"
	"encoding/asn1"
	"encoding/hex"
	"errors"
	"fmt"
	"net"
	"net/http"
	"os"
	"strconv"
	"strings"
	"sync"
	"syscall"
	"time"
	"unicode/utf8"

	"rbac-node/internal/web"
)

// readTokens reads a file whose lines are the SHA-256 of a token, a space and a name. Without a file there are no tokens.
func readTokens(path string) (map[[sha256.Size]byte]string, error) {
	tokens := map[[sha256.Size]byte]string{}
	if path == "" {
		return tokens, nil
	}
	text, err := os.ReadFile(path)
	if err != nil {
		return nil, fmt.Errorf("tokens: %w", err)
	}
	scanner := bufio.NewScanner(bytes.NewReader(text))
	for number := 1; scanner.Scan(); number++ {
		if strings.TrimSpace(scanner.Text()) == "" {
			continue
		}
		digest, name, _ := strings.Cut(scanner.Text(), " ")
		sum, err := hex.DecodeString(digest)
		if name = strings.TrimSpace(name); err != nil || len(sum) != sha256.Size || name == "" || !utf8.ValidString(name) {
			return nil, fmt.Errorf("%s:%d: it isn't the SHA-256 of a token, a space and a name", path, number)
		}
		key := *(*[sha256.Size]byte)(sum)
		if _, has := tokens[key]; has {
			return nil, fmt.Errorf("%s:%d: this token has a name already", path, number)
		}
		if key == sha256.Sum256(nil) {
			return nil, fmt.Errorf("%s:%d: this is the SHA-256 of nothing", path, number)
		}
		tokens[key] = name
	}
	if err := scanner.Err(); err != nil {
		return nil, fmt.Errorf("tokens: %w", err)
	}
	return tokens, nil
}

// mostNameBytes is how many bytes the name of a user may have, which the name of a caller is.
const mostNameBytes = 64

// identify returns who asks.
func (s *Set) identify(r *http.Request) (string, error) {
	name, err := s.shown(r)
	if err == nil && len(name) > mostNameBytes {
		return "", fmt.Errorf("the name of the caller has more than %d bytes", mostNameBytes)
	}
	return name, err
}

// shown returns whom a request shows. An Authorization field decides alone.
func (s *Set) shown(r *http.Request) (string, error) {
	if fields, has := r.Header["Authorization"]; has {
		return s.ofAuthorization(fields)
	}
	peer, _ := r.Context().Value(peerKey{}).(*peer)
	if peer == nil {
		return "", errors.New("nothing shows who asks")
	}
	if r.TLS != nil && len(r.TLS.PeerCertificates) > 0 {
		return peer.ofCertificate(s, r.TLS)
	}
	return peer.ofSocket()
}

// ofAuthorization returns the caller whose token or JWT a request has.
func (s *Set) ofAuthorization(fields []string) (string, error) {
	scheme, token, _ := strings.Cut(fields[0], " ")
	if len(fields) != 1 || !strings.EqualFold(scheme, "Bearer") || token == "" {
		return "", errors.New("the field Authorization isn't one bearer token")
	}
	if name, known := s.tokens[sha256.Sum256([]byte(token))]; known {
		return "token:" + name, nil
	}
	if s.keys == nil {
		return "", errors.New("unknown token")
	}
	name, err := s.keys.caller(token, time.Now())
	if err != nil {
		return "", err
	}
	return "oidc:" + name, nil
}

// A peer is the other end of a connection.
type peer struct {
	// uid is the user of the other end if that is a process of this machine, or negative.
	uid int64
	// What a certificate shows is found out once for each set of callers.
	mutex sync.Mutex
	set   *Set
	name  string
	err   error
	until time.Time
}

type peerKey struct{}

// WithPeer returns the context of a connection, with its other end.
func WithPeer(ctx context.Context, conn net.Conn) context.Context {
	return context.WithValue(ctx, peerKey{}, &peer{uid: uidOf(conn)})
}

// PeerOf returns the user whose process has connected to a socket, as a caller, or an empty text for another connection.
func PeerOf(r *http.Request) string {
	if peer, _ := r.Context().Value(peerKey{}).(*peer); peer != nil && peer.uid >= 0 {
		return "unix:" + strconv.FormatInt(peer.uid, 10)
	}
	return ""
}

// uidOf returns the user of the other end of a unix socket, or -1.
func uidOf(conn net.Conn) int64 {
	if prompt, is := conn.(*web.Conn); is {
		conn = prompt.Conn
	}
	local, is := conn.(*net.UnixConn)
	if !is {
		return -1
	}
	raw, err := local.SyscallConn()
	if err != nil {
		return -1
	}
	uid := int64(-1)
	_ = raw.Control(func(fd uintptr) {
		if peer, err := syscall.GetsockoptUcred(int(fd), syscall.SOL_SOCKET, syscall.SO_PEERCRED); err == nil {
			uid = int64(peer.Uid)
		}
	})
	return uid
}

func (p *peer) ofSocket() (string, error) {
	if p.uid < 0 {
		return "", errors.New("nothing shows who asks")
	}
	if p.uid == nobody {
		return "", errors.New("the user of the process is unknown here")
	}
	return "unix:" + strconv.FormatInt(p.uid, 10), nil
}

// ofCertificate returns the caller whose certificate a connection has. The authority may have changed since it was made.
func (p *peer) ofCertificate(s *Set, state *tls.ConnectionState) (string, error) {
	p.mutex.Lock()
	defer p.mutex.Unlock()
	if p.set != s || time.Now().After(p.until) {
		p.set = s
		p.name, p.until, p.err = s.ofCertificates(state.PeerCertificates)
	}
	return p.name, p.err
}

// ofCertificates returns the caller that a chain of certificates shows, and until when.
func (s *Set) ofCertificates(chain []*x509.Certificate) (name string, until time.Time, err error) {
	if s.authority == nil {
		return "", until, errors.New("there is no authority for certificates")
	}
	found, err := web.VerifyChain(chain, s.authority, x509.ExtKeyUsageClientAuth)
	if err != nil {
		return "", until, fmt.Errorf("certificate: %w", err)
	}
	if name, err = commonName(chain[0]); err != nil {
		return "", until, err
	}
	for i, one := range found[0] {
		if i == 0 || one.NotAfter.Before(until) {
			until = one.NotAfter
		}
	}
	return "cert:" + name, until, nil
}

// commonName returns the name of a certificate's subject, which has to have exactly one.
func commonName(certificate *x509.Certificate) (string, error) {
	var names []string
	for _, one := range certificate.Subject.Names {
		if one.Type.Equal(asn1.ObjectIdentifier{2, 5, 4, 3}) {
			text, _ := one.Value.(string)
			names = append(names, text)
		}
	}
	if len(names) != 1 || names[0] == "" || !utf8.ValidString(names[0]) {
		return "", errors.New("the certificate doesn't have exactly one common name")
	}
	return names[0], nil
}
