package web

import (
	"bytes"
	"crypto"
	"crypto/ecdsa"
	"crypto/ed25519"
	"crypto/elliptic"
	"crypto/rand"
	"crypto/rsa"
	"crypto/tls"
	"crypto/x509"
	"crypto/x509/pkix"
	"errors"
	"io"
	"math/big"
	"net"
	"strings"
	"testing"
	"time"
)

// A maker makes certificates of an authority.
type maker struct {
	*testing.T
	key  *ecdsa.PrivateKey
	root *x509.Certificate
}

func newMaker(t *testing.T) *maker {
	m := &maker{T: t}
	m.key = m.newKey()
	m.root = m.parse(m.make(m.key.Public(), true, m.key, nil))
	return m
}

func (m *maker) newKey() *ecdsa.PrivateKey {
	key, err := ecdsa.GenerateKey(elliptic.P256(), rand.Reader)
	if err != nil {
		m.Fatal(err)
	}
	return key
}

// make makes a certificate of a key, signed by the key of another certificate, or by its own.
func (m *maker) make(key any, isAuthority bool, by crypto.Signer, parent *x509.Certificate) []byte {
	number, err := rand.Int(rand.Reader, big.NewInt(1<<62))
	if err != nil {
		m.Fatal(err)
	}
	one := &x509.Certificate{
		SerialNumber: number, Subject: pkix.Name{CommonName: "shop"}, NotAfter: time.Now().Add(time.Hour), IsCA: isAuthority,
		BasicConstraintsValid: true, DNSNames: []string{"localhost"}, IPAddresses: []net.IP{net.IPv4(127, 0, 0, 1)},
		ExtKeyUsage: []x509.ExtKeyUsage{x509.ExtKeyUsageClientAuth, x509.ExtKeyUsageServerAuth},
	}
	if isAuthority {
		one.Subject.CommonName, one.KeyUsage = "ca "+number.String(), x509.KeyUsageCertSign
	}
	if parent == nil {
		parent = one
	}
	text, err := x509.CreateCertificate(rand.Reader, one, parent, key, by)
	if err != nil {
		m.Fatal(err)
	}
	return text
}

func (m *maker) parse(text []byte) *x509.Certificate {
	one, err := x509.ParseCertificate(text)
	if err != nil {
		m.Fatal(err)
	}
	return one
}

func (m *maker) pool() *x509.CertPool {
	pool := x509.NewCertPool()
	pool.AddCert(m.root)
	return pool
}

// rsaKey returns a public key of some bits, which nobody has the other part of.
func (m *maker) rsaKey(bits int) *rsa.PublicKey {
	number, err := rand.Int(rand.Reader, new(big.Int).Lsh(big.NewInt(1), uint(bits)))
	if err != nil {
		m.Fatal(err)
	}
	number.SetBit(number, bits-1, 1).SetBit(number, 0, 1)
	return &rsa.PublicKey{N: number, E: 1<<31 - 1}
}

// A pretender claims to have the other part of a key.
type pretender struct{ public crypto.PublicKey }

func (p pretender) Public() crypto.PublicKey { return p.public }
func (p pretender) Sign(io.Reader, []byte, crypto.SignerOpts) ([]byte, error) {
	return make([]byte, 64), nil
}

// shake makes two ends shake hands, and returns what each says.
func shake(t *testing.T, server, client *tls.Config) (ofServer, ofClient error) {
	t.Helper()
	listener, err := net.Listen("tcp", "127.0.0.1:0")
	if err != nil {
		t.Fatal(err)
	}
	defer listener.Close()
	given := make(chan error, 1)
	go func() {
		one, err := listener.Accept()
		if err != nil {
			given <- err
			return
		}
		defer one.Close()
		conn := tls.Server(one, server)
		if err = conn.Handshake(); err == nil {
			_, err = conn.Write([]byte("x"))
		}
		given <- err
	}()
	other := dial(t, listener.Addr().String())
	_ = other.SetDeadline(time.Now().Add(time.Minute))
	conn := tls.Client(other, client)
	if ofClient = conn.Handshake(); ofClient == nil {
		_, ofClient = conn.Read(make([]byte, 1))
	}
	other.Close()
	return <-given, ofClient
}

// An intermediate with a large key, a large key of its own and others that can't be verified are refused before any of them is used.
func TestVerifyClients(t *testing.T) {
	m := newMaker(t)
	key := m.newKey()
	leaf := m.make(key.Public(), false, m.key, m.root)
	large := m.make(m.rsaKey(16_384), true, m.key, m.root)
	between := m.newKey()
	middle := m.make(between.Public(), true, m.key, m.root)
	below := m.make(key.Public(), false, between, m.parse(middle))
	_, own, err := ed25519.GenerateKey(rand.Reader)
	if err != nil {
		t.Fatal(err)
	}
	// The sort of key is that of X25519, which verifies nothing.
	unknown := bytes.ReplaceAll(m.make(own.Public(), true, m.key, m.root), []byte{0x2b, 0x65, 0x70}, []byte{0x2b, 0x65, 0x6e})
	eleven := [][]byte{below}
	for len(eleven) < mostCertificates+1 {
		eleven = append(eleven, middle)
	}
	foreign := newMaker(t)
	for _, test := range []struct {
		name    string
		chain   [][]byte
		key     crypto.PrivateKey
		isAsked bool
		says    string
	}{
		{"none", nil, nil, false, ""},
		{"none where one is required", nil, nil, true, "didn't provide a certificate"},
		{"one", [][]byte{leaf}, key, true, ""},
		{"one below another", [][]byte{below, middle}, key, false, ""},
		{"one that the authority hasn't made", [][]byte{foreign.make(key.Public(), false, foreign.key, foreign.root)}, key, false, "unknown authority"},
		{"a large intermediate", [][]byte{below, large, middle}, key, false, "16384 bits"},
		{"a large one that nobody needs", [][]byte{leaf, large}, key, true, "16384 bits"},
		{"a large key of its own", [][]byte{m.make(m.rsaKey(16_384), false, m.key, m.root)}, pretender{m.rsaKey(16_384)}, false, "16384 bits"},
		{"an unknown sort of key", [][]byte{below, unknown}, key, false, "unknown sort"},
		{"eleven", eleven, key, false, "11 certificates"},
	} {
		for _, version := range []uint16{tls.VersionTLS12, tls.VersionTLS13} {
			server := &tls.Config{Certificates: []tls.Certificate{{Certificate: [][]byte{leaf}, PrivateKey: key}}, CipherSuites: suites}
			VerifyClients(server, m.pool(), test.isAsked)
			if !server.SessionTicketsDisabled {
				t.Error("a session that is resumed isn't verified")
			}
			client := &tls.Config{ServerName: "localhost", RootCAs: m.pool(), MinVersion: version, MaxVersion: version}
			if test.chain != nil {
				shown := &tls.Certificate{Certificate: test.chain, PrivateKey: test.key}
				client.GetClientCertificate = func(*tls.CertificateRequestInfo) (*tls.Certificate, error) { return shown, nil }
			}
			err, _ := shake(t, server, client)
			if test.says == "" && err != nil || test.says != "" && (err == nil || !strings.Contains(err.Error(), test.says)) {
				t.Errorf("%s, version %x: %v and not %q", test.name, version, err, test.says)
			}
		}
	}
}

// A client refuses such keys of a server too, and one that hasn't the name or the address to which it connects.
func TestVerifyServer(t *testing.T) {
	m := newMaker(t)
	key := m.newKey()
	leaf, large := m.make(key.Public(), false, m.key, m.root), m.make(m.rsaKey(16_384), true, m.key, m.root)
	for _, test := range []struct {
		name, server string
		known        []string
		chain        [][]byte
		says         string
	}{
		{"by its name", "localhost", nil, [][]byte{leaf}, ""},
		{"by another name", "other", []string{"localhost"}, [][]byte{leaf}, "not other"},
		{"by its address", "127.0.0.1", []string{"127.0.0.1"}, [][]byte{leaf}, ""},
		{"by an address, one of several", "127.0.0.1", []string{"10.0.0.1", "127.0.0.1"}, [][]byte{leaf}, ""},
		{"by another address", "10.0.0.1", []string{"10.0.0.1"}, [][]byte{leaf}, "not 10.0.0.1"},
		{"by an address that nobody knows", "127.0.0.1", nil, [][]byte{leaf}, "isn't known"},
		{"with a large key", "localhost", nil, [][]byte{leaf, large}, "16384 bits"},
	} {
		client := &tls.Config{ServerName: test.server, RootCAs: m.pool()}
		verifyServer(client, test.known)
		server := &tls.Config{Certificates: []tls.Certificate{{Certificate: test.chain, PrivateKey: key}}}
		_, err := shake(t, server, client)
		if test.says == "" && err != nil || test.says != "" && (err == nil || !strings.Contains(err.Error(), test.says)) {
			t.Errorf("%s: %v and not %q", test.name, err, test.says)
		}
	}
	client := &tls.Config{ServerName: "localhost"}
	verifyServer(client, nil)
	_, err := shake(t, &tls.Config{Certificates: []tls.Certificate{{Certificate: [][]byte{leaf}, PrivateKey: key}}}, client)
	if unknown := (x509.UnknownAuthorityError{}); !errors.As(err, &unknown) {
		t.Errorf("without an authority: %v", err)
	}
}

func TestCheckKey(t *testing.T) {
	m := &maker{T: t}
	if err := CheckKey(m.rsaKey(MostKeyBits)); err != nil {
		t.Error(err)
	}
	if CheckKey(m.rsaKey(MostKeyBits+1)) == nil || CheckKey(nil) == nil {
		t.Error("it is accepted")
	}
}

// TLS 1.2 is spoken with forward secrecy and an authenticated cipher alone.
func TestSuites(t *testing.T) {
	m := newMaker(t)
	key := m.newKey()
	pair := tls.Certificate{Certificate: [][]byte{m.make(key.Public(), false, m.key, m.root)}, PrivateKey: key}
	old, err := rsa.GenerateKey(rand.Reader, 2048)
	if err != nil {
		t.Fatal(err)
	}
	older := tls.Certificate{Certificate: [][]byte{m.make(old.Public(), false, m.key, m.root)}, PrivateKey: old}
	accepted := 0
	for _, suite := range append(tls.CipherSuites(), tls.InsecureCipherSuites()...) {
		if suite.SupportedVersions[0] == tls.VersionTLS13 {
			continue
		}
		server := &tls.Config{Certificates: []tls.Certificate{pair, older}, CipherSuites: suites, MinVersion: tls.VersionTLS12}
		client := &tls.Config{ServerName: "localhost", RootCAs: m.pool(), MaxVersion: tls.VersionTLS12, CipherSuites: []uint16{suite.ID}}
		_, err := shake(t, server, client)
		isWanted := strings.HasPrefix(suite.Name, "TLS_ECDHE_") && (strings.Contains(suite.Name, "_GCM_") || strings.Contains(suite.Name, "CHACHA20"))
		if (err == nil) != isWanted {
			t.Errorf("%s: %v", suite.Name, err)
		}
		if err == nil {
			accepted++
		}
	}
	if accepted != len(suites) {
		t.Errorf("%d suites", accepted)
	}
	config := &tls.Config{Certificates: []tls.Certificate{pair}, CipherSuites: suites, MinVersion: tls.VersionTLS12}
	if _, err := shake(t, config, &tls.Config{ServerName: "localhost", RootCAs: m.pool(), MinVersion: tls.VersionTLS10, MaxVersion: tls.VersionTLS11}); err == nil {
		t.Error("TLS 1.1 is accepted")
	}
}
