package callers

import (
	"context"
	"crypto/ecdsa"
	"crypto/elliptic"
	"crypto/rand"
	"crypto/sha256"
	"crypto/tls"
	"crypto/x509"
	"crypto/x509/pkix"
	"encoding/asn1"
	"encoding/pem"
	"fmt"
	"math/big"
	"net"
	"net/http/httptest"
	"os"
	"path/filepath"
	"strings"
	"testing"
	"time"
)

// An authority issues certificates.
type authority struct {
	certificate *x509.Certificate
	key         *ecdsa.PrivateKey
}

func newKey(t *testing.T) *ecdsa.PrivateKey {
	t.Helper()
	key, err := ecdsa.GenerateKey(elliptic.P256(), rand.Reader)
	if err != nil {
		t.Fatal(err)
	}
	return key
}

// issue returns a certificate that an authority has signed, or that has signed itself.
func issue(t *testing.T, by *authority, template x509.Certificate) *authority {
	t.Helper()
	key := newKey(t)
	if template.SerialNumber = big.NewInt(1); template.NotAfter.IsZero() {
		template.NotAfter = time.Now().Add(time.Hour)
	}
	parent, signer := &template, key
	if by != nil {
		parent, signer = by.certificate, by.key
	}
	text, err := x509.CreateCertificate(rand.Reader, &template, parent, &key.PublicKey, signer)
	if err != nil {
		t.Fatal(err)
	}
	certificate, err := x509.ParseCertificate(text)
	if err != nil {
		t.Fatal(err)
	}
	return &authority{certificate, key}
}

func newAuthority(t *testing.T, name string) *authority {
	return issue(t, nil, x509.Certificate{
		Subject: pkix.Name{CommonName: name}, IsCA: true, BasicConstraintsValid: true, KeyUsage: x509.KeyUsageCertSign,
	})
}

func (a *authority) pem() string {
	return string(pem.EncodeToMemory(&pem.Block{Type: "CERTIFICATE", Bytes: a.certificate.Raw}))
}

// names returns a subject with these common names.
func names(common ...string) (subject pkix.Name) {
	for _, name := range common {
		subject.ExtraNames = append(subject.ExtraNames, pkix.AttributeTypeAndValue{Type: asn1.ObjectIdentifier{2, 5, 4, 3}, Value: name})
	}
	subject.ExtraNames = append(subject.ExtraNames, pkix.AttributeTypeAndValue{Type: asn1.ObjectIdentifier{2, 5, 4, 10}, Value: "org"})
	return subject
}

func TestCertificates(t *testing.T) {
	good, other := newAuthority(t, "ca"), newAuthority(t, "ca")
	client := []x509.ExtKeyUsage{x509.ExtKeyUsageClientAuth}
	between := issue(t, good, x509.Certificate{
		Subject: names("between"), IsCA: true, BasicConstraintsValid: true, KeyUsage: x509.KeyUsageCertSign,
	})
	options := optionsOf(t)
	options.Authority = write(t, "ca.crt", good.pem())
	s, without := load(t, options), load(t, optionsOf(t))
	for _, test := range []struct {
		name     string
		set      *Set
		by       *authority
		template x509.Certificate
		chain    []*x509.Certificate
		want     string
	}{
		{"a good one", s, good, x509.Certificate{Subject: names("shop"), ExtKeyUsage: client}, nil, "cert:shop"},
		{"one without a usage", s, good, x509.Certificate{Subject: names("shop")}, nil, "cert:shop"},
		{"one of an authority between", s, between, x509.Certificate{Subject: names("shop")},
			[]*x509.Certificate{between.certificate}, "cert:shop"},
		{"without the authority between", s, between, x509.Certificate{Subject: names("shop")}, nil, ""},
		{"two names", s, good, x509.Certificate{Subject: names("shop", "admin")}, nil, ""},
		{"the same name twice", s, good, x509.Certificate{Subject: names("shop", "shop")}, nil, ""},
		{"no name", s, good, x509.Certificate{Subject: names()}, nil, ""},
		{"an empty name", s, good, x509.Certificate{Subject: names("")}, nil, ""},
		{"a name of another kind", s, good, x509.Certificate{Subject: names("token:admin")}, nil, "cert:token:admin"},
		{"expired", s, good, x509.Certificate{Subject: names("shop"), NotAfter: time.Now().Add(-time.Second)}, nil, ""},
		{"not yet valid", s, good, x509.Certificate{Subject: names("shop"), NotBefore: time.Now().Add(time.Minute)}, nil, ""},
		{"for servers only", s, good, x509.Certificate{Subject: names("shop"),
			ExtKeyUsage: []x509.ExtKeyUsage{x509.ExtKeyUsageServerAuth}}, nil, ""},
		{"another authority of this name", s, other, x509.Certificate{Subject: names("shop")}, nil, ""},
		{"signed by itself", s, nil, x509.Certificate{Subject: names("shop")}, nil, ""},
		{"no authority is set", without, good, x509.Certificate{Subject: names("shop")}, nil, ""},
	} {
		t.Run(test.name, func(t *testing.T) {
			given := issue(t, test.by, test.template).certificate
			state := &tls.ConnectionState{PeerCertificates: append([]*x509.Certificate{given}, test.chain...)}
			r := httptest.NewRequest("POST", "/", nil)
			r.TLS = state
			client, server := net.Pipe()
			defer client.Close()
			r = r.WithContext(WithPeer(context.Background(), server))
			name, err := test.set.identify(r)
			if name != test.want || (err == nil) != (test.want != "") {
				t.Errorf("%q, %v", name, err)
			}
			if test.want == "" {
				return
			}
			// The connection stays, and other callers come into force.
			if name, err := without.identify(r); err == nil {
				t.Errorf("after the authority has changed: %q", name)
			}
			if name, err := test.set.identify(r); err != nil || name != test.want {
				t.Errorf("after it has changed back: %q, %v", name, err)
			}
		})
	}
}

// TestCertificateThatExpires keeps a connection until the certificate has expired.
func TestCertificateThatExpires(t *testing.T) {
	good := newAuthority(t, "ca")
	options := optionsOf(t)
	options.Authority = write(t, "ca.crt", good.pem())
	s := load(t, options)
	given := issue(t, good, x509.Certificate{Subject: names("shop"), NotAfter: time.Now().Add(2 * time.Second)}).certificate
	r := httptest.NewRequest("POST", "/", nil)
	r.TLS = &tls.ConnectionState{PeerCertificates: []*x509.Certificate{given}}
	r = r.WithContext(context.WithValue(context.Background(), peerKey{}, &peer{uid: -1}))
	if name, err := s.identify(r); err != nil {
		t.Fatal(name, err)
	}
	time.Sleep(time.Until(given.NotAfter) + 10*time.Millisecond)
	if name, err := s.identify(r); err == nil {
		t.Errorf("after it has expired: %q", name)
	}
}

func sumOf(token string) string { return fmt.Sprintf("%x", sha256.Sum256([]byte(token))) }

func TestTokens(t *testing.T) {
	options := optionsOf(t)
	options.Tokens = write(t, "tokens", sumOf("secret")+" shop\n\n"+sumOf("secret2")+"  help desk \r\n"+sumOf("old")+" shop\n")
	s := load(t, options)
	good := issue(t, newAuthority(t, "ca"), x509.Certificate{Subject: names("shop")}).certificate
	for _, test := range []struct {
		name   string
		fields []string
		want   string
	}{
		{"a token", []string{"Bearer secret"}, "token:shop"},
		{"another one of the same name", []string{"Bearer old"}, "token:shop"},
		{"the scheme in another case", []string{"bEARER secret"}, "token:shop"},
		{"a token with a longer one", []string{"Bearer secret2"}, "token:help desk"},
		{"a prefix of a token", []string{"Bearer secre"}, ""},
		{"a token and more", []string{"Bearer secret3"}, ""},
		{"a token in another case", []string{"Bearer Secret"}, ""},
		{"a token and a space", []string{"Bearer secret "}, ""},
		{"two spaces", []string{"Bearer  secret"}, ""},
		{"the sum of a token", []string{"Bearer " + sumOf("secret")}, ""},
		{"another scheme", []string{"Basic secret"}, ""},
		{"no scheme", []string{"secret"}, ""},
		{"nothing", []string{""}, ""},
		{"no token", []string{"Bearer "}, ""},
		{"a field twice", []string{"Bearer secret", "Bearer secret"}, ""},
		{"two tokens", []string{"Bearer secret, Bearer old"}, ""},
		{"a JWT without keys", []string{"Bearer a.b.c"}, ""},
	} {
		t.Run(test.name, func(t *testing.T) {
			r := httptest.NewRequest("POST", "/", nil)
			r.Header["Authorization"] = test.fields
			// Neither a certificate nor a socket counts beside the field.
			r.TLS = &tls.ConnectionState{PeerCertificates: []*x509.Certificate{good}}
			r = r.WithContext(context.WithValue(context.Background(), peerKey{}, &peer{uid: 0}))
			if name, err := s.identify(r); name != test.want || (err == nil) != (test.want != "") {
				t.Errorf("%q, %v", name, err)
			}
		})
	}
}

func TestReadTokens(t *testing.T) {
	for _, test := range []struct{ name, text, says string }{
		{"nothing", "", ""},
		{"capitals", strings.ToUpper(sumOf("a")) + " a\n", ""},
		{"no name", sumOf("a") + "\n", ":1:"},
		{"a short sum", sumOf("a")[2:] + " a\n", ":1:"},
		{"a long sum", sumOf("a") + "00 a\n", ":1:"},
		{"no sum", sumOf("a") + " a\nb c\n", ":2:"},
		{"the token itself", "secret shop\n", ":1:"},
		{"the same token twice", sumOf("a") + " a\n" + sumOf("a") + " b\n", ":2:"},
		{"the sum of nothing", sumOf("") + " a\n", ":1:"},
		{"a name that is no text", sumOf("a") + " \xff\n", ":1:"},
		{"a long line", strings.Repeat("x", 1<<17), "token too long"},
	} {
		t.Run(test.name, func(t *testing.T) {
			_, err := readTokens(write(t, "tokens", test.text))
			if test.says == "" && err != nil || test.says != "" && (err == nil || !strings.Contains(err.Error(), test.says)) {
				t.Errorf("%v and not %q", err, test.says)
			}
		})
	}
	if _, err := readTokens(filepath.Join(t.TempDir(), "none")); err == nil {
		t.Error("no file")
	}
}

func TestSockets(t *testing.T) {
	s := load(t, optionsOf(t))
	listener, err := net.Listen("unix", filepath.Join(t.TempDir(), "socket"))
	if err != nil {
		t.Fatal(err)
	}
	defer listener.Close()
	client, err := net.Dial("unix", listener.Addr().String())
	if err != nil {
		t.Fatal(err)
	}
	defer client.Close()
	conn, err := listener.Accept()
	if err != nil {
		t.Fatal(err)
	}
	defer conn.Close()
	r := httptest.NewRequest("POST", "/", nil)
	if name, err := s.identify(r.WithContext(WithPeer(context.Background(), conn))); err != nil || name != fmt.Sprint("unix:", os.Getuid()) {
		t.Errorf("%q, %v", name, err)
	}
	for _, uid := range []int64{-1, nobody} {
		if name, err := s.identify(r.WithContext(context.WithValue(context.Background(), peerKey{}, &peer{uid: uid}))); err == nil {
			t.Errorf("%d: %q", uid, name)
		}
	}
	if name, err := s.identify(r); err == nil {
		t.Errorf("without a connection: %q", name)
	}
}
