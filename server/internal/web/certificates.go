package web

import (
	"crypto/ecdsa"
	"crypto/ed25519"
	"crypto/rsa"
	"crypto/tls"
	"crypto/x509"
	"encoding/pem"
	"errors"
	"fmt"
	"os"
	"time"

	"github.com/prometheus/client_golang/prometheus"
	"github.com/prometheus/client_golang/prometheus/promauto"
)

const (
	// MostKeyBits is how many bits an RSA key has at most that somebody else has made.
	MostKeyBits = 8192
	// mostCertificates is how many certificates the other end may show.
	mostCertificates = 10
)

// suites are those of TLS 1.2: each has forward secrecy and an authenticated cipher. Those of TLS 1.3 all do.
var suites = []uint16{
	tls.TLS_ECDHE_ECDSA_WITH_AES_128_GCM_SHA256, tls.TLS_ECDHE_RSA_WITH_AES_128_GCM_SHA256,
	tls.TLS_ECDHE_ECDSA_WITH_AES_256_GCM_SHA384, tls.TLS_ECDHE_RSA_WITH_AES_256_GCM_SHA384,
	tls.TLS_ECDHE_ECDSA_WITH_CHACHA20_POLY1305_SHA256, tls.TLS_ECDHE_RSA_WITH_CHACHA20_POLY1305_SHA256,
}

// CheckKey refuses a public key with which it takes long to verify a signature, or of a sort that Go 1.19 fails to compare.
func CheckKey(key any) error {
	switch public := key.(type) {
	case *rsa.PublicKey:
		if bits := public.N.BitLen(); bits > MostKeyBits {
			return fmt.Errorf("an RSA key has %d bits, and not at most %d", bits, MostKeyBits)
		}
		return nil
	case *ecdsa.PublicKey, ed25519.PublicKey:
		return nil
	}
	return fmt.Errorf("a key is of an unknown sort: %T", key)
}

// VerifyChain verifies the certificates that the other end has shown, its own first, and returns the ways to the authority. Their keys are
// looked at before any of them is used.
func VerifyChain(chain []*x509.Certificate, authority *x509.CertPool, usage x509.ExtKeyUsage) ([][]*x509.Certificate, error) {
	if len(chain) == 0 || len(chain) > mostCertificates {
		return nil, fmt.Errorf("%d certificates, and not from 1 to %d", len(chain), mostCertificates)
	}
	between := x509.NewCertPool()
	for i, one := range chain {
		if err := CheckKey(one.PublicKey); err != nil {
			return nil, err
		}
		if i > 0 {
			between.AddCert(one)
		}
	}
	return chain[0].Verify(x509.VerifyOptions{Roots: authority, Intermediates: between, KeyUsages: []x509.ExtKeyUsage{usage}})
}

// VerifyClients makes a server ask clients for a certificate of an authority, without which they may be accepted too. Go would verify it
// by keys of any size, so that is done here. Sessions aren't resumed: nothing would be verified then.
func VerifyClients(config *tls.Config, authority *x509.CertPool, isRequired bool) {
	config.ClientCAs, config.ClientAuth, config.SessionTicketsDisabled = authority, tls.RequestClientCert, true
	if isRequired {
		config.ClientAuth = tls.RequireAnyClientCert
	}
	config.VerifyPeerCertificate = func(texts [][]byte, _ [][]*x509.Certificate) error {
		if len(texts) == 0 {
			return nil // Go refuses it if there has to be one.
		}
		chain := make([]*x509.Certificate, len(texts))
		for i, text := range texts {
			var err error
			if chain[i], err = x509.ParseCertificate(text); err != nil {
				return err
			}
		}
		_, err := VerifyChain(chain, authority, x509.ExtKeyUsageClientAuth)
		return err
	}
}

// verifyServer makes a client verify a server as Go does, but for the size of keys. The name is the one that the client asks for, or, since
// it asks for no address, one of those that are known.
func verifyServer(config *tls.Config, known []string) {
	config.InsecureSkipVerify = true // VerifyConnection verifies all of it.
	config.VerifyConnection = func(state tls.ConnectionState) error {
		if _, err := VerifyChain(state.PeerCertificates, config.RootCAs, x509.ExtKeyUsageServerAuth); err != nil {
			return err
		}
		names := known
		if state.ServerName != "" {
			names = []string{state.ServerName}
		}
		err := errors.New("the name of the server isn't known")
		for _, name := range names {
			if err = state.PeerCertificates[0].VerifyHostname(name); err == nil {
				return nil
			}
		}
		return err
	}
}

// Measure registers gauges with when the certificates in the files end, by the names of their options, which begin with a prefix. The files
// are read when somebody asks: they may be others by then.
func (t TLS) Measure(registry prometheus.Registerer, prefix string) {
	for option, path := range map[string]string{prefix + "-cert": t.Cert, prefix + "-ca": t.CA} {
		if path == "" {
			continue
		}
		path := path
		promauto.With(registry).NewGaugeFunc(prometheus.GaugeOpts{
			Name: "rbac_node_certificate_not_after_seconds", ConstLabels: prometheus.Labels{"option": option},
			Help: "When the first of the certificates in the file of an option ends, in seconds of Unix, or 0 if it can't be read.",
		}, func() float64 {
			end, err := firstEnd(path)
			if err != nil {
				return 0
			}
			return float64(end.Unix())
		})
	}
}

// firstEnd returns when the first of the certificates in a file ends.
func firstEnd(path string) (end time.Time, err error) {
	rest, err := os.ReadFile(path)
	if err != nil {
		return end, err
	}
	for {
		var block *pem.Block
		if block, rest = pem.Decode(rest); block == nil {
			break
		}
		if block.Type != "CERTIFICATE" {
			continue
		}
		one, err := x509.ParseCertificate(block.Bytes)
		if err != nil {
			return end, err
		}
		if end.IsZero() || one.NotAfter.Before(end) {
			end = one.NotAfter
		}
	}
	if end.IsZero() {
		return end, fmt.Errorf("%s has no certificate", path)
	}
	return end, nil
}
