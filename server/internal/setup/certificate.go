package setup

import (
	"crypto/ecdsa"
	"crypto/elliptic"
	"crypto/rand"
	"crypto/x509"
	"crypto/x509/pkix"
	"encoding/pem"
	"math/big"
	"net"
	"time"
)

// lasts is for how long a certificate is valid that is signed by its own key.
const lasts = 365 * 24 * time.Hour

// certificate returns a new key, and its certificate or the request for one.
func (o Options) certificate() ([]file, error) {
	key, err := ecdsa.GenerateKey(elliptic.P256(), rand.Reader)
	if err != nil {
		return nil, err
	}
	coded, err := x509.MarshalPKCS8PrivateKey(key)
	if err != nil {
		return nil, err
	}
	files := []file{{o.path("key"), pem.EncodeToMemory(&pem.Block{Type: "PRIVATE KEY", Bytes: coded})}}
	if o.WantsRequest {
		request, err := o.request(key)
		return append(files, file{o.path("csr"), request}), err
	}
	signed, err := o.selfSigned(key)
	return append(files, file{o.path("crt"), signed}), err
}

func (o Options) request(key *ecdsa.PrivateKey) ([]byte, error) {
	names, addresses := o.hosts()
	wanted := &x509.CertificateRequest{Subject: pkix.Name{CommonName: o.Hosts[0]}, DNSNames: names, IPAddresses: addresses}
	coded, err := x509.CreateCertificateRequest(rand.Reader, wanted, key)
	if err != nil {
		return nil, err
	}
	return pem.EncodeToMemory(&pem.Block{Type: "CERTIFICATE REQUEST", Bytes: coded}), nil
}

// selfSigned returns a certificate that its own key has signed.
func (o Options) selfSigned(key *ecdsa.PrivateKey) ([]byte, error) {
	number, err := rand.Int(rand.Reader, new(big.Int).Lsh(big.NewInt(1), 127))
	if err != nil {
		return nil, err
	}
	names, addresses := o.hosts()
	begins := time.Now().Add(-time.Minute)
	// It is no authority: whoever trusts it trusts this key for these names alone.
	wanted := &x509.Certificate{
		SerialNumber: number, Subject: pkix.Name{CommonName: o.Hosts[0]}, DNSNames: names, IPAddresses: addresses,
		NotBefore: begins, NotAfter: begins.Add(lasts), BasicConstraintsValid: true,
		KeyUsage: x509.KeyUsageDigitalSignature, ExtKeyUsage: []x509.ExtKeyUsage{x509.ExtKeyUsageServerAuth},
	}
	coded, err := x509.CreateCertificate(rand.Reader, wanted, wanted, &key.PublicKey, key)
	if err != nil {
		return nil, err
	}
	return pem.EncodeToMemory(&pem.Block{Type: "CERTIFICATE", Bytes: coded}), nil
}

// hosts returns the names and the addresses that clients use.
func (o Options) hosts() (names []string, addresses []net.IP) {
	for _, host := range o.Hosts {
		if address := net.ParseIP(host); address != nil {
			addresses = append(addresses, address)
		} else {
			names = append(names, host)
		}
	}
	return names, addresses
}
