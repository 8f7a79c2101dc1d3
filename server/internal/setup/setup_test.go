package setup

import (
	"crypto/tls"
	"crypto/x509"
	"encoding/pem"
	"errors"
	"os"
	"path/filepath"
	"strings"
	"testing"
)

// run makes the files of an office in a folder, and returns what is written.
func run(t *testing.T, o Options) string {
	t.Helper()
	var out strings.Builder
	if err := Run(o, &out); err != nil {
		t.Fatal(err)
	}
	return out.String()
}

func read(t *testing.T, path string) string {
	t.Helper()
	text, err := os.ReadFile(path)
	if err != nil {
		t.Fatal(err)
	}
	return string(text)
}

// The key fits the certificate, which is for all names and addresses, and nobody else may read the key. The tokens are shown and not kept.
func TestRun(t *testing.T) {
	dir := t.TempDir()
	said := run(t, Options{Office: "bank", Folder: dir, Listen: "unix:/s,0.0.0.0:8443", Hosts: []string{"bank.example", "10.0.0.1"}})
	pair, err := tls.LoadX509KeyPair(filepath.Join(dir, "bank.crt"), filepath.Join(dir, "bank.key"))
	if err != nil {
		t.Fatal(err)
	}
	certificate, err := x509.ParseCertificate(pair.Certificate[0])
	if err != nil {
		t.Fatal(err)
	}
	for _, host := range []string{"bank.example", "10.0.0.1"} {
		if err := certificate.VerifyHostname(host); err != nil {
			t.Error(err)
		}
	}
	for ending, mode := range map[string]os.FileMode{"key": 0o600, "tokens": 0o600, "callers": 0o600, "conf": 0o600, "crt": 0o644} {
		about, err := os.Stat(filepath.Join(dir, "bank."+ending))
		if err != nil || about.Mode() != mode {
			t.Errorf("%s: %v, %v", ending, about.Mode(), err)
		}
	}
	for _, wanted := range []string{"https://bank.example:8443/console/", "Bearer ", "job_name: rbac", "rm " + dir + "/bank.callers"} {
		if !strings.Contains(said, wanted) {
			t.Errorf("it doesn't say %q: %s", wanted, said)
		}
	}
	for _, one := range strings.Fields(said) {
		if token := strings.Trim(one, "'}"); len(token) == 64 && strings.Contains(read(t, filepath.Join(dir, "bank.tokens")), token) {
			t.Errorf("the token %s is kept", token)
		}
	}
}

// If one of the files exists, it stays as it is, and nothing else is made.
func TestExisting(t *testing.T) {
	for _, ending := range []string{"callers", "tokens", "key", "crt", "conf"} {
		dir := t.TempDir()
		path := filepath.Join(dir, "bank."+ending)
		if err := os.WriteFile(path, []byte("mine"), 0o600); err != nil {
			t.Fatal(err)
		}
		var out strings.Builder
		err := Run(Options{Office: "bank", Folder: dir, Listen: "0.0.0.0:8443", Hosts: []string{"bank.example"}}, &out)
		if err == nil || !strings.Contains(err.Error(), path) || out.Len() > 0 {
			t.Errorf("%s: %v, %s", ending, err, out.String())
		}
		if left, _ := filepath.Glob(dir + "/*"); len(left) != 1 || read(t, path) != "mine" {
			t.Errorf("%s: %v is left", ending, left)
		}
	}
}

// A request has the names that the certificate is to have. Without names there is no key.
func TestForms(t *testing.T) {
	dir := t.TempDir()
	said := run(t, Options{Office: "bank", Folder: dir, Listen: "0.0.0.0:8443", Hosts: []string{"bank.example"}, WantsRequest: true})
	block, _ := pem.Decode([]byte(read(t, filepath.Join(dir, "bank.csr"))))
	request, err := x509.ParseCertificateRequest(block.Bytes)
	if err != nil || request.CheckSignature() != nil || len(request.DNSNames) != 1 || request.DNSNames[0] != "bank.example" {
		t.Errorf("%v, %v", request, err)
	}
	if !strings.Contains(said, "save the certificate as "+dir+"/bank.crt") {
		t.Error(said)
	}
	said = run(t, Options{Office: "open", Folder: dir, Listen: "127.0.0.1:8080"})
	if _, err := os.Stat(filepath.Join(dir, "open.key")); err == nil || !strings.Contains(said, "http://127.0.0.1:8080/console/") {
		t.Errorf("%v: %s", err, said)
	}
	for _, office := range []string{"", "../a", "a b", "-a"} {
		if err := Run(Options{Office: office, Folder: dir}, &strings.Builder{}); err == nil {
			t.Errorf("%q is accepted", office)
		}
	}
	if err := Run(Options{Office: "c", Folder: dir, WantsRequest: true}, &strings.Builder{}); err == nil {
		t.Error("a request without names is accepted")
	}
}

// A word that systemd or a shell would divide or change is refused before anything is made, and so is a host that no certificate names.
func TestWords(t *testing.T) {
	dir := t.TempDir()
	for _, o := range []Options{
		{Folder: dir + "/a b", Listen: "127.0.0.1:80"}, {Folder: dir, Listen: "unix:/s --no-record"}, {Folder: dir, Listen: "unix:/$HOME"},
		{Folder: dir, Listen: "127.0.0.1:80", Hosts: []string{"a b"}}, {Folder: dir, Listen: "127.0.0.1:80", Hosts: []string{""}},
		{Folder: dir, Listen: "127.0.0.1:80", Hosts: []string{"bank.example", "$(id)"}}, {Folder: dir, Listen: "127.0.0.1:80", Hosts: []string{"-k"}},
	} {
		o.Office = "bank"
		if err := Run(o, &strings.Builder{}); err == nil {
			t.Errorf("%+v is accepted", o)
		}
	}
	if left, _ := os.ReadDir(dir); len(left) > 0 {
		t.Errorf("%v was made", left)
	}
	run(t, Options{Office: "bank", Folder: dir, Listen: "[::1]:8443", Hosts: []string{"*.bank.example", "::1"}})
}

// In the folder of the package the units are started and stopped too: first the front is stopped, and then its files are removed.
func TestPackaged(t *testing.T) {
	var said strings.Builder
	o := Options{Office: "bank", Folder: packaged, Listen: "unix:/s,:8443", Hosts: []string{"bank.example"}}
	if err := o.explain(&said, []file{{path: o.path("key")}}, nil); err != nil {
		t.Fatal(err)
	}
	const units = "rbac-node@bank rbac-backup@bank.timer"
	for _, wanted := range []string{
		"\n  systemctl enable " + units + " && systemctl restart " + units + "\n", "\n  systemctl disable --now " + units + " && rm /etc/rbac/bank.key\n",
	} {
		if !strings.Contains(said.String(), wanted) {
			t.Errorf("it doesn't say %q: %s", wanted, said.String())
		}
	}
}

// full is a writer without room.
type full struct{}

func (full) Write([]byte) (int, error) { return 0, errors.New("no room") }

// If the tokens can't be shown, nobody has them, so no file stays.
func TestNotShown(t *testing.T) {
	dir := t.TempDir()
	if err := Run(Options{Office: "bank", Folder: dir, Listen: "unix:/s", Hosts: []string{"bank.example"}}, full{}); err == nil {
		t.Error("there is no error")
	}
	if left, err := os.ReadDir(dir); err != nil || len(left) > 0 {
		t.Errorf("%v, %v", left, err)
	}
}
