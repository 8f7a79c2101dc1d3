// Package setup makes the files with which a front has callers and TLS: who may do what, the tokens of two callers, a key with its
// certificate, and the options of the front.
package setup

import (
	"bytes"
	"crypto/rand"
	"crypto/sha256"
	"encoding/hex"
	"errors"
	"fmt"
	"io"
	"net"
	"os"
	"os/user"
	"path/filepath"
	"regexp"
	"strconv"
	"strings"

	"rbac-node/internal/api"
	"rbac-node/internal/callers"
)

const (
	// Administrator and Monitor are the callers who get a token: one may do everything, the other reads metrics.
	Administrator, Monitor = "administrator", "prometheus"
	// root is the caller who may do everything without a token, over a socket of this machine.
	root = "unix:0"
	// sessionIdle and sessionAge end the sessions of people who close a browser without a logout: an office has room for few.
	sessionIdle, sessionAge = "8h", "24h"
)

// Options say what is made.
type Options struct {
	// Office is the name of the office, with which the names of the files begin.
	Office string
	// Folder has the files.
	Folder string
	// Listen is where clients connect, as for the front.
	Listen string
	// Hosts are the names and addresses that clients use. Without any there is no key and no certificate.
	Hosts []string
	// WantsRequest says that an authority is to sign the certificate, from a request.
	WantsRequest bool
	// Group may read the files, if root makes them and there is such a group.
	Group string
}

// A file is one of those that are made.
type file struct {
	path string
	text []byte
}

var (
	officeName = regexp.MustCompile(`^[A-Za-z0-9_][A-Za-z0-9_.-]*$`)
	hostName   = regexp.MustCompile(`^[A-Za-z0-9*][A-Za-z0-9.-]*$`)
	// optionWord is what systemd and a shell take as one word, as it is, from OPTIONS.
	optionWord = regexp.MustCompile(`^[A-Za-z0-9_.,:/@%+=\[\]-]+$`)
)

// Run makes the files, and writes what to do next. If one of them exists, or can't be made, none is made.
func Run(o Options, out io.Writer) error {
	if !officeName.MatchString(o.Office) {
		return fmt.Errorf("%q is no name of an office: give letters, digits, '_', '.' and '-'", o.Office)
	}
	if len(o.Hosts) == 0 && o.WantsRequest {
		return errors.New("--csr needs --dns")
	}
	folder, err := filepath.Abs(o.Folder)
	if err != nil {
		return err
	}
	o.Folder = folder
	if err := o.check(); err != nil {
		return err
	}
	if about, err := os.Stat(o.Folder); err != nil || !about.IsDir() {
		return fmt.Errorf("there is no folder %s: make it first, or name another one by --folder", o.Folder)
	}
	group, err := o.groupID()
	if err != nil {
		return err
	}
	tokens, err := newTokens(Administrator, Monitor)
	if err != nil {
		return err
	}
	files := []file{{o.path("callers"), callersFile()}, {o.path("tokens"), digests(tokens)}}
	if len(o.Hosts) > 0 {
		pair, err := o.certificate()
		if err != nil {
			return err
		}
		files = append(files, pair...)
	}
	files = append(files, file{o.path("conf"), []byte(fmt.Sprintf("OPTIONS=%q\n", o.options()))})
	if err := makeAll(files, group); err != nil {
		return err
	}
	if err := o.explain(out, files, tokens); err != nil {
		removeAll(files) // Nobody has seen the tokens.
		return fmt.Errorf("%w: nothing was made", err)
	}
	return nil
}

func removeAll(files []file) {
	for _, one := range files {
		_ = os.Remove(one.path)
	}
}

func (o Options) path(ending string) string { return filepath.Join(o.Folder, o.Office+"."+ending) }

func (o Options) options() string { return strings.Join(o.optionWords(), " ") }

func (o Options) optionWords() []string {
	words := []string{"--listen", o.Listen, "--callers", o.path("callers"), "--tokens", o.path("tokens")}
	if len(o.Hosts) > 0 {
		words = append(words, "--tls-cert", o.path("crt"), "--tls-key", o.path("key"))
	}
	return append(words, "--session-idle", sessionIdle, "--session-age", sessionAge)
}

// check refuses names of hosts that no certificate can have, and options that the front would get in another form.
func (o Options) check() error {
	for _, host := range o.Hosts {
		if net.ParseIP(host) == nil && !hostName.MatchString(host) {
			return fmt.Errorf("%q is no name and no address of a machine", host)
		}
	}
	for _, word := range o.optionWords() {
		if !optionWord.MatchString(word) {
			return fmt.Errorf("%q can't be an option of the front: give letters, digits and . , : / @ %% + = _ - [ ]", word)
		}
	}
	return nil
}

// groupID returns the number of the group that may read the files, or -1 if nobody else may.
func (o Options) groupID() (int, error) {
	if o.Group == "" || os.Geteuid() != 0 {
		return -1, nil
	}
	found, err := user.LookupGroup(o.Group)
	if err != nil && o.Folder != packaged {
		return -1, nil // The front is run by whoever has made its files.
	}
	if err != nil {
		return 0, fmt.Errorf("%w: the front of the package could not read the files; nothing was made", err)
	}
	return strconv.Atoi(found.Gid)
}

func makeAll(files []file, group int) (err error) {
	var made []string
	defer func() {
		if err != nil {
			for _, path := range made {
				_ = os.Remove(path)
			}
		}
	}()
	for _, one := range files {
		if err := create(one, group, &made); err != nil {
			return err
		}
	}
	return nil
}

// create makes a file, and adds its path to those that were made.
func create(one file, group int, made *[]string) error {
	file, err := os.OpenFile(one.path, os.O_WRONLY|os.O_CREATE|os.O_EXCL, 0o600)
	if errors.Is(err, os.ErrExist) {
		return fmt.Errorf("%s exists: nothing was made", one.path)
	}
	if err != nil {
		return err
	}
	defer file.Close()
	*made = append(*made, one.path)
	if group >= 0 {
		if err := file.Chown(-1, group); err != nil {
			return err
		}
		if err := file.Chmod(0o640); err != nil {
			return err
		}
	}
	if strings.HasSuffix(one.path, ".crt") || strings.HasSuffix(one.path, ".csr") {
		if err := file.Chmod(0o644); err != nil { // Clients need it.
			return err
		}
	}
	if _, err := file.Write(one.text); err != nil {
		return err
	}
	return file.Sync()
}

// newTokens makes a random token for each of the callers.
func newTokens(names ...string) (map[string]string, error) {
	tokens := make(map[string]string, len(names))
	for _, name := range names {
		secret := make([]byte, 32)
		if _, err := rand.Read(secret); err != nil {
			return nil, err
		}
		tokens[name] = hex.EncodeToString(secret)
	}
	return tokens, nil
}

// digests returns the file of the tokens, which doesn't have the tokens themselves.
func digests(tokens map[string]string) []byte {
	var text bytes.Buffer
	for _, name := range []string{Administrator, Monitor} {
		sum := sha256.Sum256([]byte(tokens[name]))
		fmt.Fprintf(&text, "%x %s\n", sum, name)
	}
	return text.Bytes()
}

// callersFile returns the lines that say who may do what: the administrator and root everything, Prometheus reads metrics.
func callersFile() []byte {
	var text bytes.Buffer
	add := func(function string, pairs ...string) {
		call, _ := api.NewCall(function, pairs...) // These names make no line too long.
		text.Write(append(call.Line, '\n'))
	}
	add("addRole", "role", "administrator")
	add("addRole", "role", "monitor")
	add("addPermObj", "object", "office")
	for _, operation := range append(append(api.Functions(), api.Others()...), callers.Metrics) {
		add("addPermission", "object", "office", "operation", operation)
		add("grantPermission", "object", "office", "operation", operation, "role", "administrator")
	}
	add("grantPermission", "object", "office", "operation", callers.Metrics, "role", "monitor")
	for _, one := range [][2]string{{root, "administrator"}, {"token:" + Administrator, "administrator"}, {"token:" + Monitor, "monitor"}} {
		add("addUser", "user", one[0])
		add("assignUser", "user", one[0], "role", one[1])
	}
	return text.Bytes()
}

// url returns the address of the front for clients, without a path.
func (o Options) url() string {
	for _, one := range strings.Split(o.Listen, ",") {
		host, port, err := net.SplitHostPort(one)
		if strings.HasPrefix(one, "unix:") || err != nil {
			continue
		}
		scheme := "http"
		if len(o.Hosts) > 0 {
			scheme, host = "https", o.Hosts[0]
		}
		return scheme + "://" + net.JoinHostPort(host, port)
	}
	return ""
}
