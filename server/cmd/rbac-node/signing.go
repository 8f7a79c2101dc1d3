package main

import (
	"errors"
	"flag"
	"fmt"
	"net"
	"net/http"
	"net/url"
	"os"
	"strings"
	"time"

	"rbac-node/internal/record"
	"rbac-node/internal/web"
)

const (
	// notContinuedStatus is the status of sign if the record doesn't continue the last signed head.
	notContinuedStatus = 3
	// signTimeout is how long a front may take for an answer about its record.
	signTimeout = time.Minute
)

// signCommand is what the command line of sign chooses.
type signCommand struct {
	record.Signer
	files web.TLS
	token string
}

// prepareSign defines the flags of `record sign`, and returns what signs the head of a record that a front on another machine keeps.
func prepareSign(flags *flag.FlagSet) func([]string) error {
	c := &signCommand{Signer: record.Signer{Out: stdout}}
	flags.StringVar(&c.URL, "url", "", "`URL` of the front, such as https://office.example:8443")
	flags.StringVar(&c.files.CA, "ca", "", "`file` of the authority of the front's certificate; without it those of the system")
	flags.StringVar(&c.token, "token", "", "`file` of a token that shows who asks")
	flags.StringVar(&c.files.Cert, "tls-cert", "", "`file` of a certificate that shows who asks")
	flags.StringVar(&c.files.Key, "tls-key", "", "`file` of its key")
	flags.StringVar(&c.Key, "key", "", "`file` of the key that signs, of minisign or ssh-keygen")
	flags.StringVar(&c.Heads, "heads", "", "`file` of the signed heads, to which one is added")
	flags.BoolVar(&c.IsFirst, "begin", false, "sign the first head of a new file")
	flags.BoolVar(&c.IsRestored, "restored", false, "a backup was restored: go on from the newest signed head that the record still has")
	return withArguments(0, func([]string) error { return c.sign() })
}

func (c *signCommand) sign() error {
	if c.URL == "" || c.Key == "" || c.Heads == "" || (c.files.Cert == "") != (c.files.Key == "") {
		return errUsage
	}
	if err := c.prepare(); err != nil {
		return err
	}
	err := untilSignal(c.Sign)
	switch {
	case errors.Is(err, record.ErrNotContinued):
		return statusError{notContinuedStatus, err}
	case errors.Is(err, record.ErrMissing):
		return statusError{missingStatus, err}
	}
	return err
}

// prepare makes what asks the front.
func (c *signCommand) prepare() error {
	front, err := url.Parse(c.URL)
	if err != nil {
		return err
	}
	if front.Scheme != "https" && (front.Scheme != "http" || !isThisMachine(front.Hostname())) {
		return fmt.Errorf("%s: it has to begin with https://, or with http:// and an address of this machine", c.URL)
	}
	settings, err := c.files.Client(front.Hostname())
	if err != nil {
		return err
	}
	if c.token != "" {
		text, err := os.ReadFile(c.token)
		if err != nil {
			return err
		}
		c.Token = strings.TrimSpace(string(text))
	}
	c.Client = &http.Client{
		Timeout:   signTimeout,
		Transport: &http.Transport{TLSClientConfig: settings},
		// The token is for this front alone.
		CheckRedirect: func(*http.Request, []*http.Request) error { return http.ErrUseLastResponse },
	}
	return nil
}

// isThisMachine says whether a host's name or address is that of this machine.
func isThisMachine(host string) bool {
	address := net.ParseIP(host)
	return strings.EqualFold(host, "localhost") || address != nil && address.IsLoopback()
}
