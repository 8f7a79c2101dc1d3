package main

import (
	"context"
	"errors"
	"flag"
	"fmt"
	"os"
	"path/filepath"
	"regexp"
	"strings"
	"time"

	"github.com/prometheus/client_golang/prometheus"

	"rbac-node/internal/front"
	"rbac-node/internal/logs"
	"rbac-node/internal/web"
)

const (
	// defaultConnections is how many connections of clients there may be, if the descriptors allow as many.
	defaultConnections = 20_000
	// defaultCallerRequests is how many requests of one caller there may be at once.
	defaultCallerRequests = 64
)

// settings are what the command line chooses for an office, on one machine or on several.
type settings struct {
	front                            front.Options
	office, program, listen, origins string
	sessionAge, sessionIdle          time.Duration
	hangTimeout                      time.Duration
	isCheck                          bool
	record                           recordSettings
	cluster                          clusterSettings
}

func (s *settings) define(flags *flag.FlagSet) {
	flags.StringVar(&s.office, "office", "", "`file` of the office, which is made if it doesn't exist, for one machine")
	flags.StringVar(&s.listen, "listen", "", "where clients connect, as `ADDRESS,..`: each HOST:PORT or unix:PATH")
	flags.StringVar(&s.program, "program", "rbac", "the proved `program`, a path or a name that is looked up in PATH")
	flags.DurationVar(&s.front.AnswerTimeout, "timeout", 10*time.Second, "how long a request waits for its answer")
	flags.DurationVar(&s.hangTimeout, "hang-timeout", time.Minute, "how long the replay may answer nothing before it is killed")
	flags.IntVar(&s.front.Connections, "connections", allowedConnections(), "how many connections of clients there may be at once")
	flags.IntVar(&s.front.CallerRequests, "caller-requests", defaultCallerRequests, "how many requests of one caller there may be at once")
	flags.StringVar(&s.front.TLS.Cert, "tls-cert", "", "`file` of the certificate for clients")
	flags.StringVar(&s.front.TLS.Key, "tls-key", "", "`file` of the key of that certificate")
	flags.StringVar(&s.front.TLS.CA, "tls-ca", "", "`file` of the authority of the certificates of clients")
	flags.StringVar(&s.front.Callers.Callers, "callers", "", "`file` that says who may do what; without it everybody may do everything")
	flags.StringVar(&s.front.Callers.Tokens, "tokens", "", "`file` with the SHA-256 and the name of each token")
	flags.StringVar(&s.front.Callers.Keys, "oidc-keys", "", "`file` with the public keys of JWTs")
	flags.StringVar(&s.front.Callers.Issuer, "oidc-issuer", "", "`issuer` of JWTs")
	flags.StringVar(&s.front.Callers.Audience, "oidc-audience", "", "`audience` for which JWTs have to be")
	flags.StringVar(&s.front.Callers.Subject, "oidc-claim", "sub", "`claim` of a JWT that names its caller")
	flags.DurationVar(&s.sessionAge, "session-age", 0, "after how much time a session ends (default: never)")
	flags.DurationVar(&s.sessionIdle, "session-idle", 0, "after how much time without a use a session ends (default: never), for one machine")
	flags.StringVar(&s.front.PublicURL, "public-url", "", "where clients find the front, as the `URL` https://HOST:PORT, for AuthZEN's metadata")
	flags.StringVar(&s.origins, "origin", "", "origins from which browsers may send requests, as `ORIGIN,..`; it sets no CORS fields")
	flags.StringVar(&s.front.Refused, "refused", "", "`file` for requests that are refused with 401, 403 or 421 (default: OFFICE.refused)")
	flags.Float64Var(&s.front.DecisionsShare, "log-decisions", 0, "which `share` of the decisions is logged, from 0, for none, to 1")
	flags.StringVar(&s.front.DecisionsFile, "decisions-file", "", "`file` for the decisions, which may be moved away (default: the log on standard error)")
	flags.BoolVar(&s.record.isOff, "no-record", false, "don't record commands")
	flags.DurationVar(&s.record.verifyEvery, "record-verify", 6*time.Hour,
		"after how much time the whole chain of the record is verified again; 0 is never")
	flags.Int64Var(&s.record.every, "record-base", 10_000, "commands between two copies of the office, from which a start does them again")
}

func allowedConnections() int {
	if allowed := web.MaxConnections(); allowed < defaultConnections {
		return allowed
	}
	return defaultConnections
}

// check refuses settings with which nothing can run.
func (s *settings) check() error {
	files := s.front.Callers
	switch {
	case s.front.AnswerTimeout <= 0 || s.hangTimeout < time.Second:
		return errors.New("--timeout must be above zero, and --hang-timeout at least 1s")
	case s.sessionAge < 0 || s.sessionIdle < 0:
		return errors.New("--session-age and --session-idle must not be below zero")
	case s.sessionIdle > 0 && s.cluster.isChosen():
		return errors.New("--session-idle is for one machine: a node doesn't know which sessions are used at others")
	case s.record.every < 1 || s.record.verifyEvery < 0:
		return errors.New("--record-base must be at least 1, and --record-verify not below zero")
	case web.MaxConnections() < 1:
		return fmt.Errorf("the limit of open files is too low for any connection: raise it by %d or more (ulimit -n, or LimitNOFILE= of systemd)",
			1-web.MaxConnections())
	case s.front.Connections < 1 || s.front.Connections > web.MaxConnections():
		return fmt.Errorf("--connections must be from 1 to %d, as the limit of file descriptors allows", web.MaxConnections())
	case !(s.front.DecisionsShare >= 0 && s.front.DecisionsShare <= 1):
		return errors.New("--log-decisions must be from 0 to 1")
	case s.front.DecisionsFile != "" && s.front.DecisionsShare == 0:
		return errors.New("--decisions-file needs --log-decisions")
	case s.front.CallerRequests < 1:
		return errors.New("--caller-requests must be at least 1")
	case files.Callers == "" && files.Tokens+files.Keys != "":
		return errors.New("--tokens and --oidc-keys need --callers")
	case s.front.TLS.CA != "" && s.front.TLS.Cert == "":
		return errors.New("--tls-ca needs --tls-cert")
	}
	return s.checkURLs()
}

// saySessions says in the log if no session ends by itself. An office has room for few, and people close browsers without a logout.
func (s *settings) saySessions(log *logs.Logger) {
	if s.sessionAge+s.sessionIdle == 0 {
		log.Warn("sessions never end by themselves: there is no --session-age and no --session-idle")
	}
}

var (
	// anOrigin is one as a browser sends it. Not null: any site can make a browser send that.
	anOrigin   = regexp.MustCompile(`^[a-z][a-z0-9+.-]*://[^/?#\s*A-Z]+$`)
	aPublicURL = regexp.MustCompile(`^https?://[^/?#\s]+(/[^?#\s]*)?$`)
)

func (s *settings) checkURLs() error {
	if s.origins != "" {
		for _, one := range strings.Split(s.origins, ",") {
			if !anOrigin.MatchString(one) {
				return fmt.Errorf("--origin: %q is no origin as a browser sends it, such as https://admin.example", one)
			}
		}
	}
	if s.front.PublicURL != "" && !aPublicURL.MatchString(s.front.PublicURL) {
		return fmt.Errorf("--public-url: %q is not http:// or https:// with a host, and without a query", s.front.PublicURL)
	}
	return nil
}

// listenOr returns the addresses of --listen, or those of a default.
func (s *settings) listenOr(other string) ([]front.Address, error) {
	if s.listen == "" {
		return front.ParseAddresses(other)
	}
	return front.ParseAddresses(s.listen)
}

func (s *settings) frontOptions(addresses []front.Address, log *logs.Logger, registry *prometheus.Registry) front.Options {
	options := s.front
	options.Addresses, options.Log, options.Metrics = addresses, log, registry
	options.PublicURL = strings.TrimSuffix(options.PublicURL, "/")
	options.Callers.Log, options.Callers.Authority = log, options.TLS.CA
	if s.origins != "" {
		options.Origins = strings.Split(s.origins, ",")
	}
	return options
}

// checkCallers checks the files of the callers, and those of TLS.
func (s *settings) checkCallers(ctx context.Context) error {
	return front.Check(ctx, s.frontOptions(nil, logs.New(os.Stderr), prometheus.NewRegistry()))
}

// printGrants prints who may do what by a file of callers.
func (s *settings) printGrants(ctx context.Context) error {
	return front.Grants(ctx, stdout, s.frontOptions(nil, logs.New(os.Stderr), prometheus.NewRegistry()).Callers)
}

// socketOf returns where the front of an office listens if nothing else is said: in the folder that systemd has made for it, or
// else in one beside the office.
func socketOf(office string) string {
	if folder := os.Getenv("RUNTIME_DIRECTORY"); folder != "" && !strings.Contains(folder, ":") {
		return "unix:" + filepath.Join(folder, "socket")
	}
	return "unix:" + filepath.Join(office+".run", "socket")
}
