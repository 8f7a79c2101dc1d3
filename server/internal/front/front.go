// Package front is what requests meet before the office: where they come in, who asks, and what a caller may do.
package front

import (
	"context"
	"crypto/tls"
	"errors"
	"fmt"
	"io"
	"log"
	"net"
	"net/http"
	"os"
	"strconv"
	"strings"
	"sync/atomic"
	"time"

	"github.com/prometheus/client_golang/prometheus"
	"github.com/prometheus/client_golang/prometheus/promauto"

	"rbac-node/internal/api"
	"rbac-node/internal/callers"
	"rbac-node/internal/decisions"
	"rbac-node/internal/endpoints"
	"rbac-node/internal/logs"
	"rbac-node/internal/metrics"
	"rbac-node/internal/state"
	"rbac-node/internal/web"
)

// Options are what the command line sets for a front.
type Options struct {
	// Addresses are where clients connect, and Origins those of pages whose requests are answered.
	Addresses []Address
	Origins   []string
	TLS       web.TLS
	// Callers has no file of callers if everybody may do everything.
	Callers callers.Options
	// Refused is the file for requests of unknown callers, and for those that a caller may not send.
	Refused string
	// IsHostChecked says that requests from this machine need a Host of this machine if there are no callers.
	IsHostChecked bool
	// HasMetrics says that clients get the metrics here.
	HasMetrics bool
	// Connections is how many there may be at once, and CallerRequests how many requests of one caller.
	Connections, CallerRequests int
	// PublicURL is where clients find the front, or empty.
	PublicURL     string
	AnswerTimeout time.Duration
	Log           *logs.Logger
	// DecisionsShare is which share of the decisions is logged, and DecisionsFile where, or empty.
	DecisionsShare float64
	DecisionsFile  string
	Metrics        *prometheus.Registry
	// Hangups gets SIGHUP from the beginning of the program, so that a signal that comes early doesn't end it.
	Hangups <-chan os.Signal
}

// IsOpen reports whether everybody who can connect may do everything.
func (o *Options) IsOpen() bool { return o.Callers.Callers == "" }

// A Front answers clients.
type Front struct {
	Options
	guard *callers.Guard
	// logged is nil if no decisions are logged.
	logged  *decisions.Log
	journal *callers.Journal
	refused *prometheus.CounterVec
	metrics http.Handler
	room    *web.Room
	config  *tls.Config
	origins map[string]bool
	// isLocal says that clients can only connect from this machine.
	isLocal bool
	// refusedAt is since when the files of the callers aren't those in force, in nanoseconds of Unix, or 0.
	refusedAt atomic.Int64
	endpoints *endpoints.Endpoints
	office    endpoints.Office
	listeners []net.Listener
	servers   []*http.Server
	// stage says what a start does, and isServing that it has come to its end.
	stage     atomic.Value
	isServing atomic.Bool
}

// New returns a front that doesn't listen yet. An error leaves no process behind.
func New(ctx context.Context, options Options) (*Front, error) {
	f := &Front{Options: options, origins: map[string]bool{}, isLocal: true, room: web.NewRoom(options.Connections)}
	for _, origin := range options.Origins {
		f.origins[origin] = true
	}
	for _, address := range options.Addresses {
		f.isLocal = f.isLocal && address.IsLocal()
	}
	f.addMetrics()
	if err := f.loadTLS(); err != nil {
		return nil, err
	}
	if err := f.loadCallers(ctx); err != nil {
		return nil, err
	}
	return f, f.logDecisions()
}

// addMetrics reports who may do everything, the files of the callers, the connections, and what was refused.
func (f *Front) addMetrics() {
	f.metrics = metrics.Handler(f.Metrics)
	f.refused = promauto.With(f.Metrics).NewCounterVec(prometheus.CounterOpts{
		Name: "rbac_node_refused_total", Help: "Requests that were refused before the office.",
	}, []string{"status"})
	f.refused.WithLabelValues(strconv.Itoa(http.StatusUnauthorized))
	metrics.Flag(f.Metrics, "rbac_node_open", "1 if everybody who can connect may do everything.", f.IsOpen)
	metrics.Gauge(f.Metrics, "rbac_node_callers_refused_timestamp_seconds",
		"Since when the files of the callers are not those in force, in seconds of Unix, or 0.",
		func() float64 { return float64(f.refusedAt.Load()) / 1e9 })
	f.TLS.Measure(f.Metrics, "tls")
	metrics.Gauge(f.Metrics, "rbac_node_connections", "Connections of clients.", func() float64 { return float64(f.room.Connections()) })
}

// logDecisions begins to log decisions, if that is wanted.
func (f *Front) logDecisions() (err error) {
	if f.DecisionsShare == 0 {
		return nil
	}
	if f.logged, err = decisions.New(f.DecisionsShare, f.DecisionsFile, f.Log, f.Metrics); err != nil {
		f.Close()
	}
	return err
}

// Listen begins to listen at all addresses. Nobody is answered yet.
func (f *Front) Listen() error {
	for _, address := range f.Addresses {
		listener, err := address.listen()
		if err != nil {
			return err
		}
		f.listeners = append(f.listeners, listener)
	}
	return nil
}

// loadTLS reads the certificate. The authority of clients is that of the callers, which changes with them.
func (f *Front) loadTLS() error {
	if f.TLS.Scheme() == "http" {
		return nil
	}
	config, err := f.TLS.Server()
	if err != nil {
		return err
	}
	config.NextProtos = []string{"http/1.1"}
	if !f.IsOpen() && f.TLS.CA != "" {
		plain := config.Clone()
		config.GetConfigForClient = func(*tls.ClientHelloInfo) (*tls.Config, error) {
			current := plain.Clone()
			web.VerifyClients(current, f.guard.Authority(), false)
			return current, nil
		}
	}
	f.config = config
	return nil
}

// loadCallers reads the files of the callers, if there are any.
func (f *Front) loadCallers(ctx context.Context) error {
	if f.IsOpen() {
		return nil
	}
	set, err := callers.Load(ctx, f.Callers)
	if err != nil {
		return err
	}
	if f.Refused != "" {
		if f.journal, err = callers.OpenJournal(f.Refused, state.DigestOf); err != nil {
			set.Close()
			return err
		}
	}
	f.guard = callers.NewGuard(set, f.CallerRequests)
	return nil
}

// Say says what a start does, which may take long.
func (f *Front) Say(stage string) { f.stage.Store(stage) }

// Begin answers clients that the office doesn't answer yet, until Serve is called. Each server runs in a goroutine.
func (f *Front) Begin(start func(func() error)) {
	limits := web.Limits{
		AnswerTimeout: 2*web.RequestTimeout + 2*f.AnswerTimeout, Connected: callers.WithPeer, Errors: log.New(&failures{front: f}, "", 0),
		Admits: true,
	}
	for i, listener := range f.listeners {
		f.servers = append(f.servers, web.ServeIn(f.room, start, web.Secure(listener, f.configAt(i)), f, limits))
	}
}

// configAt returns the configuration of TLS at an address, or nil.
func (f *Front) configAt(i int) *tls.Config {
	if f.Addresses[i].Network == unix {
		return nil
	}
	return f.config
}

// Serve answers clients from an office.
func (f *Front) Serve(life context.Context, start func(func() error), office endpoints.Office) {
	options := endpoints.Options{PublicURL: f.PublicURL, Denied: f.denied, Metrics: f.Metrics}
	if f.logged != nil {
		options.LogDecision = f.logged.Note
	}
	f.office, f.endpoints = office, endpoints.New(life, office, options)
	rooms := newRooms(office, f.Log)
	f.Metrics.MustRegister(rooms)
	go rooms.watch(life)
	f.isServing.Store(true)
	if len(f.servers) == 0 {
		f.Begin(start)
	}
	for i, address := range f.Addresses {
		f.Log.Info("listening", "at", address.String(), "tls", f.configAt(i) != nil)
	}
	if f.IsOpen() {
		f.Log.Warn("open: everybody who can connect may do everything")
	}
}

// Shutdown answers the requests at hand until the context ends, and accepts no others.
func (f *Front) Shutdown(ctx context.Context) { web.Shutdown(ctx, f.servers...) }

// Close ends what New and Listen have started.
func (f *Front) Close() {
	for _, listener := range f.listeners {
		_ = listener.Close() // A server may have closed it.
	}
	if f.guard != nil {
		f.guard.Close()
	}
	if f.logged != nil {
		f.logged.Close()
	}
}

var errDenied = errors.New("the caller may not do this")

func (f *Front) refuse(w http.ResponseWriter, r *http.Request, caller string, why error, refusal api.Refusal) {
	web.Refused(r.Context())
	f.note(r, caller, why, refusal, nil)
	api.Refuse(w, refusal)
}

// note counts a request that is refused without the office, and writes it to the journal, with the call that the caller may not do if
// that was read.
func (f *Front) note(r *http.Request, caller string, why error, refusal api.Refusal, denied *api.Call) {
	f.refused.WithLabelValues(strconv.Itoa(refusal.Status)).Inc()
	if refusal.Status == http.StatusTooManyRequests || refusal.Status == http.StatusServiceUnavailable {
		return
	}
	if err := f.journal.Write(r, refusal.Status, caller, why, denied); err != nil {
		f.Log.Error("a refused request isn't in its file", "why", err)
	}
}

// Check reports whether the files of the options can be used.
func Check(ctx context.Context, options Options) error {
	if _, err := options.TLS.Server(); err != nil && options.TLS.Scheme() == "https" {
		return err
	}
	if options.IsOpen() {
		return errors.New("--callers is missing")
	}
	set, err := callers.Load(ctx, options.Callers)
	if err != nil {
		return err
	}
	set.Close()
	return nil
}

// Grants writes who may do what.
func Grants(ctx context.Context, to io.Writer, options callers.Options) error {
	set, err := callers.Load(ctx, options)
	if err != nil {
		return err
	}
	defer set.Close()
	grants, err := set.Grants()
	if err != nil {
		return err
	}
	for _, grant := range grants {
		if _, err := fmt.Fprintln(to, grant); err != nil {
			return err
		}
	}
	return nil
}

// Failures gets what the library of HTTP reports, such as handshakes that fail, and logs one of them a second.
type failures struct {
	front *Front
	last  atomic.Int64
}

func (f *failures) Write(text []byte) (int, error) {
	now := time.Now().Unix()
	if last := f.last.Load(); last != now && f.last.CompareAndSwap(last, now) {
		f.front.Log.Warn("a connection has failed", "why", strings.TrimSpace(string(text)))
	}
	return len(text), nil
}
