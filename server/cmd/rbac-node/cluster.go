package main

import (
	"context"
	"errors"
	"flag"
	"fmt"
	"net/http"
	"net/url"
	"os"
	"path/filepath"
	"strings"
	"syscall"
	"time"

	"github.com/prometheus/client_golang/prometheus"
	"go.etcd.io/etcd/clientv3"
	"go.etcd.io/etcd/etcdserver/etcdserverpb"
	"go.uber.org/zap"
	"google.golang.org/grpc"

	"rbac-node/internal/front"
	"rbac-node/internal/ledger"
	"rbac-node/internal/logs"
	"rbac-node/internal/metrics"
	"rbac-node/internal/node"
	"rbac-node/internal/office"
	"rbac-node/internal/record"
	"rbac-node/internal/web"
)

const (
	// snapshotTimeout is how long a snapshot may take to be sent to another node.
	snapshotTimeout = 5 * time.Minute
	// peerConnections is how many connections of other nodes and of monitoring there may be at once.
	peerConnections = 128
)

// connect returns a client of etcd.
func (s *clusterSettings) connect() (*clientv3.Client, error) {
	quiet := zap.NewProductionConfig()
	quiet.Level = zap.NewAtomicLevelAt(zap.ErrorLevel)
	config := clientv3.Config{
		Endpoints: strings.Split(s.etcd, ","), DialTimeout: 5 * time.Second, LogConfig: &quiet, Username: s.user,
		DialKeepAliveTime: 10 * time.Second, DialKeepAliveTimeout: 3 * time.Second,
		DialOptions: []grpc.DialOption{grpc.WithReturnConnectionError()},
	}
	var err error
	if config.TLS, err = s.etcdTLS.Client(hostsOf(config.Endpoints)...); err != nil {
		return nil, err
	}
	if s.passwordFile != "" {
		if config.Password, err = passwordIn(s.passwordFile); err != nil {
			return nil, err
		}
		config.DialOptions = append(config.DialOptions, grpc.WithChainUnaryInterceptor(withPasswordIn(s.passwordFile)))
	}
	return clientv3.New(config)
}

func passwordIn(file string) (string, error) {
	password, err := os.ReadFile(file)
	if err != nil {
		return "", fmt.Errorf("password: %w", err)
	}
	return strings.TrimSpace(string(password)), nil
}

// withPasswordIn makes a client of etcd ask for each token with the password that a file has then.
func withPasswordIn(file string) grpc.UnaryClientInterceptor {
	return func(
		ctx context.Context, method string, request, reply any, conn *grpc.ClientConn, invoke grpc.UnaryInvoker, options ...grpc.CallOption,
	) error {
		if asked, is := request.(*etcdserverpb.AuthenticateRequest); is {
			password, err := passwordIn(file)
			if err != nil {
				return err
			}
			request = &etcdserverpb.AuthenticateRequest{Name: asked.Name, Password: password}
		}
		return invoke(ctx, method, request, reply, conn, options...)
	}
}

func hostsOf(urls []string) (hosts []string) {
	for _, one := range urls {
		if at, err := url.Parse(one); err == nil {
			hosts = append(hosts, at.Hostname())
		}
	}
	return hosts
}

// isChosen reports whether the command line names members of etcd.
func (s *clusterSettings) isChosen() bool { return s.etcd != "" }

// adopt makes the office of a file the beginning of a new cluster.
func (s *clusterSettings) adopt(common *settings, from string) error {
	shared, _, closeAll, err := s.open(common)
	if err != nil {
		return err
	}
	defer closeAll()
	return untilSignal(func(ctx context.Context) error { return s.adoptInto(ctx, shared, from) })
}

func (s *clusterSettings) adoptInto(ctx context.Context, shared *ledger.Ledger, from string) error {
	store, err := office.Open(s.Data, s.Program)
	if err != nil {
		return err
	}
	head, undo := "", func() {}
	if about, err := os.Stat(from); err == nil && about.IsDir() {
		var c record.Carried
		if c, undo, err = s.common.carryRecord(ctx, from, s.Data, s.leavesOut); err != nil {
			return err
		}
		from, head = c.Office, c.Head.String()
		s.sayLater(c.Later)
	}
	defer func() { undo() }()
	file, err := store.Begin(from)
	if err != nil {
		return err
	}
	if filepath.Dir(from) == record.DirIn(s.Data) {
		defer os.Remove(from)
	}
	defer os.Remove(file)
	// From the moment when etcd knows of it, nodes wait for the snapshot.
	if err := office.Run(ctx, s.Program, "check", file); err != nil {
		return err
	}
	revision, err := shared.Adopt(ctx)
	if err != nil {
		return err
	}
	undo = func() {} // From now on nodes need it.
	beginning, err := shared.Beginning(ctx)
	if err != nil {
		return err
	}
	snapshot, err := store.Finish(ctx, file, office.Snapshot{Revision: revision, Record: head, First: beginning.First})
	if err != nil {
		return err
	}
	fmt.Fprintf(stdout, "snapshot %d has the digest %s\n", snapshot.Revision, snapshot.Digest)
	return nil
}

// sayLater says what became of the commands that the record of a backup has after its snapshot.
func (s *clusterSettings) sayLater(count int) {
	switch {
	case count == 0:
	case s.leavesOut:
		fmt.Fprintf(stdout, "commands of the record after the snapshot that are lost: %d\n", count)
	default:
		fmt.Fprintf(stdout, "commands of the record after the snapshot that were done again: %d; all sessions were ended\n", count)
	}
}

// open checks the settings, and opens the log in etcd.
func (s *clusterSettings) open(common *settings) (*ledger.Ledger, *logs.Logger, func(), error) {
	s.common, s.Program, s.AnswerTimeout, s.HangTimeout = common, common.program, common.front.AnswerTimeout, common.hangTimeout
	if err := s.check(); err != nil {
		return nil, nil, nil, err
	}
	client, err := s.connect()
	if err != nil {
		return nil, nil, nil, fmt.Errorf("etcd: %w", err)
	}
	events := logs.New(os.Stderr, "node", s.Name)
	return ledger.New(client, s.prefix, events), events, func() { _ = client.Close() }, nil
}

// lockFolder makes a folder, and locks it until the file is closed.
func lockFolder(folder string) (*os.File, error) {
	if err := os.MkdirAll(folder, 0o700); err != nil {
		return nil, err
	}
	lock, err := os.OpenFile(filepath.Join(folder, "lock"), os.O_RDWR|os.O_CREATE, 0o600)
	if err != nil {
		return nil, err
	}
	if err := syscall.Flock(int(lock.Fd()), syscall.LOCK_EX|syscall.LOCK_NB); err != nil {
		lock.Close()
		return nil, fmt.Errorf("lock of the folder, which no other node may use: %w", err)
	}
	return lock, nil
}

func (s *clusterSettings) serve(common *settings) error {
	shared, events, closeAll, err := s.open(common)
	if err != nil {
		return err
	}
	defer closeAll()
	// Until here a signal ends the process at once, even while etcd does not answer.
	return untilSignal(func(ctx context.Context) error { return s.serveNode(ctx, shared, events) })
}

func (s *clusterSettings) serveNode(ctx context.Context, shared *ledger.Ledger, events *logs.Logger) error {
	lock, err := lockFolder(s.Data)
	if err != nil {
		return err
	}
	defer lock.Close()
	if _, err := s.peerTLS.Client(); err != nil {
		return fmt.Errorf("other nodes: %w", err)
	}
	s.Fetch = &http.Client{Timeout: snapshotTimeout, Transport: &http.Transport{DialTLSContext: s.peerTLS.Dial}}
	addresses, err := s.common.listenOr("127.0.0.1:8080")
	if err != nil {
		return err
	}
	if s.common.front.Refused == "" {
		s.common.front.Refused = filepath.Join(s.Data, "refused")
	}
	registry := metrics.New(version, sources, proved)
	s.peerTLS.Measure(registry, "peer")
	s.etcdTLS.Measure(registry, "etcd")
	f, err := front.New(ctx, s.common.frontOptions(addresses, events, registry))
	if err != nil {
		return err
	}
	defer f.Close()
	s.IsOpen, s.SessionAge = s.common.front.IsOpen(), s.common.sessionAge
	if !s.common.record.isOff {
		s.Record = s.common.followRecord(s.Data, s.Options.File(), s.partEntries, events, registry)
	}
	n, err := node.New(s.Options, shared, events, registry)
	if err != nil {
		return err
	}
	if err := f.Listen(); err != nil {
		return err
	}
	events.Info("started", "peer", s.peer)
	s.common.saySessions(events)
	return s.answer(ctx, f, n, events, registry)
}

// answer answers clients and other nodes until the context ends or something fails.
func (s *clusterSettings) answer(ctx context.Context, f *front.Front, n *node.Node, events *logs.Logger, all *prometheus.Registry) error {
	listener, err := web.Listen(s.peer, s.peerTLS)
	if err != nil {
		return err
	}
	failed := make(chan error, 1)
	peers := web.ServeIn(web.NewRoom(peerConnections), reportingTo(failed), listener, peerHandler(n, all), web.Limits{AnswerTimeout: snapshotTimeout})
	err = answer(ctx, f, n, failed, events, func(within context.Context) { web.Shutdown(within, peers) })
	if ctx.Err() != nil && errors.Is(err, context.Canceled) {
		return nil // The signal came while the node was recovering.
	}
	return err
}

func peerHandler(n *node.Node, registry *prometheus.Registry) http.Handler {
	mux := http.NewServeMux()
	mux.Handle("/snapshot", n.Snapshots())
	mux.Handle("/record", n.Records())
	mux.HandleFunc("/healthz", func(w http.ResponseWriter, _ *http.Request) { n.Health().Reply(w) })
	mux.Handle("/metrics", metrics.Handler(registry))
	return mux
}

// clusterSettings are what the command line chooses for a node of several machines.
type clusterSettings struct {
	node.Options
	common                   *settings
	peer, prefix             string
	etcd, user, passwordFile string
	partEntries              int64
	peerTLS, etcdTLS         web.TLS
	isPeerOpen, isEtcdOpen   bool
	// leavesOut says that an office is adopted without the commands that the record of the backup has after its snapshot.
	leavesOut bool
}

func (s *clusterSettings) define(flags *flag.FlagSet) {
	host, _ := os.Hostname()
	flags.StringVar(&s.Name, "name", host, "`name` of this node, which no other has")
	flags.StringVar(&s.Data, "data", "", "`folder` for the snapshots")
	flags.StringVar(&s.Scratch, "scratch", "", "`folder` for the file of the office, which is there during a start and after an end (default: that of --data)")
	flags.StringVar(&s.peer, "peer", "127.0.0.1:8081", "where other nodes fetch snapshots, and metrics are, as `HOST:PORT`")
	flags.StringVar(&s.Peer, "advertise", "", "`URL` of --peer for other nodes (default: made of --peer)")
	flags.StringVar(&s.prefix, "prefix", "rbac", "`prefix` of the keys in etcd")
	flags.Int64Var(&s.SnapshotCommands, "every", 10_000, "commands from one snapshot to the next, the same on all nodes")
	flags.Int64Var(&s.SnapshotBytes, "every-bytes", 64<<20, "bytes of commands after which there is a snapshot too, the same on all nodes")
	flags.Int64Var(&s.partEntries, "record-part", 0, "entries from which on the record is divided at a snapshot (default: never)")
	flags.StringVar(&s.etcd, "etcd", "", "URLs of the members of etcd, as `URL,..`, for an office on several machines")
	flags.StringVar(&s.user, "etcd-user", "", "`user` of etcd")
	flags.StringVar(&s.passwordFile, "etcd-password-file", "", "`file` with the password of that user")
	flags.BoolVar(&s.isEtcdOpen, "etcd-open", false, "have callers although etcd may ask nobody who writes its log")
	flags.BoolVar(&s.isPeerOpen, "peer-open", false, "serve snapshots over TLS to everybody, without an authority of other nodes")
	for _, side := range []struct {
		name, other string
		files       *web.TLS
	}{{"peer", "other nodes", &s.peerTLS}, {"etcd", "etcd", &s.etcdTLS}} {
		flags.StringVar(&side.files.Cert, side.name+"-cert", "", "`file` of the certificate of this node for "+side.other)
		flags.StringVar(&side.files.Key, side.name+"-key", "", "`file` of the key of that certificate")
		flags.StringVar(&side.files.CA, side.name+"-ca", "", "`file` of the authority of the certificates of "+side.other)
	}
}

// check refuses settings with which nothing can run, and makes those that follow from others.
func (s *clusterSettings) check() error {
	switch {
	case s.SnapshotCommands < 1 || s.SnapshotBytes < 1:
		return errors.New("--every and --every-bytes must be above zero")
	case s.partEntries < 0:
		return errors.New("--record-part must not be below zero")
	case s.Data == "":
		return errors.New("--data is missing")
	case s.Name == "" || strings.Contains(s.Name, "/"):
		return errors.New("--name is missing, or has a slash")
	case s.peerTLS.Cert != "" && s.peerTLS.CA == "" && !s.isPeerOpen:
		return errors.New("--peer-cert without --peer-ca gives everybody the whole policy; if that is wanted, add --peer-open")
	}
	if s.common != nil && !s.common.front.IsOpen() && !s.isEtcdOpen && !s.asksUsers() {
		return errors.New("with --callers give https URLs of etcd, and --etcd-user or --etcd-cert: whoever may write etcd's log " +
			"needs to be no caller; if others can't reach etcd, add --etcd-open")
	}
	if s.Scratch == "" {
		s.Scratch = s.Data
	}
	if s.Peer == "" {
		s.Peer = s.peerTLS.Scheme() + "://" + s.peer
	}
	return nil
}

// asksUsers reports whether the node reaches etcd over TLS alone, and shows who it is.
func (s *clusterSettings) asksUsers() bool {
	for _, url := range strings.Split(s.etcd, ",") {
		if !strings.HasPrefix(url, "https://") {
			return false
		}
	}
	return s.user != "" || s.etcdTLS.Cert != ""
}
