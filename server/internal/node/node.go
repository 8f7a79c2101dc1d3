// Package node keeps one copy of an office that follows the log, and answers from it.
//
// One goroutine does the entries of the log in their order, by librbac in this process. Whoever asks a question looks at the office
// between two entries. The log is the truth, and etcd keeps it: a node that ends makes its office of a snapshot and of the log.
package node

import (
	"context"
	"fmt"
	"net/http"
	"path/filepath"
	"sync"
	"sync/atomic"
	"time"

	"github.com/prometheus/client_golang/prometheus"
	"golang.org/x/sync/errgroup"

	"rbac-node/internal/api"
	"rbac-node/internal/boottime"
	"rbac-node/internal/ledger"
	"rbac-node/internal/logs"
	"rbac-node/internal/office"
	"rbac-node/internal/recorded"
	"rbac-node/internal/state"
)

const (
	// maxBatchLines is how many requests one batch may have, and maxBatchBytes how many bytes of commands.
	maxBatchLines, maxBatchBytes = 512, 512 << 10
	// If no more than fewClients ask, a batch waits as long as batchDelay for those of the one before.
	fewClients, batchDelay = 8, time.Millisecond
	// readInterval is the time between two reads of the log if nobody asks.
	readInterval = 500 * time.Millisecond
)

// A Log has the commands of an office in the order in which all nodes apply them, and what nodes report about
// themselves.
type Log interface {
	Append(ctx context.Context, id string, units []ledger.Unit) (entry ledger.Entry, before int64, err error)
	Head(ctx context.Context, done ledger.Place) (int64, error)
	Follow(ctx context.Context, after int64, deliver func(ledger.Entry) error) error
	State(ctx context.Context) (ledger.State, error)
	Trim(ctx context.Context, state ledger.State, needless int64) (floor int64, err error)
	Beginning(ctx context.Context) (ledger.Beginning, error)
	Register(ctx context.Context, member ledger.Member) error
	Live(ctx context.Context, life ledger.Life) error
	Leave(ctx context.Context)
	UseLeader(ctx context.Context)
}

// Options are what the command line sets for a node.
type Options struct {
	// Name is the name of this node, which no other has. Peer is the URL at which other nodes fetch its snapshots.
	Name, Peer string
	// Data is the folder of the snapshots, and Scratch that of the office in a file, which is there while a node starts and once it has
	// ended.
	Data, Scratch string
	// Program is the path of the proved program.
	Program string
	// After SnapshotCommands commands, or SnapshotBytes bytes of them, all nodes take a snapshot. Both are the same on
	// all.
	SnapshotCommands, SnapshotBytes int64
	// AnswerTimeout is how long a request waits for its answer.
	AnswerTimeout time.Duration
	// HangTimeout is how long the program may answer nothing while it makes a file.
	HangTimeout time.Duration
	// Fetch is the client with which snapshots of other nodes are fetched.
	Fetch *http.Client
	// IsOpen says that everybody who can connect may do everything.
	IsOpen bool
	// SessionAge is after how much time a session ends. Zero is never.
	SessionAge time.Duration
	// Record is nil if the node keeps none.
	Record recorded.Follower
}

// File returns the path of the office in a file.
func (o *Options) File() string { return filepath.Join(o.Scratch, "office", "office") }

// A Node is one copy of the office.
type Node struct {
	options Options
	store   *office.Store
	shared  Log
	log     *logs.Logger
	start   time.Time
	// asked has the requests that wait to be sent, by their kinds.
	asked map[api.Kind]chan *request
	// appending has an element while a batch is on its way into the log.
	appending chan struct{}
	// frozen has the offices that are to become snapshots.
	frozen chan frozen
	// pending has the batches of this node that may come from the log, by their names.
	pending sync.Map
	// state is the office, and beginning how the log numbers its commands.
	state     *state.State
	beginning ledger.Beginning

	// tasks has what the goroutine that does entries has to do. The other fields belong to that goroutine: held has the tasks that wait
	// until entries are done. revision and count are those of what was done, bytes counts since the last place of a snapshot, and err
	// is the reason why the goroutine has to end.
	tasks           chan task
	held            []task
	revision, count int64
	bytes           int64
	err             error
	// isRecorded says that the log has had an entry.
	isRecorded bool

	// isFed is set when that goroutine runs.
	isFed atomic.Bool
	// applied is the place of the last entry that was done, or of the snapshot of the start.
	applied atomic.Pointer[place]
	// heard is the moment when the newest read of the log began whose entries are all done. Before the first one it is that of
	// the start, below zero.
	heard atomic.Int64
	// snapshot is the revision of the newest snapshot, seen that of the newest entry that is known, and rank how many nodes come before
	// this one in the order of their names. stage says what a start does.
	snapshot, seen, rank atomic.Int64
	stage                atomic.Value
	// life is what etcd has while this run goes on.
	life ledger.Life
	// isRegistered says that etcd has what this node has to report. outvoted says why most nodes have outvoted this one, and
	// isOutvotedKept that its folder says so. They belong to the goroutine that finishes snapshots.
	isRegistered, isOutvotedKept bool
	outvoted                     string
	// isFailing says that the last snapshot that was begun has failed.
	isFailing atomic.Bool
	// differs is the text that describes where this node differs from most others, or empty.
	differs atomic.Value
}

// A task is done by the goroutine that does entries, once all of them up to the revision after are done.
type task struct {
	after int64
	do    func()
}

// A place in the log is that of an entry, and how many commands there are up to it.
type place struct {
	ledger.Place
	count int64
}

// New returns a node over a log. It does nothing until Run is called.
func New(options Options, shared Log, log *logs.Logger, registry prometheus.Registerer) (*Node, error) {
	store, err := office.Open(options.Data, options.Program)
	if err != nil {
		return nil, err
	}
	if options.Record == nil {
		options.Record = noRecord{}
	}
	n := &Node{
		options: options, store: store, shared: shared, log: log, start: time.Now(),
		appending: make(chan struct{}, 1), frozen: make(chan frozen, 1), tasks: make(chan task, maxBatchLines),
		asked: map[api.Kind]chan *request{
			api.Command:  make(chan *request, maxBatchLines),
			api.Question: make(chan *request, maxBatchLines),
		},
	}
	n.state = state.New(state.Numbers{})
	n.heard.Store(-int64(boottime.Now()))
	n.applied.Store(&place{})
	n.differs.Store("")
	n.stage.Store("etcd is asked")
	n.addMetrics(registry)
	if err := n.beginLife(); err != nil {
		return nil, err
	}
	return n, n.readOutvoted()
}

// Snapshots serves the newest snapshot.
func (n *Node) Snapshots() http.Handler { return n.store }

// Run keeps the copy until the context ends or something fails. After a failure the node has to be started anew: it
// recovers from its newest snapshot then.
func (n *Node) Run(life context.Context) error {
	defer n.leave()
	if err := n.enter(life); err != nil {
		return err
	}
	group, ctx := errgroup.WithContext(life)
	group.Go(func() error { return n.live(ctx) })
	group.Go(func() error { return n.work(ctx) })
	return group.Wait()
}

// work recovers the office, and keeps it until the context ends or something fails.
func (n *Node) work(life context.Context) error {
	if err := n.recoverOffice(life); err != nil {
		return fmt.Errorf("recovery: %w", err)
	}
	group, ctx := errgroup.WithContext(life)
	for _, part := range []func(context.Context) error{
		n.feed, n.readLog, n.appendCommands, n.confirm, n.confirm, n.maintain, n.expire,
	} {
		part := part
		group.Go(func() error { return part(ctx) })
	}
	err := group.Wait()
	closed := n.options.Record.Close()
	if life.Err() != nil {
		n.leaveOffice()
		return closed
	}
	return err
}

func (n *Node) readLog(ctx context.Context) error {
	return n.shared.Follow(ctx, n.applied.Load().Revision, func(entry ledger.Entry) error {
		return n.submit(ctx, task{0, func() { n.apply(entry) }})
	})
}

// submit makes the goroutine that does entries do a task, unless the context ends before it can begin.
func (n *Node) submit(ctx context.Context, one task) error {
	select {
	case n.tasks <- one:
		return nil
	case <-ctx.Done():
		return ctx.Err()
	}
}

// feed does what comes until the context ends or something fails.
func (n *Node) feed(ctx context.Context) error {
	n.isFed.Store(true)
	for n.err == nil {
		select {
		case one := <-n.tasks:
			n.perform(one)
		case <-n.options.Record.Failed():
			return n.options.Record.Failure()
		case <-ctx.Done():
			return nil
		}
	}
	return n.err
}

// perform does a task, or holds it until the entries before it are done.
func (n *Node) perform(one task) {
	if one.after > n.revision {
		n.held = append(n.held, one)
		return
	}
	one.do()
}

// newest returns the last moment at which the state is known to have been the newest one.
func (n *Node) newest() boottime.Moment {
	heard := n.heard.Load()
	if heard < 0 {
		heard = -heard
	}
	return boottime.Moment(heard)
}
