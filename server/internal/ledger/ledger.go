// Package ledger keeps the commands of an office in etcd, in the order in which all nodes apply them.
//
// An entry is a batch of commands under a key of its own, log/GENERATION/ID. The revision at which etcd created
// the key is the entry's place in the order. Entries stay as keys until they are trimmed, so that a compaction of
// etcd's history by anybody loses none of them. The key head is written with each entry: its revision is that of the
// newest one.
//
// A write of the key floor begins a generation, whose number is the revision of that write. It is 0 before the first
// one. An entry is appended only to the newest generation, so all entries of earlier ones have lower revisions than
// that number. The value of floor is the number below which generations were deleted.
package ledger

import (
	"bytes"
	"context"
	"encoding/json"
	"errors"
	"fmt"
	"path"
	"sort"
	"strconv"
	"strings"
	"sync/atomic"
	"time"

	"go.etcd.io/etcd/clientv3"
	"go.etcd.io/etcd/clientv3/namespace"
	"go.etcd.io/etcd/etcdserver/api/v3rpc/rpctypes"
	"go.etcd.io/etcd/etcdserver/etcdserverpb"
	"go.etcd.io/etcd/mvcc/mvccpb"

	"rbac-node/internal/faults"
	"rbac-node/internal/logs"
	"rbac-node/internal/office"
	"rbac-node/internal/pause"
	"rbac-node/internal/state"
)

const (
	// firstAttemptTimeout and maxAttemptTimeout are how long the first request to etcd and each later one may take.
	// Each may take twice as long as the one before, so that a slow etcd isn't asked too often.
	firstAttemptTimeout, maxAttemptTimeout = 500 * time.Millisecond, 4 * time.Second
	// firstPause and maxPause are the time between two attempts, which doubles too.
	firstPause, maxPause = 20 * time.Millisecond, 160 * time.Millisecond
	// maxPageEntries is how many entries are read at once if they have fewer bytes than pageBytes.
	maxPageEntries, pageBytes = 64, 512 << 10
	// maxPageKeys is how many keys are read at once.
	maxPageKeys = 64
	// maxWatched is how many revisions a watch may begin behind the newest one.
	maxWatched = 20_000
	// stallInterval is how long the log may be known to have more before it is followed anew.
	stallInterval = time.Second
	// firstKey has the number after which the commands are numbered, and afterKey the same number with the revision of the last entry
	// that the log had when it got that number, and then what it had before.
	firstKey, afterKey = "first", "after"
	// nodesPrefix begins the keys of the nodes.
	nodesPrefix = "nodes/"
)

// ErrTrimmed reports that entries that are still needed were deleted.
var ErrTrimmed = errors.New("the log was trimmed meanwhile")

// ErrWentBack reports that the log is not the one that it was.
var ErrWentBack = errors.New("etcd no longer has what this node has done: it was restored to an earlier time, so move the snapshots of " +
	"all nodes that are newer away")

// errSlow reports that a page of the log didn't come in time.
var errSlow = errors.New("a page of the log did not come in time")

// A Ledger is the log of one office in etcd.
type Ledger struct {
	client  *clientv3.Client
	members []string
	prefix  string
	// kv is the client below the prefix.
	kv  clientv3.KV
	log *logs.Logger
	// pageTimeout is how long a page of the log may take before a smaller one is asked for.
	pageTimeout time.Duration
	// generation is the newest one that is known, and head the newest revision of an entry.
	generation, head atomic.Int64
	// lease is that of the life of a node, which belongs to the goroutine that renews it.
	lease clientv3.LeaseID
}

// New returns the ledger below a prefix of etcd's keys.
func New(client *clientv3.Client, prefix string, log *logs.Logger) *Ledger {
	prefix += "/"
	return &Ledger{
		client: client, members: client.Endpoints(), prefix: prefix, kv: namespace.NewKV(client, prefix), log: log,
		pageTimeout: 2 * maxAttemptTimeout,
	}
}

// finalErrors are those of etcd that no attempt changes: nothing was done.
var finalErrors = []error{
	rpctypes.ErrNoSpace, rpctypes.ErrRequestTooLarge, rpctypes.ErrTooManyOps, rpctypes.ErrPermissionDenied,
	rpctypes.ErrUserEmpty, rpctypes.ErrLeaseNotFound,
}

// isFinal reports whether another attempt would fail in the same way.
func isFinal(err error) bool {
	for _, final := range finalErrors {
		if errors.Is(err, final) {
			return true
		}
	}
	return false
}

// commit runs a transaction of etcd that may run twice: it tries until a member answers, the context ends, or no
// attempt can succeed. A read is one that a quorum confirms.
func (l *Ledger) commit(
	ctx context.Context, what string, shape func(clientv3.Txn) clientv3.Txn,
) (*clientv3.TxnResponse, error) {
	timeout, rest := firstAttemptTimeout, firstPause
	for {
		limited, cancel := context.WithTimeout(ctx, timeout)
		reply, err := shape(l.kv.Txn(limited)).Commit()
		cancel()
		if err == nil {
			return reply, nil
		}
		l.client.SetEndpoints(l.members...)
		if isFinal(err) || pause.For(ctx, rest) != nil {
			return nil, fmt.Errorf("%s: %w", what, err)
		}
		l.log.Warn("asking etcd again", "what", what, "error", err)
		timeout, rest = twice(timeout, maxAttemptTimeout), twice(rest, maxPause)
	}
}

// twice returns twice a duration, or a longest one.
func twice(one, longest time.Duration) time.Duration {
	if one *= 2; one > longest {
		return longest
	}
	return one
}

func (l *Ledger) transact(ctx context.Context, what string, ops ...clientv3.Op) (*clientv3.TxnResponse, error) {
	return l.commit(ctx, what, func(t clientv3.Txn) clientv3.Txn { return t.Then(ops...) })
}

// read returns what an operation of a transaction has read.
func read(reply *clientv3.TxnResponse, op int) []*mvccpb.KeyValue {
	return reply.Responses[op].GetResponseRange().Kvs
}

// revisionOf returns the revision at which the key of a read was last written, or 0 if the key does not exist.
func revisionOf(kvs []*mvccpb.KeyValue) int64 {
	if len(kvs) == 0 {
		return 0
	}
	return kvs[0].ModRevision
}

// floorOf returns the floor that a transaction has read first.
func floorOf(reply *clientv3.TxnResponse) (int64, error) {
	kvs := read(reply, 0)
	if len(kvs) == 0 {
		return 0, nil
	}
	floor, err := strconv.ParseInt(string(kvs[0].Value), 10, 64)
	if err != nil {
		return 0, fmt.Errorf("floor: %w", err)
	}
	return floor, nil
}

// checkFloor reports whether the floor that a transaction has read first is above a place.
func checkFloor(reply *clientv3.TxnResponse, place int64) error {
	floor, err := floorOf(reply)
	if err != nil {
		return err
	}
	if floor > place {
		return ErrTrimmed
	}
	return nil
}

// isAt is the condition that a key was last written at a revision.
func isAt(key string, revision int64) clientv3.Cmp {
	return clientv3.Compare(clientv3.ModRevision(key), "=", revision)
}

// keyOf returns the prefix of the keys of a generation. These prefixes sort as the generations do.
func keyOf(generation int64) string { return fmt.Sprintf("log/%020d/", generation) }

// UseLeader sends requests to the leader of etcd, to which the other members would pass them on. After a request that
// fails, they go to all members.
func (l *Ledger) UseLeader(ctx context.Context) {
	if len(l.client.Endpoints()) == 1 {
		return
	}
	limited, cancel := context.WithTimeout(ctx, firstAttemptTimeout)
	defer cancel()
	// The client's own Status would make a connection, and wait for it.
	maintenance := etcdserverpb.NewMaintenanceClient(l.client.ActiveConnection())
	status, failed := maintenance.Status(limited, &etcdserverpb.StatusRequest{})
	list, err := l.client.MemberList(limited)
	if failed != nil || err != nil {
		return
	}
	for _, member := range list.Members {
		for _, url := range l.members {
			if member.ID == status.Leader && len(member.ClientURLs) > 0 && member.ClientURLs[0] == url {
				l.client.SetEndpoints(url)
			}
		}
	}
}

// Append puts units into the log as an entry, only once however often it has to be tried. An attempt that is delivered
// late never appends a second time: it succeeds only if its key is new, and no other generation has begun since. Append returns the entry as all nodes read it and the revision of the one before it. If the
// entry is in the log by an attempt whose reply was lost, its revision is 0.
func (l *Ledger) Append(ctx context.Context, id string, units []Unit) (entry Entry, before int64, err error) {
	for {
		tried := l.generation.Load()
		text, err := textOf(units)
		if err != nil {
			return entry, 0, fmt.Errorf("append: %w", err)
		}
		key := keyOf(tried) + id
		reply, err := l.commit(ctx, "append", func(t clientv3.Txn) clientv3.Txn {
			if faults.Has(faults.AppendsTwice) {
				defer func() { key += "x" }()
			}
			return t.If(clientv3.Compare(clientv3.Version(key), "=", 0), isAt("floor", tried)).Then(
				clientv3.OpGet("head"), clientv3.OpPut(key, text), clientv3.OpPut("head", ""),
			).Else(clientv3.OpGet("floor"), clientv3.OpGet(key, clientv3.WithKeysOnly()))
		})
		switch {
		case err != nil:
			return entry, 0, err
		case reply.Succeeded:
			return entryOf(Place{reply.Header.Revision, id, key}, []byte(text)), revisionOf(read(reply, 0)), nil
		case len(read(reply, 1)) > 0:
			return entry, 0, nil
		}
		// The generation has ended without this entry, unless it is deleted already.
		l.generation.Store(revisionOf(read(reply, 0)))
		if err := checkFloor(reply, tried); err != nil {
			return entry, 0, fmt.Errorf("append: %w", err)
		}
	}
}

// Head returns the revision of the newest entry. It fails with ErrWentBack if the log hasn't a place that was done before the call.
func (l *Ledger) Head(ctx context.Context, done Place) (int64, error) {
	ops := []clientv3.Op{clientv3.OpGet("floor"), clientv3.OpGet("head")}
	if done.key != "" {
		ops = append(ops, clientv3.OpGet(done.key, clientv3.WithKeysOnly()))
	}
	reply, err := l.transact(ctx, "read of the head", ops...)
	if err != nil {
		return 0, err
	}
	floor, err := floorOf(reply)
	if err != nil {
		return 0, err
	}
	head := revisionOf(read(reply, 1))
	isAdopted := head == 0 && floor == done.Revision // Then the log begins after a place without an entry.
	if head < done.Revision && !isAdopted {
		return 0, ErrWentBack
	}
	if done.key != "" && done.key >= keyOf(floor) && revisionOf(read(reply, 2)) != done.Revision {
		return 0, ErrWentBack
	}
	raiseTo(&l.head, head)
	return head, nil
}

// raiseTo makes a number at least as large as another one.
func raiseTo(number *atomic.Int64, least int64) {
	for old := number.Load(); old < least && !number.CompareAndSwap(old, least); old = number.Load() {
	}
}

// Trim deletes all generations but the newest and begins another one, if the newest generation of a state began before
// a revision up to which nobody needs entries, and is still the newest. It makes etcd forget its history as well. It
// returns the new floor, or 0 if nothing was deleted.
func (l *Ledger) Trim(ctx context.Context, s State, needless int64) (floor int64, err error) {
	if s.generation >= needless {
		return 0, nil
	}
	reply, err := l.commit(ctx, "trim", func(t clientv3.Txn) clientv3.Txn {
		return t.If(isAt("floor", s.generation)).Then(
			clientv3.OpPut("floor", strconv.FormatInt(s.generation, 10)),
			clientv3.OpDelete("log/", clientv3.WithRange(keyOf(s.generation))),
		)
	})
	if err != nil || !reply.Succeeded {
		return 0, err
	}
	if _, err := l.client.Compact(ctx, s.generation); err != nil && !errors.Is(err, rpctypes.ErrCompacted) {
		return 0, fmt.Errorf("compaction: %w", err)
	}
	return s.generation, nil
}

// A Beginning is how the commands of a log are numbered: after First, which no other log has. Up to the revision After an earlier log had
// the same entries: etcd was restored then. Earlier has the same two numbers of that log, of the one before it, and so on.
type Beginning struct {
	First, After int64
	Earlier      string
}

// Has reports whether the log has what an earlier one had at a revision, which numbered its commands after a number. What came before the
// oldest log of which anything is known may have had any number.
func (b Beginning) Has(first, revision int64) bool {
	if first == b.First {
		return true
	}
	most := b.After
	for earlier := strings.NewReader(b.Earlier); ; {
		var one, after int64
		if _, err := fmt.Fscan(earlier, &one, &after); err != nil || one == first {
			return revision <= most
		}
		if after < most {
			most = after
		}
	}
}

// Beginning returns that of the log. The first node that asks makes it, with a number that is greater than all of an earlier log.
func (l *Ledger) Beginning(ctx context.Context) (Beginning, error) {
	for {
		reply, err := l.transact(ctx, "read of the first number", clientv3.OpGet(firstKey), clientv3.OpGet(afterKey), clientv3.OpGet("head"))
		if err != nil {
			return Beginning{}, err
		}
		if kvs := read(reply, 0); len(kvs) > 0 {
			return beginningOf(string(kvs[0].Value), read(reply, 1))
		}
		first, err := state.FirstNumber(time.Now(), 0)
		if err != nil {
			return Beginning{}, err
		}
		head, earlier := revisionOf(read(reply, 2)), ""
		if after := read(reply, 1); len(after) > 0 {
			earlier = " " + string(after[0].Value)
		}
		if _, err := l.commit(ctx, "first number", func(t clientv3.Txn) clientv3.Txn {
			return t.If(isAt(firstKey, 0), isAt("head", head)).Then(
				clientv3.OpPut(firstKey, strconv.FormatInt(first, 10)), clientv3.OpPut(afterKey, fmt.Sprintf("%d %d%s", first, head, earlier)))
		}); err != nil {
			return Beginning{}, err
		}
	}
}

// beginningOf returns a beginning from what etcd has. A node of an earlier version writes no revision beside the number.
func beginningOf(text string, after []*mvccpb.KeyValue) (b Beginning, err error) {
	if b.First, err = strconv.ParseInt(text, 10, 64); err != nil || len(after) == 0 {
		return b, err
	}
	var first, revision int64
	if _, err := fmt.Sscanf(string(after[0].Value), "%d %d", &first, &revision); err != nil {
		return b, fmt.Errorf("%s: %w", afterKey, err)
	}
	if first == b.First {
		b.After, b.Earlier = revision, strings.Join(strings.Fields(string(after[0].Value))[2:], " ")
	}
	return b, nil
}

// Adopt makes an empty log begin after a snapshot that holds an earlier state of an office. It returns the revision of
// that snapshot. Nodes without it have to fetch it.
func (l *Ledger) Adopt(ctx context.Context) (int64, error) {
	s, err := l.State(ctx)
	if err != nil {
		return 0, err
	}
	reply, err := l.commit(ctx, "adoption", func(t clientv3.Txn) clientv3.Txn {
		return t.If(isAt("head", 0), isAt("floor", 0)).Then(clientv3.OpPut("floor", strconv.FormatInt(s.Revision, 10)))
	})
	if err != nil {
		return 0, err
	}
	if !reply.Succeeded {
		return 0, errors.New("the log has commands already: an office can be adopted only before the first one")
	}
	return s.Revision, nil
}

// A Member is what a node reports about itself. The log is kept for it until its key is deleted.
type Member struct {
	Name string `json:"name"`
	// Peer is the URL at which other nodes fetch this node's newest snapshot.
	Peer string `json:"peer"`
	// Snapshots are those that it keeps, the newest first.
	Snapshots []office.Snapshot `json:"snapshots"`
	// Outvoted says why most nodes have outvoted this one, which refuses as long as it has its folder. It is empty if they haven't.
	Outvoted string `json:"outvoted,omitempty"`
}

// Settings say at which places of the log nodes take snapshots.
type Settings struct {
	Every      int64 `json:"every"`
	EveryBytes int64 `json:"every_bytes"`
}

func (s Settings) String() string {
	return fmt.Sprintf("--every %d --every-bytes %d", s.Every, s.EveryBytes)
}

// Register writes what a node reports about itself.
func (l *Ledger) Register(ctx context.Context, member Member) error {
	text, err := json.Marshal(member)
	if err != nil {
		return fmt.Errorf("registration: %w", err)
	}
	_, err = l.transact(ctx, "registration", clientv3.OpPut(nodesPrefix+member.Name, string(text)))
	return err
}

// A State is what etcd has besides the entries: the revision up to which they may be gone, the newest generation, the nodes that are
// registered, those that run, and the revision at which it was read.
type State struct {
	Floor, generation, Revision int64
	Members                     []Member
	Lives                       []Life
}

// State reads the state.
func (l *Ledger) State(ctx context.Context) (s State, err error) {
	reply, err := l.transact(ctx, "read of the nodes", clientv3.OpGet("floor"), clientv3.OpGet(nodesPrefix, clientv3.WithPrefix()),
		clientv3.OpGet(livesPrefix, clientv3.WithPrefix()))
	if err != nil {
		return s, err
	}
	s = State{generation: revisionOf(read(reply, 0)), Revision: reply.Header.Revision}
	l.generation.Store(s.generation)
	if s.Floor, err = floorOf(reply); err != nil {
		return s, err
	}
	for _, kv := range read(reply, 1) {
		if bytes.HasPrefix(kv.Key, []byte(nodesPrefix+"/")) {
			continue // A mark in the logs of earlier programs, and no node.
		}
		var member Member
		if err := json.Unmarshal(kv.Value, &member); err != nil {
			return s, fmt.Errorf("%s: %w", kv.Key, err)
		}
		s.Members = append(s.Members, member)
	}
	for _, kv := range read(reply, 2) {
		var life Life
		if err := json.Unmarshal(kv.Value, &life); err != nil {
			return s, fmt.Errorf("%s: %w", kv.Key, err)
		}
		s.Lives = append(s.Lives, life)
	}
	return s, nil
}

// Follow delivers the entries after a revision, in their order, until the context ends, a delivery fails, or the log
// was trimmed past what is needed.
func (l *Ledger) Follow(ctx context.Context, after int64, deliver func(Entry) error) error {
	f := &follower{l, after, deliver}
	for lacks := false; ; {
		// What is far behind, and what etcd's history lacks after a compaction, is read from the keys. The rest is watched.
		isNear, err := f.isNear(ctx)
		revision := f.after
		if err == nil && (lacks || !isNear) {
			revision, err = f.catchUp(ctx)
		}
		if err != nil {
			return err
		}
		if lacks, err = f.watch(ctx, revision+1); err != nil {
			return err
		}
		l.log.Info("following the log anew", "revision", f.after)
		if err := pause.For(ctx, firstPause); err != nil {
			return err
		}
	}
}

// A follower has delivered the entries up to the revision after.
type follower struct {
	*Ledger
	after   int64
	deliver func(Entry) error
}

// isNear reports whether so little of the log is missing that etcd may read it at once, as it does for a watch: no node has two snapshots
// that are newer, so these are no more commands than come between three.
func (f *follower) isNear(ctx context.Context) (bool, error) {
	state, err := f.State(ctx)
	if err != nil {
		return false, err
	}
	if state.Floor > f.after {
		return false, ErrTrimmed
	}
	for _, member := range state.Members {
		if len(member.Snapshots) > 1 && member.Snapshots[1].Revision > f.after {
			return false, nil
		}
	}
	return state.Revision-f.after <= maxWatched, nil
}

// catchUp delivers the entries that the log has, and returns the revision up to which it has read. Pages of entries are
// small enough for a slow link: after a page that was too large, or did not come in time, the next one has half as many.
func (f *follower) catchUp(ctx context.Context) (revision int64, err error) {
	keys, revision, err := f.keys(ctx)
	if err != nil {
		return 0, err
	}
	for entries := 1; len(keys) > 0; {
		if entries > len(keys) {
			entries = len(keys)
		}
		size, err := f.page(ctx, keys[:entries])
		if err != nil && !errors.Is(err, errSlow) {
			return 0, err
		}
		if err == nil {
			keys = keys[entries:]
		}
		switch {
		case err != nil || size > pageBytes:
			entries = (entries + 1) / 2
		case size < pageBytes/2 && entries < maxPageEntries:
			entries *= 2
		}
	}
	return revision, nil
}

// keys returns the keys of the entries that were not delivered yet, in the order of the log, and the revision up to which
// it has all of them. etcd reads whole entries for their keys, and all that there are if it has to sort or to select
// them: so it is asked for a few at once. Those of generations that ended before what was delivered are left out.
func (f *follower) keys(ctx context.Context) (found []*mvccpb.KeyValue, revision int64, err error) {
	end := clientv3.WithRange(clientv3.GetPrefixRangeEnd("log/"))
	from := "log/"
	if generation := f.generation.Load(); generation <= f.after {
		from = keyOf(generation)
	}
	for more := true; more; {
		reply, err := f.transact(ctx, "read of the log", clientv3.OpGet("floor"),
			clientv3.OpGet(from, end, clientv3.WithKeysOnly(), clientv3.WithLimit(maxPageKeys)))
		if err != nil {
			return nil, 0, err
		}
		// What was deleted meanwhile was delivered before.
		if err := checkFloor(reply, f.after); err != nil {
			return nil, 0, err
		}
		if revision == 0 {
			revision = reply.Header.Revision
		}
		for _, key := range read(reply, 1) {
			if key.CreateRevision > f.after && key.CreateRevision <= revision {
				found = append(found, key)
			}
			from = string(key.Key) + "\x00"
		}
		more = reply.Responses[1].GetResponseRange().More
	}
	sort.Slice(found, func(i, j int) bool { return found[i].CreateRevision < found[j].CreateRevision })
	return found, revision, nil
}

// page reads and delivers the entries with these keys, and returns how many bytes they have.
func (f *follower) page(ctx context.Context, keys []*mvccpb.KeyValue) (size int, err error) {
	ops := []clientv3.Op{clientv3.OpGet("floor")}
	for _, key := range keys {
		ops = append(ops, clientv3.OpGet(string(key.Key)))
	}
	limited, cancel := context.WithTimeout(ctx, f.pageTimeout)
	defer cancel()
	reply, err := f.transact(limited, "read of the log", ops...)
	if err != nil && limited.Err() != nil && ctx.Err() == nil {
		return 0, errSlow
	}
	if err != nil {
		return 0, err
	}
	if err := checkFloor(reply, f.after); err != nil {
		return 0, err
	}
	for i := range keys {
		kvs := read(reply, i+1)
		if len(kvs) == 0 {
			return 0, ErrTrimmed
		}
		size += len(kvs[0].Value)
		if err := f.deliverEntry(kvs[0]); err != nil {
			return 0, err
		}
	}
	return size, nil
}

func (f *follower) deliverEntry(kv *mvccpb.KeyValue) error {
	f.after = kv.CreateRevision
	key := string(kv.Key)
	return f.deliver(entryOf(Place{f.after, path.Base(key), key}, kv.Value))
}

// watch delivers what etcd's watch reports until it ends, or until entries that the log is known to have don't come: a
// member of etcd that hangs reports nothing. It reports whether the watch lacks such entries.
func (f *follower) watch(ctx context.Context, from int64) (lacks bool, err error) {
	ctx, cancel := context.WithCancel(clientv3.WithRequireLeader(ctx))
	defer cancel()
	// The client itself, since that of a namespace hands each event on to another goroutine.
	watch := f.client.Watch(ctx, f.prefix+"log/", clientv3.WithPrefix(), clientv3.WithRev(from), clientv3.WithFilterDelete())
	ticker := time.NewTicker(stallInterval)
	defer ticker.Stop()
	for wanted, last := int64(0), f.after; ; {
		select {
		case <-ticker.C:
			if f.after < wanted && f.after == last {
				return true, nil
			}
			wanted, last = f.head.Load(), f.after
		case reply := <-watch:
			if reply.Err() != nil || len(reply.Events) == 0 {
				return reply.CompactRevision > 0, ctx.Err()
			}
			for _, event := range reply.Events {
				event.Kv.Key = event.Kv.Key[len(f.prefix):]
				if err := f.deliverEntry(event.Kv); err != nil {
					return false, err
				}
			}
		}
	}
}
