package office

import (
	"bytes"
	"context"
	"errors"
	"fmt"
	"io"
	"net/http"
	"os"
	"os/exec"
	"path/filepath"
	"regexp"
	"sort"
	"strconv"
	"strings"
	"time"

	sqlite3 "github.com/mattn/go-sqlite3"

	"rbac-node/internal/disk"
)

const (
	// maxSnapshots is how many snapshots a store keeps.
	maxSnapshots = 3
	// unfinishedPrefix is the prefix of the name of an unfinished snapshot.
	unfinishedPrefix = "making-"
	// damagedPrefix is the prefix of the name of a snapshot that was set aside.
	damagedPrefix = "damaged-"
	// policyMark is before the revision of the policy in the name of a snapshot, and firstMark before the first number of its log.
	policyMark, firstMark = "-policy", "-first"
	// recordMark is before the head of the record in the name of a snapshot.
	recordMark = "-record"
	// copiedSuffix ends the name of a snapshot that another node has made.
	copiedSuffix = "-copied"
	// earlierDigits is how many more digits an earlier version had in the names of its folders in memory.
	earlierDigits = 48
	// nameField is the field in the head of a reply that names the snapshot.
	nameField = "Snapshot"
	// revisionQuery is how another snapshot than the newest one is asked for.
	revisionQuery = "revision"
)

// Run runs a command of the program on the file of an office: init or check.
func Run(ctx context.Context, program, command, file string) error {
	if said, err := exec.CommandContext(ctx, program, command, file).CombinedOutput(); err != nil {
		return fmt.Errorf("%s %s: %w: %s", command, file, err, bytes.TrimSpace(said))
	}
	return nil
}

// A Snapshot describes a state: the revision of the last entry in it, how many commands are in it, and a digest of its
// rows.
type Snapshot struct {
	Revision int64  `json:"revision"`
	Count    int64  `json:"commands"`
	Digest   string `json:"digest"`
	// Record is the head of the record at this place. It is empty if the record begins later, and NoRecord if the node that has made
	// the snapshot keeps none.
	Record string `json:"record,omitempty"`
	// Policy is the revision of the policy, or 0 if nothing is known of the commands before, as of an office that was adopted.
	Policy int64 `json:"policy,omitempty"`
	// First is the number after which the log numbers its commands. Each log has another one, also one that was restored. It is 0 in a
	// snapshot of an earlier version.
	First int64 `json:"first,omitempty"`
	// Copied says that another node has made it, so that it is no second witness for its rows.
	Copied bool `json:"copied,omitempty"`
}

// ErrOther reports that an office isn't what it has to be.
var ErrOther = errors.New("it is another office")

func other(s Snapshot, digest string) error {
	return fmt.Errorf("%w: snapshot %d has the digest %s and not %s", ErrOther, s.Revision, digest, s.Digest)
}

// NoRecord is in place of the head of a record that a node doesn't keep.
const NoRecord = "none"

// IsSame reports whether two snapshots are of one place, with the same rows, the same revision of the policy, and the same record if both
// have one.
func (s Snapshot) IsSame(other Snapshot) bool {
	return s.Revision == other.Revision && s.Count == other.Count && s.Digest == other.Digest && s.hasPolicyOf(other) &&
		(s.Record == other.Record || s.Record == NoRecord || other.Record == NoRecord)
}

// hasPolicyOf reports whether two snapshots have the same revision of the policy. After a restore the same command has another number.
func (s Snapshot) hasPolicyOf(other Snapshot) bool {
	if s.First == 0 || other.First == 0 {
		return s.Policy == other.Policy
	}
	return s.Policy-s.First == other.Policy-other.First
}

// PolicyIn returns the revision of the policy in a log that numbers its commands after another number.
func (s Snapshot) PolicyIn(first int64) int64 {
	switch {
	case s.Policy == 0: // Nothing is known of the commands before, of which an empty log has none.
		return first + s.Count
	case s.First == 0:
		return s.Policy
	}
	return s.Policy - s.First + first
}

// IsOfPlace reports whether two snapshots have the same revision or as many commands. In one log they have both or neither.
func (s Snapshot) IsOfPlace(other Snapshot) bool {
	return s.Revision == other.Revision || s.Count == other.Count && s.Count > 0
}

// A Store is a folder of snapshots. Each is the file of an office, and its name has what is known about it.
type Store struct {
	dir     *os.File
	program string
	// scratch has the folders in which offices are made.
	scratch Scratch
}

// FolderIn returns the folder of the snapshots of a node whose folder this is.
func FolderIn(data string) string { return filepath.Join(data, "snapshots") }

// Open returns the store of a node, which it makes in the folder of the node. It deletes what a crash left unfinished.
func Open(data, program string) (*Store, error) {
	folder := FolderIn(data)
	if err := os.MkdirAll(folder, 0o700); err != nil {
		return nil, fmt.Errorf("snapshots: %w", err)
	}
	scratch := ScratchOf("node", folder, folder)
	left, _ := filepath.Glob(filepath.Join(disk.EscapeGlob(folder), unfinishedPrefix+"*"))      // The pattern isn't wrong.
	inMemory, _ := filepath.Glob(scratch[0] + strings.Repeat("[0-9a-f]", earlierDigits) + "-*") // An earlier version has left them.
	for _, file := range append(left, inMemory...) {
		if err := os.RemoveAll(file); err != nil {
			return nil, fmt.Errorf("snapshots: %w", err)
		}
	}
	dir, err := os.Open(folder)
	if err != nil {
		return nil, fmt.Errorf("snapshots: %w", err)
	}
	s := &Store{dir, program, scratch}
	s.scratch.RemoveLeft()
	return s, nil
}

// nameOf and parse write and read the name of a snapshot.
func nameOf(s Snapshot) string {
	name := fmt.Sprintf("%d-%d-%s", s.Revision, s.Count, s.Digest)
	if s.Policy > 0 {
		name += policyMark + strconv.FormatInt(s.Policy, 10)
	}
	if s.First > 0 {
		name += firstMark + strconv.FormatInt(s.First, 10)
	}
	if s.Record != "" {
		name += recordMark + s.Record
	}
	if s.Copied {
		name += copiedSuffix
	}
	return name
}

// nameForm is the form of these names. What SQLite puts beside a file that somebody reads has another one, such as NAME-wal.
var nameForm = regexp.MustCompile(`^(\d+)-(\d+)-([0-9a-f]+)(?:` + policyMark + `(\d+))?(?:` + firstMark + `(\d+))?(?:` +
	recordMark + `(` + NoRecord + `|\d+:[0-9a-f]+))?(` + copiedSuffix + `)?$`)

func parse(name string) (s Snapshot, err error) {
	parts := nameForm.FindStringSubmatch(name)
	if parts == nil {
		return s, fmt.Errorf("%q is not the name of a snapshot", name)
	}
	s.Digest, s.Record, s.Copied = parts[3], parts[6], parts[7] != ""
	for i, number := range map[int]*int64{1: &s.Revision, 2: &s.Count, 4: &s.Policy, 5: &s.First} {
		if parts[i] == "" {
			continue
		}
		if *number, err = strconv.ParseInt(parts[i], 10, 64); err != nil {
			return s, fmt.Errorf("%q is not the name of a snapshot: %w", name, err)
		}
	}
	return s, nil
}

// Path returns the path of a snapshot.
func (s *Store) Path(snapshot Snapshot) string { return PathIn(s.dir.Name(), snapshot) }

// PathIn returns the path of a snapshot in a folder.
func PathIn(folder string, snapshot Snapshot) string { return filepath.Join(folder, nameOf(snapshot)) }

// List returns all snapshots, the newest first.
func (s *Store) List() ([]Snapshot, error) { return List(s.dir.Name()) }

// List returns the snapshots in a folder, the newest first.
func List(folder string) ([]Snapshot, error) {
	entries, err := os.ReadDir(folder)
	if err != nil {
		return nil, fmt.Errorf("snapshots: %w", err)
	}
	var found []Snapshot
	for _, entry := range entries {
		if snapshot, err := parse(entry.Name()); err == nil {
			found = append(found, snapshot)
		}
	}
	sort.Slice(found, func(i, j int) bool { return found[i].Revision > found[j].Revision })
	return found, nil
}

// Begin copies an office, which no program has open, to a file that is to become a snapshot.
func (s *Store) Begin(file string) (string, error) {
	source, err := os.Open(file)
	if err != nil {
		return "", fmt.Errorf("snapshot: %w", err)
	}
	defer source.Close()
	return s.save(source)
}

// Make makes an office of lines, which the program has to accept one by one. After an error there may be an unfinished file.
func Make(ctx context.Context, program, file string, lines []byte, hangTimeout time.Duration) error {
	if err := Run(ctx, program, "init", file); err != nil {
		return err
	}
	replay, err := Start(program, file, hangTimeout)
	if err != nil {
		return err
	}
	ended := make(chan struct{})
	defer close(ended)
	go func() {
		select {
		case <-ctx.Done():
			replay.Kill()
		case <-ended:
		}
	}()
	var refused error
	for len(lines) > 0 {
		line, rest, _ := bytes.Cut(lines, []byte("\n"))
		replay.Send(line, func(answer []byte) {
			if refused == nil && !bytes.HasPrefix(answer, []byte(`{"ok":true`)) {
				refused = fmt.Errorf("%w: the program answers %s to %s", ErrOther, answer, line)
			}
		})
		lines = rest
	}
	if err := replay.Close(); err != nil {
		return err
	}
	return refused
}

// Make makes a snapshot of an office that lines make, which has to have the digest.
func (s *Store) Make(ctx context.Context, lines []byte, snapshot Snapshot, hangTimeout time.Duration) (Snapshot, error) {
	return snapshot, s.build(ctx, lines, hangTimeout, func(made string) error {
		file, err := s.Begin(made)
		if err == nil {
			snapshot, err = s.Finish(ctx, file, snapshot)
		}
		return err
	})
}

// Leave makes an office of lines, and leaves it in a file.
func (s *Store) Leave(ctx context.Context, lines []byte, file string, hangTimeout time.Duration) error {
	return s.build(ctx, lines, hangTimeout, func(made string) error {
		if err := disk.Copy(made, file+".making"); err != nil {
			return fmt.Errorf("office: %w", err)
		}
		return os.Rename(file+".making", file)
	})
}

// build makes an office of lines in a folder of its own, for as long as somebody uses it.
func (s *Store) build(ctx context.Context, lines []byte, hangTimeout time.Duration, use func(made string) error) error {
	folder, end, err := s.scratch.New(int64(len(lines)))
	if err != nil {
		return fmt.Errorf("office: %w", err)
	}
	defer end()
	made := filepath.Join(folder, "office")
	if err := Make(ctx, s.program, made, lines, hangTimeout); err != nil {
		return fmt.Errorf("office: %w", err)
	}
	return use(made)
}

// SetAside gives a snapshot a name by which nobody takes it for one.
func (s *Store) SetAside(snapshot Snapshot) error {
	return os.Rename(s.Path(snapshot), filepath.Join(s.dir.Name(), damagedPrefix+nameOf(snapshot)))
}

// save writes a file that is to become a snapshot.
func (s *Store) save(from io.Reader) (string, error) {
	file, err := os.CreateTemp(s.dir.Name(), unfinishedPrefix)
	if err != nil {
		return "", fmt.Errorf("snapshot: %w", err)
	}
	_, err = io.Copy(file, from)
	if err == nil {
		err = file.Sync()
	}
	if err := disk.Close(file, err); err != nil {
		_ = os.Remove(file.Name()) // A full disk gets its room back.
		return "", fmt.Errorf("snapshot: %w", err)
	}
	return file.Name(), nil
}

// Finish makes a file a snapshot once it is a good office and has the digest, if that is known. The snapshot is then
// durable, and the oldest ones are deleted. If anything is wrong, the file is deleted.
func (s *Store) Finish(ctx context.Context, file string, snapshot Snapshot) (Snapshot, error) {
	defer os.Remove(file)
	if err := Run(ctx, s.program, "check", file); err != nil {
		return snapshot, err
	}
	digest, err := Digest(ctx, file)
	if err != nil {
		return snapshot, err
	}
	if snapshot.Digest != "" && snapshot.Digest != digest {
		return snapshot, other(snapshot, digest)
	}
	snapshot.Digest = digest
	if err = os.Rename(file, s.Path(snapshot)); err == nil {
		err = s.dir.Sync()
	}
	if err != nil {
		return snapshot, fmt.Errorf("snapshot: %w", err)
	}
	return snapshot, s.deleteOld()
}

// deleteOld deletes the snapshots that are too many.
func (s *Store) deleteOld() error {
	found, err := s.List()
	if err != nil {
		return err
	}
	for i := maxSnapshots; i < len(found); i++ {
		if err := os.Remove(s.Path(found[i])); err != nil {
			return fmt.Errorf("old snapshot: %w", err)
		}
	}
	return nil
}

// Restore copies a snapshot to a file, unless the snapshot has changed.
func (s *Store) Restore(ctx context.Context, snapshot Snapshot, file string) error {
	digest, err := Digest(ctx, s.Path(snapshot))
	if err != nil && ctx.Err() == nil && !mayPass(err) {
		return fmt.Errorf("%w: snapshot %d: %v", ErrOther, snapshot.Revision, err)
	}
	if err != nil {
		return fmt.Errorf("snapshot %d: %w", snapshot.Revision, err)
	}
	if digest != snapshot.Digest {
		return other(snapshot, digest)
	}
	if err := disk.Copy(s.Path(snapshot), file); err != nil {
		return fmt.Errorf("office: %w", err)
	}
	return nil
}

// mayPass reports whether the same file may be read later: this error says nothing of what is in it.
func mayPass(err error) bool {
	var failed sqlite3.Error
	if !errors.As(err, &failed) {
		return false
	}
	return failed.Code == sqlite3.ErrNomem || failed.Code == sqlite3.ErrCantOpen || failed.Code == sqlite3.ErrIoErr
}

// ServeHTTP sends the newest snapshot to another node, or that at the revision that it asks for.
func (s *Store) ServeHTTP(w http.ResponseWriter, r *http.Request) {
	found, err := s.List()
	if err != nil {
		found = nil
	}
	wanted := r.URL.Query().Get(revisionQuery)
	for _, one := range found {
		if wanted != "" && wanted != strconv.FormatInt(one.Revision, 10) {
			continue
		}
		file := s.Path(one)
		one.Copied = false
		w.Header().Set(nameField, nameOf(one))
		w.Header().Set("Content-Type", "application/octet-stream")
		http.ServeFile(w, r, file)
		return
	}
	http.Error(w, "there is no snapshot", http.StatusNotFound)
}

// Fetch copies the newest snapshot of another node into the store, or that at a revision if that is not 0, if the caller accepts its name,
// and its rows match the name. A truncated copy has another digest.
func (s *Store) Fetch(
	ctx context.Context, client *http.Client, peer string, revision int64, accept func(Snapshot) error,
) (Snapshot, error) {
	url := strings.TrimSuffix(peer, "/") + "/snapshot"
	if revision > 0 {
		url += "?" + revisionQuery + "=" + strconv.FormatInt(revision, 10)
	}
	request, err := http.NewRequestWithContext(ctx, http.MethodGet, url, nil)
	if err != nil {
		return Snapshot{}, fmt.Errorf("snapshot: %w", err)
	}
	reply, err := client.Do(request)
	if err != nil {
		return Snapshot{}, fmt.Errorf("snapshot: %w", err)
	}
	defer reply.Body.Close()
	if reply.StatusCode != http.StatusOK {
		return Snapshot{}, fmt.Errorf("get %s: %s", request.URL, reply.Status)
	}
	snapshot, err := parse(reply.Header.Get(nameField))
	if err != nil {
		return Snapshot{}, err
	}
	if err := accept(snapshot); err != nil {
		return Snapshot{}, err
	}
	file, err := s.save(reply.Body)
	if err != nil {
		return Snapshot{}, err
	}
	snapshot.Copied = true
	return s.Finish(ctx, file, snapshot)
}
