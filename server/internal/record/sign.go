package record

import (
	"bufio"
	"bytes"
	"context"
	"encoding/json"
	"errors"
	"fmt"
	"io"
	"net/http"
	"os"
	"strconv"
	"strings"
	"syscall"
	"time"

	"rbac-node/internal/recorded"
)

// mostAnswered is how many bytes an answer of a front about its record may have.
const mostAnswered = 16 << 20

// A Signer signs the heads of a record that a front on another machine keeps, and nobody can write both machines.
type Signer struct {
	// URL is that of the front, and Client asks it. Token shows who asks, or is empty.
	URL, Token string
	Client     *http.Client
	// Key is the file of the key, of minisign or ssh-keygen, and Heads that of the signed heads. IsFirst says that there is none yet, and
	// IsRestored that a backup of the record was restored.
	Key, Heads          string
	IsFirst, IsRestored bool
	Out                 io.Writer
}

// ErrNotContinued is returned for a record that doesn't continue the last head that was signed.
var ErrNotContinued = errors.New("the record does not continue the last signed head, so nothing was signed: somebody has changed it, cut " +
	"it off, or restored it. Keep the file of heads and a backup of the record as they are, and run " +
	"`rbac-node record verify --heads FILE --signers FILE` on that backup; if a backup was restored, and you know why, go on with --restored")

var (
	errIsThere = errors.New("it has heads already: leave out --begin, or name another file")
	errIsEmpty = errors.New("it has no head: to sign the first one, give --begin")
	// errNotRestored is returned if the record has another history, and doesn't say that it was restored.
	errNotRestored = fmt.Errorf("no entry after the newest signed head that the record has says that a backup was restored: %w", ErrNotContinued)
)

// Sign signs the head of the record after it has computed all links from the last signed head to it, and appends it to the file.
func (s *Signer) Sign(ctx context.Context) error {
	flags := os.O_RDWR
	if s.IsFirst {
		flags |= os.O_CREATE
	}
	file, err := os.OpenFile(s.Heads, flags, 0o644)
	if errors.Is(err, os.ErrNotExist) {
		return fmt.Errorf("%s: %w", s.Heads, errIsEmpty)
	}
	if err != nil {
		return err
	}
	defer file.Close()
	if err := s.sign(ctx, file); err != nil {
		return fmt.Errorf("%s: %w", s.Heads, err)
	}
	return nil
}

func (s *Signer) sign(ctx context.Context, file *os.File) error {
	if err := syscall.Flock(int(file.Fd()), syscall.LOCK_EX|syscall.LOCK_NB); err != nil {
		return fmt.Errorf("another program signs: %w", err)
	}
	known, end, err := knownIn(file)
	if err != nil {
		return err
	}
	switch {
	case s.IsFirst && len(known) > 0:
		return errIsThere
	case !s.IsFirst && len(known) == 0:
		return errIsEmpty
	}
	head, err := s.next(ctx, known)
	if err != nil {
		return err
	}
	signed := &signedHead{Entry: head.N, Chain: head.Chain, At: time.Now().UTC().Format(time.RFC3339)}
	if head.After.N > 0 {
		signed.After = head.After.String()
	}
	if err := signed.sign(ctx, s.Key); err != nil {
		return err
	}
	line, err := json.Marshal(signed)
	if err != nil {
		return err
	}
	if err := file.Truncate(end); err != nil {
		return err
	}
	if _, err := file.WriteAt(append(line, '\n'), end); err != nil {
		return err
	}
	if err := file.Sync(); err != nil {
		return err
	}
	fmt.Fprintln(s.Out, head.Head)
	return nil
}

// knownIn returns the heads of a file, and where its lines end. A crash may have left a part of a line after them.
func knownIn(file io.Reader) (known []KnownHead, end int64, err error) {
	lines := bufio.NewReaderSize(file, longestSigned)
	for {
		line, err := lines.ReadSlice('\n')
		if errors.Is(err, io.EOF) {
			return known, end, nil
		}
		if err != nil {
			return nil, end, err
		}
		_, head, err := readSigned(bytes.TrimSpace(line))
		if err != nil {
			return nil, end, fmt.Errorf("after %d bytes: %w", end, err)
		}
		known, end = append(known, head), end+int64(len(line))
	}
}

// next returns the head that the record has now, if it continues the last one that was signed. If a backup was restored, it may continue
// an earlier one, which the head then says.
func (s *Signer) next(ctx context.Context, known []KnownHead) (next KnownHead, err error) {
	heads, _ := standing(known)
	if len(heads) == 0 {
		next.Head, _, err = s.follow(ctx, Head{})
		return next, err
	}
	next.Head, _, err = s.follow(ctx, heads[len(heads)-1])
	for i := len(heads) - 2; s.IsRestored && errors.Is(err, ErrNotContinued) && i >= 0; i-- {
		var isRestored bool
		next.After = heads[i]
		if next.Head, isRestored, err = s.follow(ctx, next.After); err == nil && !isRestored {
			err = errNotRestored
			break
		}
	}
	return next, err
}

// follow computes the links from a head to the one that the record has now, which it returns, and whether an entry between them says that a
// backup was restored. It keeps one answer at a time.
func (s *Signer) follow(ctx context.Context, last Head) (head Head, isRestored bool, err error) {
	given, err := s.ask(ctx, last.N)
	if err != nil {
		return head, false, err
	}
	if head, err = ParseHead(given.Head); err != nil {
		return head, false, fmt.Errorf("the front: %w", err)
	}
	if head.N < last.N {
		return head, false, fmt.Errorf("the record ends at entry %d, and entry %d was signed: %w", head.N, last.N, ErrNotContinued)
	}
	for at := last; ; {
		if given.First > at.N+1 && last.N == 0 {
			return head, false, nil // Nothing was signed, and what came before isn't there.
		}
		if given.First > at.N+1 {
			return head, false, fmt.Errorf("entries %d to %d were moved away before a head after them was signed: put their part back, or "+
				"begin another file with --begin: %w", at.N+1, given.First-1, ErrMissing)
		}
		before := at.N
		if at, err = advance(at, given.Entries, head.N); err != nil {
			return head, false, err
		}
		for _, fields := range given.Entries {
			isRestored = isRestored || saysRestored(fields)
		}
		switch {
		case at == head:
			return head, isRestored, nil
		case at.N == head.N:
			return head, false, fmt.Errorf("entry %d has another link than what leads from entry %d to it: %w", head.N, last.N, ErrNotContinued)
		case at.N == before:
			return head, false, fmt.Errorf("entry %d is not there: %w", at.N+1, ErrNotContinued)
		}
		if given, err = s.ask(ctx, at.N); err != nil {
			return head, false, err
		}
	}
}

// requestField is which of the fields of an entry has the request.
const requestField = 4

// saysRestored reports whether the fields of an entry say that a backup was restored.
func saysRestored(fields []string) bool {
	var text beginningText
	return len(fields) > requestField && json.Unmarshal([]byte(fields[requestField]), &text) == nil && text.Record == adopted && text.Restored != ""
}

// advance returns the head that entries lead to from another one, at most up to a number.
func advance(at Head, entries [][]string, most int64) (Head, error) {
	for _, fields := range entries {
		if at.N == most {
			break
		}
		if len(fields) != len((&entry{}).fields()) || fields[0] != strconv.FormatInt(at.N+1, 10) {
			return at, fmt.Errorf("entry %d is not there: %w", at.N+1, ErrNotContinued)
		}
		at = Head{at.N + 1, linked(at.Chain, fields)}
	}
	return at, nil
}

// ask returns the next entries after one, and the head.
func (s *Signer) ask(ctx context.Context, after int64) (links recorded.Links, err error) {
	url := fmt.Sprintf("%s/record/links?after=%d", strings.TrimSuffix(s.URL, "/"), after)
	request, err := http.NewRequestWithContext(ctx, http.MethodGet, url, nil)
	if err != nil {
		return links, err
	}
	if s.Token != "" {
		request.Header.Set("Authorization", "Bearer "+s.Token)
	}
	reply, err := s.Client.Do(request)
	if err != nil {
		return links, err
	}
	defer reply.Body.Close()
	text, err := io.ReadAll(io.LimitReader(reply.Body, mostAnswered))
	if err != nil {
		return links, err
	}
	if reply.StatusCode != http.StatusOK {
		return links, fmt.Errorf("%s: the front answers %s: %s", url, printed(reply.Status), printed(strings.TrimSpace(string(text[:min(len(text), 200)]))))
	}
	err = json.Unmarshal(text, &struct{ Value *recorded.Links }{&links})
	return links, err
}
