package record

import (
	"bufio"
	"context"
	"encoding/json"
	"errors"
	"fmt"
	"io"
	"os"
	"os/exec"
	"path/filepath"
	"regexp"
	"strings"
	"time"
)

const (
	// keygen makes and verifies signatures. Its namespace keeps a signature that was made for something else from being one of a head.
	keygen, namespace = "ssh-keygen", "rbac-record"
	// longestSigned is how many bytes a line of a file of signed heads has at most.
	longestSigned = 64 << 10
)

// A signedHead is a line of a file of heads: a head, when it was signed, and the signature of both. After a restore it also has the
// newest earlier head that the record still had, which is signed too.
type signedHead struct {
	Entry     int64  `json:"entry"`
	Chain     string `json:"chain"`
	At        string `json:"at"`
	After     string `json:"after,omitempty"`
	Signature string `json:"signature"`
}

func (s *signedHead) head() Head { return Head{s.Entry, s.Chain} }

func (s *signedHead) text() string {
	if s.After != "" {
		return fmt.Sprintf("%s %s after %s\n", s.head(), s.At, s.After)
	}
	return fmt.Sprintf("%s %s\n", s.head(), s.At)
}

// known returns the head and what is said of a restore before it.
func (s *signedHead) known() (known KnownHead, err error) {
	if known.Head, err = ParseHead(s.head().String()); err == nil && s.After != "" {
		known.After, err = ParseHead(s.After)
	}
	return known, err
}

// sign signs the head with a key of minisign or of ssh-keygen. The latter may be in an agent if the file has its public half.
func (s *signedHead) sign(ctx context.Context, key string) error {
	text, err := os.ReadFile(key)
	if err != nil {
		return err
	}
	if isOfMinisign(string(text)) {
		s.Signature, err = signByMinisign(ctx, s.text(), key)
	} else {
		s.Signature, err = run(ctx, s.text(), keygen, "-Y", "sign", "-n", namespace, "-f", key)
	}
	return err
}

// run returns what a program prints about a text.
func run(ctx context.Context, text, program string, words ...string) (string, error) {
	command := exec.CommandContext(ctx, program, words...)
	var said strings.Builder
	command.Stdin, command.Stderr = strings.NewReader(text), &said
	out, err := command.Output()
	if err != nil {
		return "", fmt.Errorf("%s: %w: %s", program, err, strings.Join(strings.Fields(said.String()), " "))
	}
	return string(out), nil
}

// signatures verifies signed heads by those who may have signed them.
type signatures struct {
	// signers is a file as ssh-keygen describes it, and keys are public keys of minisign.
	signers string
	keys    []string
	// file has the signature at hand, and signer is who has made the one before it.
	file, signer string
}

// newSignatures reads a file of signers, and uses a folder.
func newSignatures(signers, folder string) (*signatures, error) {
	keys, others, err := splitSigners(signers)
	if err != nil {
		return nil, err
	}
	s := &signatures{signers: filepath.Join(folder, "signers"), keys: keys, file: filepath.Join(folder, "signature")}
	return s, os.WriteFile(s.signers, []byte(others), 0o600)
}

// verify reports whether a head was signed by one of the signers. One of ssh-keygen has to have been allowed to at that time.
func (s *signatures) verify(ctx context.Context, signed *signedHead) error {
	at, err := time.Parse(time.RFC3339, signed.At)
	if err != nil {
		return err
	}
	if err := os.WriteFile(s.file, []byte(signed.Signature), 0o600); err != nil {
		return err
	}
	if isOfMinisign(signed.Signature) {
		return verifyByMinisign(ctx, signed.text(), s.file, filepath.Dir(s.file), s.keys)
	}
	words := []string{"-n", namespace, "-f", s.signers, "-s", s.file, "-O", "verify-time=" + at.UTC().Format("20060102150405") + "Z"}
	by := func() error {
		_, err := run(ctx, signed.text(), keygen, append([]string{"-Y", "verify", "-I", s.signer}, words...)...)
		return err
	}
	if s.signer != "" && by() == nil {
		return nil
	}
	found, err := run(ctx, "", keygen, append([]string{"-Y", "find-principals"}, words...)...)
	if err != nil {
		return err
	}
	s.signer, _, _ = strings.Cut(strings.TrimSpace(found), "\n")
	s.signer, _, _ = strings.Cut(s.signer, ",")
	return by()
}

// ReadSignedHeads reads heads from a file that `rbac-node record sign` has written, and refuses one that no signer has signed.
func ReadSignedHeads(ctx context.Context, file io.Reader, signers string) (heads []KnownHead, err error) {
	folder, err := os.MkdirTemp("", "rbac-heads")
	if err != nil {
		return nil, err
	}
	defer os.RemoveAll(folder)
	checked, err := newSignatures(signers, folder)
	if err != nil {
		return nil, err
	}
	lines := bufio.NewScanner(file)
	lines.Buffer(nil, longestSigned)
	for number := 1; lines.Scan(); number++ {
		signed, known, err := readSigned(lines.Bytes())
		if err == nil {
			err = checked.verify(ctx, signed)
		}
		if err != nil {
			return nil, fmt.Errorf("line %d has no head with a good signature: %w", number, err)
		}
		heads = append(heads, known)
	}
	if len(heads) == 0 && lines.Err() == nil {
		return nil, errNoHead
	}
	return heads, lines.Err()
}

var errNoHead = errors.New("it has no head")

// readSigned reads a line of a file of signed heads.
func readSigned(line []byte) (signed *signedHead, known KnownHead, err error) {
	signed = &signedHead{}
	if err = json.Unmarshal(line, signed); err == nil {
		known, err = signed.known()
	}
	return signed, known, err
}

const (
	// minisign makes and verifies signatures too. Its keys and signatures begin with a comment that anybody may change.
	minisign, minisignComment = "minisign", "untrusted comment:"
)

// minisignKey is a line with a public key of minisign.
var minisignKey = regexp.MustCompile(`^RW[0-9A-Za-z+/]{54}$`)

// isOfMinisign reports whether a text is a key or a signature of minisign.
func isOfMinisign(text string) bool { return strings.HasPrefix(text, minisignComment) }

// signByMinisign returns the signature of a text. The comment that is signed with it keeps a signature that was made for something
// else from being one of a head.
func signByMinisign(ctx context.Context, text, key string) (string, error) {
	folder, err := os.MkdirTemp("", "rbac-head")
	if err != nil {
		return "", err
	}
	defer os.RemoveAll(folder)
	signed, signature := filepath.Join(folder, "head"), filepath.Join(folder, "signature")
	if err := os.WriteFile(signed, []byte(text), 0o600); err != nil {
		return "", err
	}
	if _, err := run(ctx, "", minisign, "-S", "-s", key, "-m", signed, "-x", signature, "-c", "head of a record", "-t", namespace); err != nil {
		return "", fmt.Errorf("%w (a key with a password can't be used here)", err)
	}
	made, err := os.ReadFile(signature)
	return string(made), err
}

var errNoMinisignKey = errors.New("none of the signers has a key of minisign that fits")

// verifyByMinisign reports whether one of some public keys has signed a text.
func verifyByMinisign(ctx context.Context, text, signature, folder string, keys []string) error {
	signed := filepath.Join(folder, "head")
	if err := os.WriteFile(signed, []byte(text), 0o600); err != nil {
		return err
	}
	failed := errNoMinisignKey
	for _, key := range keys {
		comment, err := run(ctx, "", minisign, "-V", "-Q", "-P", key, "-m", signed, "-x", signature)
		if err == nil && strings.TrimSpace(comment) == namespace {
			return nil
		}
		if err == nil {
			err = errors.New("the signature was made for something else")
		}
		failed = err
	}
	return failed
}

// splitSigners returns the public keys of minisign in a file of signers, and the other lines, which ssh-keygen reads.
func splitSigners(path string) (keys []string, others string, err error) {
	file, err := os.Open(path)
	if err != nil {
		return nil, "", err
	}
	defer file.Close()
	lines := bufio.NewScanner(file)
	for lines.Scan() {
		line := strings.TrimSpace(lines.Text())
		switch {
		case minisignKey.MatchString(line):
			keys = append(keys, line)
		case !isOfMinisign(line):
			others += lines.Text() + "\n"
		}
	}
	return keys, others, lines.Err()
}
