package state

import (
	"context"
	"fmt"
	"path/filepath"
	"strings"
	"testing"
	"time"

	"rbac-node/internal/api"
	"rbac-node/internal/office"
	"rbac-node/internal/programtest"
)

// The program makes an office with the same rows of the lines of an office, with every kind of row, and it has the same digest.
func TestOfficeLines(t *testing.T) {
	lines := make([]string, 2500) // They are read in parts.
	for i := range lines {
		lines[i] = fmt.Sprintf(`{"fn":"addUser","user":"user %d"}`, i)
	}
	s := begun(t, append(lines, `{"fn":"addUser","user":"ann"}`, `{"fn":"addUser","user":"zoë 日本 \"'\\"}`, `{"fn":"addRole","role":"clerk"}`,
		`{"fn":"addRole","role":"teller"}`, `{"fn":"addAscendant","asc":"head","desc":"clerk"}`,
		`{"fn":"addAscendant","asc":"chief","desc":"head"}`, `{"fn":"addPermObj","object":"safe"}`,
		`{"fn":"addPermission","object":"safe","operation":"open"}`, `{"fn":"grantPermission","object":"safe","operation":"open","role":"clerk"}`,
		`{"fn":"assignUser","user":"ann","role":"head"}`, `{"fn":"assignUser","user":"ann","role":"teller"}`,
		`{"fn":"createSsdSet","set":"s","roles":["chief","teller"],"cardinality":2}`,
		`{"fn":"createDsdSet","set":"d","roles":["clerk","teller","chief"],"cardinality":3}`,
		`{"fn":"lockUserAccount","user":"zoë 日本 \"'\\"}`, `{"fn":"createSession","user":"ann","roles":["clerk","teller"],"session":"secret"}`)...)
	frozen, err := s.Freeze()
	if err != nil {
		t.Fatal(err)
	}
	made, err := frozen.OfficeLines()
	if err != nil {
		t.Fatal(err)
	}
	file := filepath.Join(t.TempDir(), "office")
	if err := office.Make(context.Background(), programtest.Path(t), file, made, time.Minute); err != nil {
		t.Fatal(err)
	}
	own, err := s.Digest()
	if err != nil {
		t.Fatal(err)
	}
	if made, err := office.Digest(context.Background(), file); err != nil || made != own {
		t.Errorf("%v, the file has the digest %s and not %s", err, made, own)
	}
	again := New(Numbers{})
	if err := again.Load(context.Background(), file); err != nil {
		t.Fatal(err)
	}
	if given, err := again.Digest(); err != nil || given != own {
		t.Errorf("%v, what is read has the digest %s and not %s", err, given, own)
	}
}

// A line that can't be made fails all lines: an office without it would be another one.
func TestLinesFail(t *testing.T) {
	f := &Frozen{Users: []Row{{"ann"}, {strings.Repeat("a", api.MaxLineBytes)}, {"bob"}}, Graph: &Graph{}}
	for name, lines := range map[string]func() ([]byte, error){"Lines": f.Lines, "OfficeLines": f.OfficeLines} {
		if made, err := lines(); err == nil {
			t.Errorf("%s: %d bytes", name, len(made))
		}
	}
}
