package record

import (
	"bytes"
	"context"
	"errors"
	"os"
	"path/filepath"
	"strings"
	"testing"
	"time"
)

// answered records commands with the answers of the office.
func (b *bench) answered(lines ...string) {
	b.Helper()
	if err := b.Keep(answer(b.ask(lines...), b.do(lines...)), nil); err != nil {
		b.Fatal(err)
	}
}

// tool closes the record, and returns a tool for it and what the tool prints. The record has to be opened again.
func (b *bench) tool() (*Tool, *bytes.Buffer) {
	b.Helper()
	if err := b.Record.close(); err != nil {
		b.Fatal(err)
	}
	out := &bytes.Buffer{}
	return &Tool{Office: b.Office, Program: b.Program, Out: out, Err: out}, out
}

// linkPart gives the file at hand the name of a part, as a cut does before it makes another file.
func (b *bench) linkPart() {
	b.Helper()
	if err := b.Record.close(); err != nil {
		b.Fatal(err)
	}
	if err := os.Link(filepath.Join(b.dir, fileName), partPath(b.dir, 1, b.head.n)); err != nil {
		b.Fatal(err)
	}
}

// TestKilledCut ends a cut after it has linked the file. What comes later is good, and no entry is there twice.
func TestKilledCut(t *testing.T) {
	for _, test := range []struct {
		name string
		then func(b *bench)
	}{
		{"a start, and a cut", func(b *bench) {
			b.reopen(b.Office)
			b.answered(addRole)
		}},
		{"a cut at once", func(b *bench) {}},
	} {
		t.Run(test.name, func(t *testing.T) {
			b, ctx := open(t), context.Background()
			b.answered(addAnn)
			b.linkPart()
			test.then(b)
			tool, out := b.tool()
			if err := tool.Cut(ctx); err != nil {
				t.Fatal(err)
			}
			b.reopen(b.Office)
			b.answered(`{"fn":"addUser","user":"bob"}`)
			tool, out = b.tool()
			if err := tool.Verify(ctx, nil); err != nil || !strings.Contains(out.String(), "the office has the rows") {
				t.Errorf("verify: %v, %s", err, out)
			}
			out.Reset()
			if err := tool.Show(ctx, Filter{User: "ann"}, Text); err != nil || strings.Count(out.String(), "\n") != 1 {
				t.Errorf("show: %v, %s", err, out)
			}
		})
	}
}

// A cut is refused while somebody reads the record, who would take the next file for the one at hand.
func TestCutWaits(t *testing.T) {
	defer func(before time.Duration) { patience = before }(patience)
	patience = 100 * time.Millisecond
	b, ctx := open(t), context.Background()
	b.answered(addAnn)
	tool, _ := b.tool()
	_, release, err := tool.files(ctx)
	if err != nil {
		t.Fatal(err)
	}
	if err := tool.Cut(ctx); !errors.Is(err, errOthersRead) {
		t.Errorf("while somebody reads: %v", err)
	}
	if files, err := filesOf(b.dir); err != nil || len(files) != 1 {
		t.Errorf("then there is %q, %v", files, err)
	}
	release()
	if err := tool.Cut(ctx); err != nil {
		t.Error(err)
	}
}
