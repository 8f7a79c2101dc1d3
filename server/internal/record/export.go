package record

import (
	"context"
	"errors"
	"fmt"
	"os"
	"path/filepath"
	"strings"
	"time"

	"rbac-node/internal/disk"
	"rbac-node/internal/pause"
)

// An Export sends entries to a receiver of syslog.
type Export struct {
	// To is unix:PATH, udp:HOST:PORT or tcp:HOST:PORT.
	To string
	// Place is a file that has the head of what was sent.
	Place string
	// IsFollowing says that entries are sent until the context ends, and not only those that are there.
	IsFollowing bool
}

const (
	// exportPause is the time between two looks at a record.
	exportPause = time.Second
	// exportBatch is after how many entries the place is written.
	exportBatch = 100
)

var errExportUsage = errors.New("give --syslog unix:PATH, udp:HOST:PORT or tcp:HOST:PORT, and --place FILE")

// An exporter is an export at work.
type exporter struct {
	*Tool
	Export
	name   string
	sender *syslogSender
	// sent is the last entry that the receiver got, and kept the one in the file.
	sent, kept Head
}

// Export sends each entry that has an answer, in their order, with its link. After an end or a crash it goes on after the entry in the
// file of its place, so the receiver may get some entries twice. It refuses a record in which that entry is another one, or whose
// chain breaks.
func (t *Tool) Export(ctx context.Context, options Export) error {
	if options.Place == "" {
		return errExportUsage
	}
	sender, err := newSyslogSender(options.To)
	if err != nil {
		return err
	}
	x := &exporter{Tool: t, Export: options, name: filepath.Base(t.Office + t.Data + t.Part), sender: sender}
	defer x.sender.close()
	if err := x.readPlace(); err != nil {
		return err
	}
	for {
		err := x.sendNew(ctx)
		if writing := x.writePlace(); err == nil {
			err = writing
		}
		var failed *sendError
		isLost := errors.As(err, &failed)
		if isLost && options.IsFollowing && ctx.Err() == nil {
			fmt.Fprintln(t.Err, "rbac-node:", err)
			x.sender.close()
			x.sent = x.kept
		}
		if ctx.Err() != nil && (err == nil || isLost || errors.Is(err, ctx.Err())) {
			return nil
		}
		if err != nil && !isLost || !options.IsFollowing {
			return err
		}
		_ = pause.For(ctx, exportPause) // It looks once more at the end.
	}
}

func (x *exporter) readPlace() error {
	text, err := os.ReadFile(x.Place)
	if errors.Is(err, os.ErrNotExist) {
		return nil
	}
	if err != nil {
		return err
	}
	if x.sent, err = ParseHead(strings.TrimSpace(string(text))); err != nil {
		return fmt.Errorf("%s: %w", x.Place, err)
	}
	x.kept = x.sent
	return nil
}

func (x *exporter) writePlace() error {
	if x.sent == x.kept {
		return nil
	}
	if err := disk.Write(x.Place, x.sent.String()+"\n"); err != nil {
		return err
	}
	x.kept = x.sent
	return nil
}

func (x *exporter) sendNew(ctx context.Context) error {
	return x.eachView(ctx, func(v *view) error {
		if v.answered.n < x.sent.N {
			return nil
		}
		if err := x.join(ctx, v); err != nil {
			return err
		}
		if _, err := x.sender.connect(ctx); err != nil {
			return err
		}
		last := entry{n: x.sent.N, ch: x.sent.Chain}
		return follow(ctx, v.tx, &last, v.answered.n, func(e *entry) error {
			if err := x.sender.send(ctx, x.name, e); err != nil {
				return err
			}
			if x.sent = e.head(); e.n%exportBatch == 0 {
				return x.writePlace()
			}
			return ctx.Err()
		})
	})
}

// join compares the place with a file, in which it is or after which the file follows.
func (x *exporter) join(ctx context.Context, v *view) error {
	begin := v.begin()
	if x.sent.N == 0 {
		if begin.n > 0 {
			fmt.Fprintln(x.Err, missing(1, v.parts[0]))
		}
		x.sent = begin.head()
	}
	if begin.n > x.sent.N {
		return errors.New(missing(x.sent.N+1, v.parts[0]))
	}
	link, err := v.linkOf(ctx, x.sent.N)
	switch {
	case err != nil || link == x.sent.Chain:
		return err
	case link == "":
		return fmt.Errorf("entry %d, which was sent, is not here", x.sent.N)
	}
	return fmt.Errorf("entry %d has another link than the one that was sent: somebody has written the record", x.sent.N)
}
