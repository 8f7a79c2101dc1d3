package record

import (
	"context"
	"database/sql"
	"errors"
	"fmt"
	"os"
	"strings"
	"unicode"
	"unicode/utf8"

	"rbac/clients/go/rbacoffice"

	"rbac-node/internal/office"
)

const (
	// mostChanged is how many rows an adoption names that somebody has changed.
	mostChanged = 100
	// longestWord is how many bytes who adopts an office, and why, may have.
	longestWord = 256
)

// An adoption says who has adopted an office, and what differs in it from what the record gives.
type adoption struct {
	By string
	// Restored is the name of the backup, if the office is one that was restored.
	Restored string
	// Changed is nil if nobody knows what the record gives.
	Changed *changes
}

// changes are rows that were added and removed: how many, and the first of them, each with its sign and its table.
type changes struct {
	Added   int     `json:"added"`
	Removed int     `json:"removed"`
	Rows    [][]any `json:"rows"`
}

// String says who has adopted an office, and how much was changed.
func (a adoption) String() string {
	if a.By == "" {
		return "nobody says by whom"
	}
	if a.Changed == nil {
		return fmt.Sprintf("by %q", a.By)
	}
	return fmt.Sprintf("by %q, with %d rows added and %d removed", a.By, a.Changed.Added, a.Changed.Removed)
}

var (
	errWord    = fmt.Errorf("adopt needs --by and --reason, each of at most %d bytes without control characters", longestWord)
	errAgrees  = errors.New("there is nothing to adopt: the office is what the record gives")
	errNothing = errors.New("there is nothing to adopt: the office has no command, so a front may begin its record")
)

// isWord reports whether a text may say who adopts an office, or why.
func isWord(text string) bool {
	return text != "" && len(text) <= longestWord && utf8.ValidString(text) && strings.IndexFunc(text, unicode.IsControl) < 0
}

// Adopt begins a new part over the office as it is, and says so in the record with who does that, why, and what was changed. An
// office without a record gets one.
func (t *Tool) Adopt(ctx context.Context, by, reason string) error {
	if !isWord(by) || !isWord(reason) {
		return errWord
	}
	if _, err := os.Stat(t.Office); err != nil {
		return err
	}
	if has, err := hasRecord(DirOf(t.Office)); err == nil && !has {
		return t.adoptFirst(ctx, adoption{By: by}, reason)
	}
	r, lock, err := t.openLocked(ctx)
	if err != nil {
		return err
	}
	defer lock.Close()
	defer r.close()
	var wrong *AnswerError
	switch err := r.Before(ctx); {
	case err == nil:
		return errAgrees
	case !errors.Is(err, errDiffers) && !errors.Is(err, errNoStart) && !errors.As(err, &wrong):
		return err
	}
	if err := r.beginAnew(ctx, adoption{By: by}, reason); err != nil {
		return fmt.Errorf("record: %w", err)
	}
	fmt.Fprintf(t.Out, "the record begins anew over the office as it is, at entry %d\n", r.head.n)
	return nil
}

// beginAnew begins a part over the office as it is, and says in the record who does that, why, and what was changed.
func (r *Record) beginAnew(ctx context.Context, by adoption, reason string) error {
	return r.withCopy(ctx, r.Office, func(copied, rows string) error {
		changed, err := r.changed(ctx, copied)
		if err != nil {
			return err
		}
		p := part{why: adopted, rows: rows, adoption: adoption{by.By, by.Restored, changed}, reason: reason}
		if err := inTransaction(r.db, func(tx *sql.Tx) error { return r.adopt(ctx, tx, p, copied) }); err != nil {
			return err
		}
		return addBase(r.dir, copied, base{r.head.n, rows})
	})
}

// adoptFirst begins the record of an office that has commands and no record.
func (t *Tool) adoptFirst(ctx context.Context, by adoption, reason string) error {
	lock, err := t.lock(ctx)
	if err != nil {
		return err
	}
	defer lock.Close()
	r := newRecord(t.options())
	defer r.close()
	p := part{first: 1, why: adopted, adoption: by, reason: reason}
	err = r.beginWith(ctx, p, now(), func(hasCommands bool) error {
		if hasCommands {
			return nil
		}
		return errNothing
	})
	if err != nil {
		return fmt.Errorf("record: %w", err)
	}
	fmt.Fprintln(t.Out, "the record begins over the office as it is, at entry 1")
	return nil
}

// adopt says of each entry without an answer that nobody knows it, and begins a part.
func (r *Record) adopt(ctx context.Context, tx *sql.Tx, p part, copied string) error {
	open, err := openEntries(ctx, tx, r.head.n)
	if err != nil {
		return err
	}
	for _, e := range open {
		e.answer = unknown
		e.ch = chained(r.head.ch, &e)
		if _, err := tx.Exec("UPDATE entry SET answer = ?, chain = ? WHERE n = ?", e.answer, e.ch, e.n); err != nil {
			return err
		}
		r.head = e
	}
	p.first, p.before = r.head.n+1, r.head.ch
	begins, err := addPart(tx, p, now(), copied)
	if err == nil {
		r.head = *begins
	}
	return err
}

// changed compares a mapped copy of the office with what the entries that have an answer give, if librbac gives these answers.
func (r *Record) changed(ctx context.Context, copied string) (*changes, error) {
	scratch, end, err := newScratch(r.Office, r.dir)
	if err != nil {
		return nil, err
	}
	defer end()
	n, again, err := r.rerunFrom(ctx, scratch, r.head.n)
	if errors.Is(err, errNoStart) {
		return nil, nil
	}
	if err != nil {
		return nil, err
	}
	defer again.close()
	var wrong *AnswerError
	if err := again.each(ctx, entriesAfter(ctx, r.db, n, r.head.n)); errors.As(err, &wrong) {
		return nil, nil
	} else if err != nil {
		return nil, err
	}
	before, err := again.rows()
	if err != nil {
		return nil, err
	}
	after, err := readRows(ctx, copied, office.OfCopy, true)
	if err != nil {
		return nil, err
	}
	found := &changes{Rows: [][]any{}}
	found.compare(before.rows, after.rows)
	return found, nil
}

// compare adds the rows that one office has and another one hasn't, and the other way round. Both are in their order.
func (c *changes) compare(before, after []rbacoffice.Row) {
	for len(before)+len(after) > 0 {
		switch {
		case len(before) > 0 && len(after) > 0 && before[0] == after[0]:
			before, after = before[1:], after[1:]
		case len(after) == 0 || len(before) > 0 && office.IsRowBefore(&before[0], &after[0]):
			c.Removed++
			c.add("-", &before[0])
			before = before[1:]
		default:
			c.Added++
			c.add("+", &after[0])
			after = after[1:]
		}
	}
}

// add adds a row as the file of an office has it, if there are few.
func (c *changes) add(sign string, row *rbacoffice.Row) {
	if len(c.Rows) < mostChanged {
		table, values := office.RowInFile(row)
		c.Rows = append(c.Rows, append([]any{sign, table}, values...))
	}
}
