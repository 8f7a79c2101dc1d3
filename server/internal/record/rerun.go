package record

import (
	"context"
	"fmt"

	"rbac/clients/go/rbacoffice"

	"rbac-node/internal/api"
	"rbac-node/internal/faults"
	"rbac-node/internal/office"
)

// A stop is an entry after which something is done with the rerun that has led there.
type stop struct {
	n  int64
	do func(again *rerun, e *entry) error
}

// A rerun does recorded commands again by librbac, over an office in memory in which sessions have the digests of their names.
type rerun struct {
	office  *rbacoffice.Office
	version int64
	// stop may be nil.
	stop *stop
}

// startRerun starts a rerun over an office that has these rows.
func startRerun(o *officeRows) (*rerun, error) {
	loaded, err := rbacoffice.Load(o.rows, 0)
	if err != nil {
		return nil, fmt.Errorf("librbac and the rows of the office: %w", err)
	}
	return &rerun{office: loaded, version: o.version}, nil
}

func (r *rerun) close() { r.office.Close() }

func (r *rerun) rows() (*officeRows, error) {
	rows, err := r.office.Rows()
	return &officeRows{r.version, rows}, err
}

func (r *rerun) hasRow(table rbacoffice.Table, index int) (bool, error) {
	found, err := r.office.RowsFrom(nil, table, index, 1)
	return len(found) > 0, err
}

// atOnce is how many rows librbac is asked for at once.
const atOnce = 1000

// eachRow calls a function with the rows of a table.
func (r *rerun) eachRow(table rbacoffice.Table, do func(row *rbacoffice.Row)) error {
	var rows []rbacoffice.Row
	for from := 0; ; from += len(rows) {
		var err error
		if rows, err = r.office.RowsFrom(rows[:0], table, from, atOnce); err != nil || len(rows) == 0 {
			return err
		}
		for i := range rows {
			do(&rows[i])
		}
	}
}

func (r *rerun) sums() (office.Sums, error) {
	sums := office.NewSummer(r.version)
	for table := 0; table < office.Tables; table++ {
		if err := r.eachRow(rbacoffice.Table(table), sums.Add); err != nil {
			return office.Sums{}, err
		}
	}
	return sums.Sums(), nil
}

// has reports whether the office has the rows that the sums describe. How many each table has is compared before the digests.
func (r *rerun) has(want *office.Sums) (bool, error) {
	for table, count := range want.Counts {
		for _, index := range []int{count - 1, count} {
			if index < 0 {
				continue
			}
			if has, err := r.hasRow(rbacoffice.Table(table), index); err != nil || has != (index < count) {
				return false, err
			}
		}
	}
	given, err := r.sums()
	return given == *want, err
}

// An AnswerError reports an entry whose answer isn't that of librbac.
type AnswerError struct {
	N                int64
	Recorded, Answer string
}

func (e *AnswerError) Error() string {
	return fmt.Sprintf("entry %d has the answer %s, and librbac gives %s", e.N, e.Recorded, e.Answer)
}

// each does the commands of entries, and compares their answers.
func (r *rerun) each(ctx context.Context, all entries) error {
	return all(func(e *entry) error {
		if e.isDone() {
			answer, err := r.answer(e.request)
			if err != nil {
				return fmt.Errorf("entry %d: %w", e.n, err)
			}
			if answer != e.answer {
				return &AnswerError{e.n, e.answer, answer}
			}
		}
		if r.stop != nil && e.n == r.stop.n {
			if err := r.stop.do(r, e); err != nil {
				return err
			}
		}
		return ctx.Err()
	})
}

// fit does entries without an answer, one after another, and returns how many of them give these rows: the most that do, so that
// nothing is left out that anybody got an answer to. It returns -1 if the rows never come. The entries get their answers.
func (r *rerun) fit(ctx context.Context, open []entry, want *office.Sums) (int, error) {
	most := -1
	same, err := r.has(want)
	for i := 0; err == nil; i++ {
		if same && (most < 0 || !faults.Has(faults.ShortestBeginning)) {
			most = i
		}
		if i == len(open) {
			return most, nil
		}
		if open[i].isReview() {
			open[i].answer = accepted // It leaves the rows as they are.
			continue
		}
		if open[i].answer, err = r.answer(open[i].request); err == nil && api.IsAccepted([]byte(open[i].answer)) {
			same, err = r.has(want)
		}
		if err == nil {
			err = ctx.Err()
		}
	}
	return -1, err
}

func (r *rerun) answer(request string) (string, error) {
	if r.version == 1 {
		return r.answerInVersion1(request)
	}
	answer, err := r.office.Answer([]byte(request))
	return string(answer), err
}
