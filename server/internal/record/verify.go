package record

import (
	"context"
	"encoding/json"
	"errors"
	"fmt"
	"os"
	"path/filepath"
	"strings"

	"rbac-node/internal/office"
)

// A verifier reads a record from its beginning, and does its commands again.
type verifier struct {
	*Tool
	scratch string
	// want has the rows of the office, or is nil if a front has it. On a node it has those of the newest snapshot, which is at a place
	// of the record.
	want *office.Sums
	at   Head
	// heads are known from elsewhere.
	heads *knownLinks
	// bases are the base copies that were there before the file at hand was opened, the newest first.
	bases []base
	// newest is the last entry of the file that was read, which may have no answer.
	newest int64
	// isMissing says that entries aren't here.
	isMissing bool
	// last is the last entry that was read, and rows is the digest of those after it, if a rerun has led there.
	last entry
	rows string
	// keepsRows says that the rows at the end of the part at hand are wanted, since the next one adopts an office. They are in before then,
	// and changed is what differs from them in that office.
	keepsRows bool
	before    *officeRows
	changed   *changes
	// stop may be nil.
	stop *stop
}

// Verify reports whether the chain holds, whether librbac gives the same answers, and whether the office has the rows that the
// record gives. While a front has the office its rows are not compared. Heads that are known from elsewhere show whether the end
// was cut off, or whether the chain was computed anew. It returns ErrMissing if that is all that is wrong.
func (t *Tool) Verify(ctx context.Context, known []KnownHead) error {
	heads, err := newKnownLinks(known)
	if err != nil {
		return err
	}
	return t.verify(ctx, heads, nil)
}

// verify is Verify, which may do something after an entry.
func (t *Tool) verify(ctx context.Context, heads *knownLinks, at *stop) error {
	if t.Data == "" && t.Part == "" {
		if err := CheckOffice(t.Office); err != nil {
			return err
		}
	}
	files, release, err := t.files(ctx)
	if err != nil {
		return err
	}
	defer release()
	scratch, end, err := newScratch(t.Office+t.Data+t.Part, t.dir())
	if err != nil {
		return err
	}
	defer end()
	heads.isPart = t.Part != ""
	v := &verifier{Tool: t, scratch: scratch, heads: heads, stop: at}
	if err := v.files(ctx, files); err != nil {
		return err
	}
	if err := syncLog(files[len(files)-1]); err != nil {
		return err
	}
	v.isMissing = heads.report(t.Out, v.last.n) || v.isMissing
	fmt.Fprintf(t.Out, "head %s\n", v.last.head())
	if v.isMissing {
		return ErrMissing
	}
	return nil
}

// ErrMissing is returned for a record of which all that is here is good.
var ErrMissing = errors.New("what is here is good, but entries are missing")

func (v *verifier) files(ctx context.Context, files []string) error {
	if v.Part != "" {
		if err := v.file(ctx, v.Part); err != nil {
			return fmt.Errorf("%s: %w", v.Part, err)
		}
		return v.end()
	}
	current, err := v.look(ctx, files[len(files)-1])
	if err != nil {
		return err
	}
	defer current.Close()
	for _, path := range files[:len(files)-1] {
		if err := v.file(ctx, path); err != nil {
			return fmt.Errorf("%s: %w", path, err)
		}
	}
	if err := v.read(ctx, current, true); err != nil {
		return fmt.Errorf("%s: %w", files[len(files)-1], err)
	}
	if v.Data != "" && v.want != nil {
		return fmt.Errorf("the newest snapshot is at entry %d, which is not here", v.at.N)
	}
	return v.end()
}

// end refuses a record that ends before a known head, or before a base copy.
func (v *verifier) end() error {
	if err := v.heads.end(v.last.n); err != nil {
		return err
	}
	if len(v.bases) > 0 && v.bases[0].n > v.newest {
		return fmt.Errorf("the base copy %s is of an entry that is not here", v.bases[0].name())
	}
	return nil
}

// look opens the file at hand and describes the office, both as of one moment if no front has the office. On a node it describes the
// newest snapshot, and the file has all entries up to that.
func (v *verifier) look(ctx context.Context, path string) (*view, error) {
	file := v.Office
	if v.Data != "" {
		snapshot, head, err := v.newestRecorded()
		if errors.Is(err, errNoSnapshots) {
			fmt.Fprintln(v.Out, "there is no snapshot since the record began: no rows are compared")
			return openView(ctx, path)
		}
		if err != nil {
			return nil, err
		}
		file, v.at = snapshot, head
	} else {
		var err error
		if v.bases, err = basesIn(v.dir()); err != nil {
			return nil, err
		}
		lock, err := v.lockIfFree(ctx)
		if err != nil {
			return nil, err
		}
		if lock == nil {
			return openView(ctx, path)
		}
		defer lock.Close()
	}
	want, err := sumsOf(ctx, v.Program, file, filepath.Join(v.scratch, "office"))
	if err != nil {
		return nil, err
	}
	v.want = &want
	return openView(ctx, path)
}

// compareNode does the entries of a part up to the newest snapshot of a node, if it has them, and compares the rows.
func (v *verifier) compareNode(ctx context.Context, opened *view, p part, end int64, again *rerun) error {
	if v.Data == "" || v.want == nil || v.at.N < v.last.n || v.at.N > end {
		return nil
	}
	if err := again.each(ctx, v.checked(ctx, opened, p, v.at.N)); err != nil {
		return err
	}
	same, err := again.has(v.want)
	if err == nil && (!same || v.last.ch != v.at.Chain) {
		err = fmt.Errorf("the newest snapshot is not what the record gives at entry %d: somebody has written one of them", v.at.N)
	}
	if err != nil {
		return err
	}
	fmt.Fprintf(v.Out, "the newest snapshot has the rows that the record gives at entry %d\n", v.at.N)
	v.want = nil
	return nil
}

func (v *verifier) file(ctx context.Context, path string) error {
	return withView(ctx, path, func(opened *view) error {
		if err := v.read(ctx, opened, false); err != nil {
			return err
		}
		first, last, is := namesOf(path)
		switch {
		case !is: // It has another name.
		case v.last.n != last:
			return fmt.Errorf("it ends at entry %d, and its name says %d", v.last.n, last)
		case opened.parts[0].first != first:
			return fmt.Errorf("it begins with entry %d, and its name says %d", opened.parts[0].first, first)
		}
		return nil
	})
}

// read reads a file. The last one may have entries without an answer.
func (v *verifier) read(ctx context.Context, opened *view, isLast bool) error {
	if err := judgeFile(ctx, opened); err != nil {
		return err
	}
	if err := v.judgeParts(ctx, opened); err != nil {
		return err
	}
	if !isLast && opened.last.n != opened.answered.n {
		return fmt.Errorf("entry %d has no answer", opened.last.n)
	}
	v.newest = opened.last.n
	for i, p := range opened.parts {
		end, isEnd := opened.answered.n, i == len(opened.parts)-1
		if !isEnd {
			end = opened.parts[i+1].first - 1
		}
		v.keepsRows = !isEnd && opened.parts[i+1].why == adopted
		if err := v.part(ctx, opened, p, end, isLast && isEnd); err != nil {
			return err
		}
	}
	return nil
}

func (v *verifier) part(ctx context.Context, opened *view, p part, end int64, isLast bool) error {
	if err := v.join(p); err != nil {
		return err
	}
	again, err := p.rerun(ctx, v.Program, opened.tx, v.scratch)
	if errors.Is(err, errNoStart) {
		return fmt.Errorf("the copy of the office at entry %d is not what the entry says", p.first)
	}
	if err != nil {
		return err
	}
	defer again.close()
	again.stop = v.stop
	if err := v.change(again); err != nil {
		return err
	}
	if err := v.compareNode(ctx, opened, p, end, again); err != nil {
		return err
	}
	if err := v.compareBases(ctx, opened, p, end, again); err != nil {
		return err
	}
	if err := again.each(ctx, v.checked(ctx, opened, p, end)); err != nil {
		return err
	}
	if v.last.answer == unknown && isLast {
		return fmt.Errorf("nobody knows the answer to entry %d, and no part begins anew after it", v.last.n)
	}
	if v.last.n != end {
		return fmt.Errorf("entries %d to %d are missing", v.last.n+1, end)
	}
	if end >= p.first {
		fmt.Fprintf(v.Out, "entries %d to %d: the chain holds, and librbac gives the same answers\n", p.first, end)
	}
	if isLast && v.want != nil && v.Data == "" {
		return v.compare(ctx, opened, again)
	}
	if v.keepsRows {
		if v.before, err = again.rows(); err != nil {
			return err
		}
	}
	s, err := again.sums()
	v.rows = s.Digest
	if isLast && v.Data == "" {
		fmt.Fprintln(v.Out, "a front has the office: its rows are not compared")
	}
	return err
}

// change compares the rows with which a part begins with those before it, if these were kept.
func (v *verifier) change(again *rerun) error {
	before := v.before
	v.before, v.changed = nil, nil
	if before == nil {
		return nil
	}
	after, err := again.rows()
	if err == nil {
		v.changed = &changes{Rows: [][]any{}}
		v.changed.compare(before.rows, after.rows)
	}
	return err
}

// missing says that entries before a part aren't here.
func missing(from int64, p part) string {
	why := "their part was moved away"
	if p.why == joined {
		why = "this part begins with a snapshot"
	}
	return fmt.Sprintf("entries %d to %d are not here: %s", from, p.first-1, why)
}

// join reports how a part follows what was read before.
func (v *verifier) join(p part) error {
	switch next := v.last.n + 1; {
	case p.first < next:
		return fmt.Errorf("the part that begins with entry %d comes after entry %d", p.first, v.last.n)
	case p.first > next && v.Part != "" && v.last.n == 0:
		fmt.Fprintf(v.Out, "entry %d follows the head %s\n", p.first, Head{p.first - 1, p.before})
		v.last = entry{n: p.first - 1, ch: p.before}
		return v.heads.compare(v.last.n, v.last.ch)
	case p.first > next:
		fmt.Fprintln(v.Out, missing(next, p))
		v.last, v.isMissing = entry{n: p.first - 1, ch: p.before}, true
		return v.heads.compare(v.last.n, v.last.ch)
	case p.before != v.last.ch:
		return fmt.Errorf("the part that begins with entry %d does not follow entry %d", p.first, v.last.n)
	case (p.why == continued || p.why == joined) && p.rows != v.rows:
		return fmt.Errorf("the part that begins with entry %d has other rows than entry %d leaves", p.first, v.last.n)
	}
	return nil
}

// judgeAdopted refuses a part that says other changes of the office than there were.
func (v *verifier) judgeAdopted(p *part) error {
	if p.adoption.Restored != "" {
		v.heads.restored = p.first
	}
	if v.changed == nil {
		return nil
	}
	says, err := json.Marshal(p.adoption.Changed)
	if err != nil {
		return err
	}
	has, err := json.Marshal(v.changed)
	if err != nil {
		return err
	}
	if p.adoption.Changed != nil && string(says) != string(has) {
		return fmt.Errorf("entry %d says of the office that was adopted: %s, and it has %s", p.first, printed(string(says)), printed(string(has)))
	}
	p.adoption.Changed = v.changed
	return nil
}

// sayAdopted says how a part begins over an office that was adopted.
func (v *verifier) sayAdopted(p *part) {
	what := "anew over an office that somebody has written behind the record"
	switch restored := p.adoption.Restored; {
	case restored != "":
		what = fmt.Sprintf("anew over the backup %q, which was restored", restored)
	case v.Data != "":
		what = "anew over the office of a backup"
	case p.first == 1:
		what = "over an office that had commands and no record"
	}
	fmt.Fprintf(v.Out, "entry %d begins %s: adopted %s, for %q\n", p.first, what, p.adoption, p.reason)
}

// checked are the entries of a part after the last one that was read, up to a number, whose links are checked.
func (v *verifier) checked(ctx context.Context, opened *view, p part, to int64) entries {
	return func(do func(e *entry) error) error {
		return entriesAfter(ctx, opened.tx, v.last.n, to)(func(e *entry) error {
			if err := v.check(e, &p); err != nil {
				return err
			}
			v.last = *e
			return do(e)
		})
	}
}

// check refuses an entry that can't be the next one of a part.
func (v *verifier) check(e *entry, p *part) error {
	isFirst := p.why != joined && e.n == p.first
	switch {
	case e.n != v.last.n+1:
		return fmt.Errorf("entry %d is missing", v.last.n+1)
	case e.ch == "":
		return fmt.Errorf("entry %d has no answer", e.n)
	case chained(v.last.ch, e) != e.ch:
		return fmt.Errorf("the chain breaks at entry %d: it or the one before it was changed", e.n)
	case v.last.answer == unknown && e.answer != unknown && !(isFirst && p.why == adopted):
		return fmt.Errorf("nobody knows the answer to entry %d, and no part begins anew after it", v.last.n)
	case isFirst && !p.begins(e) || !isFirst && !e.isCommand() && !e.isReview() && !e.isBounded():
		return fmt.Errorf("entry %d is not what its part says", e.n)
	}
	if isFirst && p.why == adopted {
		if err := v.judgeAdopted(p); err != nil {
			return err
		}
		v.sayAdopted(p)
	}
	return v.heads.compare(e.n, e.ch)
}

// compare compares the rows of the office with those that the record gives. The last entries may have no answer yet.
func (v *verifier) compare(ctx context.Context, opened *view, again *rerun) error {
	open, err := openEntries(ctx, opened.tx, v.last.n)
	if err != nil {
		return err
	}
	done, err := again.fit(ctx, open, v.want)
	if err != nil {
		return err
	}
	if done < 0 {
		return errDiffers
	}
	if len(open) > 0 {
		fmt.Fprintf(v.Out, "%d entries have no answer yet; the next start of the front finds out which were done\n", len(open))
	}
	fmt.Fprintln(v.Out, "the office has the rows that the record gives")
	return nil
}

// objectsOf returns the tables, indexes, views and triggers of a file, each with the statement that makes it.
func objectsOf(ctx context.Context, db querier) (objects []string, err error) {
	const query = "SELECT type || ' ' || name || ' of ' || tbl_name || ': ' || coalesce(sql, '') FROM sqlite_master ORDER BY 1"
	err = eachRow(ctx, db, query, nil, func(row scanner) error {
		objects = append(objects, "")
		return row.Scan(&objects[len(objects)-1])
	})
	return objects, err
}

// judgeFile refuses a file that has something else than the tables and the view of a record, or that SQLite finds damaged. In
// such a file show and SQL may find other entries than verify reads.
func judgeFile(ctx context.Context, opened *view) error {
	empty, err := openFile(":memory:", "")
	if err != nil {
		return err
	}
	defer empty.Close()
	if _, err := empty.ExecContext(ctx, schema); err != nil {
		return err
	}
	want, err := objectsOf(ctx, empty)
	if err != nil {
		return err
	}
	has, err := objectsOf(ctx, opened.tx)
	if err != nil {
		return err
	}
	if strings.Join(has, "\n") != strings.Join(want, "\n") {
		return errors.New("its tables, indexes and views are not those of a record: somebody has written it")
	}
	var said string
	if err := opened.tx.QueryRowContext(ctx, "PRAGMA integrity_check(1)").Scan(&said); err != nil {
		return err
	}
	if said != "ok" {
		return fmt.Errorf("SQLite finds that it is damaged: %s", strings.ReplaceAll(said, "\n", " "))
	}
	return nil
}

// judgeParts refuses parts of a file that no program has begun, and entries before the first one.
func (v *verifier) judgeParts(ctx context.Context, opened *view) error {
	for i, p := range opened.parts {
		canBe := false
		switch p.why {
		case beginning:
			canBe = i == 0 && p.first == 1 && p.before == ""
		case continued:
			canBe = i == 0 && p.first > 1 && v.Data == ""
		case joined:
			canBe = i == 0 && p.first > 1 && (v.Data != "" || v.Part != "")
		case adopted:
			canBe = i > 0 || p.first == 1 && p.before == "" && v.Data == ""
		}
		if !canBe {
			return fmt.Errorf("the part that begins with entry %d can't say %q: somebody has written it", p.first, p.why)
		}
	}
	first := opened.parts[0].first
	var n int64
	err := opened.tx.QueryRowContext(ctx, "SELECT coalesce(min(n), ?) FROM entry", first).Scan(&n)
	if err == nil && n < first {
		err = fmt.Errorf("it has entry %d, and begins with entry %d", n, first)
	}
	return err
}

// compareBases does the entries of a part up to each base copy of the office, and compares the rows. A start trusts these copies.
func (v *verifier) compareBases(ctx context.Context, opened *view, p part, end int64, again *rerun) error {
	for i := len(v.bases) - 1; i >= 0; i-- {
		b := v.bases[i]
		if b.n < p.first || b.n > end {
			continue
		}
		if err := again.each(ctx, v.checked(ctx, opened, p, b.n)); err != nil {
			return err
		}
		given, err := again.sums()
		if err != nil {
			return err
		}
		path := filepath.Join(v.dir(), b.name())
		o, err := readRows(ctx, path, office.OfUnchanged, true)
		if _, gone := os.Stat(path); errors.Is(gone, os.ErrNotExist) {
			continue // A newer one has taken its place meanwhile.
		}
		if err != nil || o.sums() != given || b.rows != given.Digest {
			return &baseError{b}
		}
	}
	return nil
}
