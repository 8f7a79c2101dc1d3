package record

import (
	"context"
	"encoding/json"
	"errors"
	"fmt"
)

// An AccessQuery asks who had access to an object by an operation, or what a user had access to: at a time, or after an entry.
type AccessQuery struct {
	User, Operation, Object string
	// At is a time as entries have it. If it is empty, Entry is the number of an entry.
	At    string
	Entry int64
	// Heads are known from elsewhere.
	Heads  []KnownHead
	Format Format
}

var (
	errAccessUsage = errors.New("give --user, or --operation and --object, or all of them")
	errPlaceUsage  = errors.New("give --at TIME or --entry N")
)

// A place is an entry of a record at which the office is wanted.
type place struct {
	n  int64
	at string
	// first is the entry with which the part begins that has it, and link is its own link.
	first int64
	link  string
	// next is the time of the entry after it, or empty if there is none. isAdopted says that that entry begins anew over an office that
	// was written behind the record, and restored names the backup if it is one that was restored.
	next, restored string
	isAdopted      bool
}

// Access prints who could do an operation on an object as the office was then, or what a user could do. The whole record is verified,
// and what verify refuses is refused. librbac does the commands again up to that place over the copy of the office with which their part
// begins, and answers the questions over what that gives.
func (t *Tool) Access(ctx context.Context, query AccessQuery) error {
	switch {
	case query.User == "" && (query.Operation == "" || query.Object == ""):
		return errAccessUsage
	case (query.At == "") == (query.Entry == 0):
		return errPlaceUsage
	}
	heads, err := newKnownLinks(query.Heads)
	if err != nil {
		return err
	}
	p, err := t.placeOf(ctx, query)
	if err != nil {
		return err
	}
	judged := *t
	judged.Out = t.Err // What verify prints isn't what is asked for.
	var found []way
	notes, isReached := p.notes(), false
	verified := judged.verify(ctx, heads, &stop{p.n, func(again *rerun, e *entry) error {
		if e.ch != p.link {
			return fmt.Errorf("somebody has written entry %d meanwhile", e.n)
		}
		isReached = true
		var refused *RefusedError
		if found, err = again.access(query); errors.As(err, &refused) {
			notes = append(notes, refused.Error())
			return nil
		}
		return err
	}})
	if verified != nil && !errors.Is(verified, ErrMissing) {
		return verified
	}
	if !isReached {
		return fmt.Errorf("entry %d was not reached", p.n)
	}
	if err := t.printAccess(query.Format, notes, found); err != nil {
		return err
	}
	return verified
}

// printAccess prints who had access, and what has to be known about that.
func (t *Tool) printAccess(format Format, notes []string, found []way) error {
	out, err := newPrinter(t.Out, format, "user", "object", "operation", "role", "session")
	for i := 0; err == nil && i < len(notes); i++ {
		var has bool
		if has, err = out.addNote(notes[i]); !has {
			fmt.Fprintln(t.Err, notes[i])
		}
	}
	for i := 0; err == nil && i < len(found); i++ {
		one := found[i]
		err = out.add(cell{text: one.user}, cell{text: one.object}, cell{text: one.operation}, cell{text: one.role}, cell{text: one.session})
	}
	if err != nil {
		return err
	}
	return out.end()
}

// notes say from what an answer was computed, and what it doesn't show.
func (p *place) notes() []string {
	notes := []string{fmt.Sprintf("as of entry %d, %s, with the link %s", p.n, p.at, p.link)}
	if p.n == p.first {
		notes = append(notes, fmt.Sprintf("computed from the copy of the office at entry %d", p.first))
	} else {
		notes = append(notes, fmt.Sprintf("computed from the copy of the office at entry %d and the entries %d to %d", p.first, p.first+1, p.n))
	}
	switch {
	case p.restored != "":
		notes = append(notes, fmt.Sprintf("the next entry, %d, is of %s: the backup %q was restored, and what was done after it was made is in the record "+
			"that was moved away", p.n+1, p.next, p.restored))
	case p.isAdopted:
		notes = append(notes, fmt.Sprintf("before entry %d, %s, somebody wrote the office behind the record: nobody knows since when it was other than this",
			p.n+1, p.next))
	case p.next == "":
		notes = append(notes, "this is the last entry: what came after it isn't in the record")
	default:
		notes = append(notes, fmt.Sprintf("the next entry, %d, is of %s", p.n+1, p.next))
	}
	return notes
}

// A stretch is what a file of a record has about a place: the last entry not after it, and the first one after it, or 0.
type stretch struct{ last, after int64 }

// placeOf finds the last entry that is not after a time. It refuses a time for which there is none, or more than one since the clock
// was set back.
func (t *Tool) placeOf(ctx context.Context, query AccessQuery) (*place, error) {
	condition, value := "at <= ?", any(query.At)
	if query.At == "" {
		condition, value = "n <= ?", query.Entry
	}
	var found stretch
	err := t.eachView(ctx, func(v *view) error {
		var s stretch
		err := v.tx.QueryRowContext(ctx, "SELECT coalesce(max(n) FILTER (WHERE "+condition+"), 0), coalesce(min(n) FILTER (WHERE NOT "+condition+
			"), 0) FROM entry WHERE answer IS NOT NULL", value, value).Scan(&s.last, &s.after)
		if s.last > 0 {
			found.last = s.last
		}
		if found.after == 0 {
			found.after = s.after
		}
		return err
	})
	if err == nil {
		err = found.judge(query)
	}
	if err != nil {
		return nil, err
	}
	p := &place{n: found.last}
	return p, t.eachView(ctx, func(v *view) error { return p.read(ctx, v) })
}

// judge refuses what is no place.
func (s stretch) judge(query AccessQuery) error {
	switch {
	case s.last == 0 && s.after == 0:
		return errors.New("the record has no entry")
	case s.last == 0:
		return fmt.Errorf("what is here of the record begins later, with entry %d: it doesn't show what was before", s.after)
	case query.At == "" && s.last != query.Entry:
		return fmt.Errorf("entry %d is not here", query.Entry)
	case s.after > 0 && s.after < s.last:
		return fmt.Errorf("the clock was set back: of the entries %d to %d some are before that time and some after it; choose one with --entry",
			s.after-1, s.last)
	case s.after > s.last+1:
		return fmt.Errorf("entries %d to %d are not here: nobody knows which of them were before that time", s.last+1, s.after-1)
	}
	return nil
}

// restoredFrom returns the name of the backup that an entry says was restored, or nothing if it says something else.
func restoredFrom(e *entry) string {
	var text beginningText
	if e.caller != Front || json.Unmarshal([]byte(e.request), &text) != nil || text.Record != adopted {
		return ""
	}
	return text.Restored
}

// read reads what a file has about the place.
func (p *place) read(ctx context.Context, v *view) error {
	for _, one := range v.parts {
		if one.first <= p.n {
			p.first = one.first
		}
		p.isAdopted = p.isAdopted || one.first == p.n+1 && one.why == adopted
	}
	return eachEntry(ctx, v.tx, "WHERE n IN (?, ?) AND answer IS NOT NULL", []any{p.n, p.n + 1}, func(e *entry) error {
		if e.n == p.n {
			p.at, p.link = e.at, e.ch
		} else {
			p.next, p.restored = e.at, restoredFrom(e)
		}
		return nil
	})
}
