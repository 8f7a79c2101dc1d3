package record

import (
	"context"
	"encoding/json"
	"errors"

	"rbac-node/internal/recorded"
)

// shared returns the head, which is durable, and the paths of the files, which stay as they are until release is called.
func (r *Record) shared(ctx context.Context) (head Head, files []string, release func(), err error) {
	if release, err = share(ctx, r.dir); err != nil {
		return head, nil, nil, err
	}
	if files, err = filesOf(r.dir); err == nil {
		head, err = r.DurableHead()
	}
	if err != nil {
		release()
	}
	return head, files, release, err
}

// Recorded returns the newest entries that a query chooses, also from earlier parts.
func (r *Record) Recorded(ctx context.Context, query recorded.Query) (page recorded.Page, err error) {
	head, files, release, err := r.shared(ctx)
	if err != nil {
		return page, err
	}
	defer release()
	page.Head = head.String()
	begin, err := beginOf(ctx, files[0])
	page.First = begin.n + 1
	for i := len(files) - 1; err == nil && i >= 0 && len(page.Entries) <= query.Limit; i-- {
		err = withView(ctx, files[i], func(v *view) error { return addNewest(ctx, &page, v, query) })
	}
	if len(page.Entries) > query.Limit {
		page.Entries, page.HasMore = page.Entries[:query.Limit], true
	}
	return page, err
}

// addNewest adds the entries of a file, up to one more than are wanted.
func addNewest(ctx context.Context, page *recorded.Page, v *view, query recorded.Query) error {
	filter := Filter(query.Filter)
	where, values := filter.where()
	if query.Before > 0 {
		where, values = where+" AND n < ?", append(values, query.Before)
	}
	values = append(values, query.Limit+1-len(page.Entries))
	return eachEntry(ctx, v.tx, "WHERE "+where+" ORDER BY n DESC LIMIT ?", values, func(e *entry) error {
		page.Entries = append(page.Entries, recorded.Entry{
			Answer: json.RawMessage(e.answer), At: e.at, Caller: e.caller, IsFound: e.found, N: e.n, Reason: e.reason, Request: json.RawMessage(e.request),
		})
		return nil
	})
}

const (
	// mostLinked is how many entries Links returns at once, and mostLinkedBytes from how many bytes on there are no more.
	mostLinked, mostLinkedBytes = 1000, 1 << 20
)

// fileOf returns the index of the file that has an entry or begins after it, or of the first one if that begins later.
func fileOf(ctx context.Context, files []string, n int64) (int, error) {
	for i := len(files) - 1; ; i-- {
		begin, err := beginOf(ctx, files[i])
		if err != nil || begin.n <= n || i == 0 {
			return i, err
		}
	}
}

// Links returns the next entries after one, up to the head.
func (r *Record) Links(ctx context.Context, after int64) (links recorded.Links, err error) {
	head, files, release, err := r.shared(ctx)
	if err != nil {
		return links, err
	}
	defer release()
	links.Entries, links.Head = [][]string{}, head.String()
	bytes, isEnough := 0, false
	i, err := fileOf(ctx, files, after)
	for ; err == nil && !isEnough && i < len(files); i++ {
		err = withView(ctx, files[i], func(v *view) error {
			if len(links.Entries) == 0 {
				links.First = v.parts[0].first
			}
			err := entriesAfter(ctx, v.tx, after, head.N)(func(e *entry) error {
				if len(links.Entries) == mostLinked || bytes >= mostLinkedBytes {
					return errEnough
				}
				links.Entries = append(links.Entries, e.fields())
				bytes += e.size()
				return nil
			})
			if isEnough = errors.Is(err, errEnough); isEnough {
				return nil
			}
			return err
		})
	}
	return links, err
}

// errEnough ends the reading of entries of which only the first are wanted.
var errEnough = errors.New("there are enough entries")
