package endpoints

import (
	"context"
	"strconv"
	"strings"

	"rbac-node/internal/api"
	"rbac-node/internal/recorded"
)

// record answers the newest entries of the record that are wanted.
func (e *Endpoints) record(r *request) (int, error) {
	record, err := e.recordFor(r)
	if err != nil {
		return 0, err
	}
	query, err := readRecordQuery(r.URL.RawQuery)
	if err != nil {
		return 0, err
	}
	ctx, cancel := context.WithTimeout(r.ctx, readingTimeout)
	defer cancel()
	page, err := record.Recorded(ctx, query)
	if err != nil {
		return 0, err
	}
	return r.replyRecord(page)
}

// recordFor returns the record, if there is one and the caller may read it.
func (e *Endpoints) recordFor(r *request) (recorded.Reader, error) {
	if err := r.may(api.NewOther(api.Record)); err != nil {
		return nil, err
	}
	record := e.office.Record()
	if record == nil {
		return nil, errNotHere
	}
	return record, nil
}

// links answers the next entries after one, as their links are computed, and the head that they lead to.
func (e *Endpoints) links(r *request) (int, error) {
	record, err := e.recordFor(r)
	if err != nil {
		return 0, err
	}
	after, err := strconv.ParseInt(strings.TrimPrefix(r.URL.RawQuery, "after="), 10, 64)
	if err != nil || after < 0 {
		return 0, notRead("after is the number of an entry, or 0")
	}
	ctx, cancel := context.WithTimeout(r.ctx, readingTimeout)
	defer cancel()
	found, err := record.Links(ctx, after)
	if err != nil {
		return 0, err
	}
	return r.replyValue(found)
}

func (r *request) replyRecord(page recorded.Page) (int, error) {
	value := struct {
		Entries []recorded.Entry `json:"entries"`
		First   int64            `json:"first,omitempty"`
		Head    string           `json:"head"`
		Next    int64            `json:"next,omitempty"`
	}{Entries: append([]recorded.Entry{}, page.Entries...), Head: page.Head}
	if page.First > 1 {
		value.First = page.First
	}
	if page.HasMore {
		value.Next = page.Entries[len(page.Entries)-1].N
	}
	return r.replyValue(value)
}

func readRecordQuery(text string) (query recorded.Query, err error) {
	query.Limit = usualRows
	err = readQuery(text, func(key, value string) error { return setFilter(&query, key, value) })
	return query, err
}

func setFilter(query *recorded.Query, key, text string) (err error) {
	texts := map[string]*string{
		"user": &query.User, "role": &query.Role, "object": &query.Object, "operation": &query.Operation, "set": &query.Set,
		"session": &query.Session, "reason": &query.Reason, "caller": &query.Caller, "function": &query.Function,
	}
	times := map[string]*string{"since": &query.Since, "until": &query.Until}
	switch {
	case texts[key] != nil:
		*texts[key] = text
		if _, isKnown := api.KindOf(text); key == "function" && text != "" && !isKnown {
			return notRead("there is no function %s", echoed(text))
		}
	case times[key] != nil:
		if *times[key], err = recorded.ParseTime(text); err != nil {
			return notRead("%s: %s", key, err)
		}
	case key == "refused":
		query.IsRefused = text == "true"
		if text != "true" && text != "false" {
			return notRead("refused is true or false")
		}
	case key == "limit":
		query.Limit, err = readLimit(text)
	case key == "before":
		query.Before, err = strconv.ParseInt(text, 10, 64)
		if err != nil || query.Before < 1 {
			return notRead("before is the number of an entry")
		}
	default:
		return notRead("the record has no filter %s", echoed(key))
	}
	return err
}
