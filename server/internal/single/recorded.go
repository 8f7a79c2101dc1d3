package single

import (
	"context"
	"net/http"

	"rbac-node/internal/api"
	"rbac-node/internal/feed"
	"rbac-node/internal/record"
	"rbac-node/internal/recorded"
)

// A recorder is a *record.Record, or none.
type recorder interface {
	feed.Keeper
	recorded.Reader
	Admit(u *feed.Unit) error
	Before(ctx context.Context) error
	Why() string
	Close(isInOrder bool) error
}

// checkRecord refuses what the record can't be that of, before the office is made.
func (o *Office) checkRecord() error {
	if o.Recording == nil {
		return nil
	}
	if err := record.CheckOffice(o.File); err != nil {
		return err
	}
	return record.FreeReserve(o.File)
}

func (o *Office) openRecord(ctx context.Context) error {
	if o.Recording == nil {
		return nil
	}
	options := *o.Recording
	options.Office, options.Program, options.Log, options.Metrics, options.Say = o.File, o.Program, o.Log, o.Metrics, o.Say
	opened, err := record.Open(ctx, options)
	if err == nil {
		o.record = opened
	}
	return err
}

// A noRecord is in place of the record of an office that keeps none. Nobody reads it.
type noRecord struct{ recorded.Reader }

func (noRecord) Admit(*feed.Unit) error                { return nil }
func (noRecord) Keep([]*feed.Unit, []*feed.Unit) error { return nil }
func (noRecord) IsDue() bool                           { return false }
func (noRecord) Rest()                                 {}
func (noRecord) Before(context.Context) error          { return nil }
func (noRecord) Why() string                           { return "" }
func (noRecord) Close(bool) error                      { return nil }

// Record returns the record, or nil if nothing is recorded.
func (o *Office) Record() recorded.Reader {
	if _, isNone := o.record.(noRecord); isNone {
		return nil
	}
	return o.record
}

// Note keeps an entry in the record that is no command, and returns its number.
func (o *Office) Note(ctx context.Context, entry *api.Call) (number int64, err error) {
	if o.Record() == nil {
		return 0, api.BadRequest(http.StatusNotFound)
	}
	// The replay gets a question, so that the entry has its place among the commands.
	place, err := api.NewCall("ssdRoleSets")
	if err != nil {
		return 0, err
	}
	within, cancel := context.WithTimeout(ctx, o.AnswerTimeout)
	defer cancel()
	u := &feed.Unit{Lines: [][]byte{place.Line}, Calls: []*api.Call{entry}}
	if err := o.record.Admit(u); err != nil {
		return 0, err
	}
	if _, err := o.feed.Do(within, u); err != nil {
		return 0, err
	}
	return u.Numbers[0], nil
}
