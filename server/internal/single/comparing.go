package single

import (
	"context"
	"fmt"
	"time"

	"rbac/clients/go/rbacoffice"

	"rbac-node/internal/office"
	"rbac-node/internal/state"
)

// The office in this process is compared with the file a minute after the last command, or an hour after the last comparison.
const quietInterval, longestInterval = time.Minute, time.Hour

// compareOften compares the office in this process with the file until the context ends. What fails, as on a full disk, is tried an hour
// later.
func (o *Office) compareOften(ctx context.Context) {
	ticker := time.NewTicker(quietInterval)
	defer ticker.Stop()
	compared, before, last, hasFailed := o.numbers().All, o.numbers().All, time.Now(), false
	for {
		select {
		case <-ticker.C:
		case <-ctx.Done():
			return
		}
		now, isLate := o.numbers().All, time.Since(last) >= longestInterval
		if now != compared && (isLate || now == before && !hasFailed) {
			err := o.compare(ctx)
			if hasFailed = err != nil; hasFailed {
				o.Log.Warn("the office wasn't compared with its file", "why", err)
			}
			compared, last = now, time.Now()
		}
		before = now
	}
}

// compare compares all rows of the office in this process with those of the file, at one place in the order. If they differ, both begin
// with the file again.
func (o *Office) compare(ctx context.Context) error {
	var own []rbacoffice.Row
	copied := o.File + ".comparing"
	defer office.RemoveCopy(copied)
	err := o.inTurn(ctx, func(*turn) error {
		return o.feed.Quietly(func() error {
			if err := o.state.Look(func(v *state.View) { own = v.Rows() }); err != nil {
				return err
			}
			return office.Copy(o.File, copied)
		})
	})
	if err != nil {
		return err
	}
	rows, _, err := office.ReadRows(ctx, copied, office.OfCopy, false)
	if err != nil {
		return err
	}
	if differing := difference(own, rows); differing != nil {
		return o.feed.Quietly(func() error { // A replay that starts would not be killed.
			o.beginAgain(differing)
			return nil
		})
	}
	return nil
}

// difference names the table of the first row that only one of two offices has, or returns nil. The rows of both are in their order.
func difference(own, others []rbacoffice.Row) error {
	at := 0
	for at < len(own) && at < len(others) && own[at] == others[at] {
		at++
	}
	var first *rbacoffice.Row
	switch {
	case at < len(own) && (at == len(others) || office.IsRowBefore(&own[at], &others[at])):
		first = &own[at]
	case at < len(others):
		first = &others[at]
	default:
		return nil
	}
	table, _ := office.RowInFile(first)
	return fmt.Errorf("they have different rows of %s", table)
}

// beginAgain says that the office in this process isn't that of the file, and lets both begin with the file. If it has happened a short
// time ago, they do so after a pause. Until then nothing is answered. It is called as Kill of the feed is.
func (o *Office) beginAgain(why error) {
	pause := o.rereading.differs(time.Now())
	o.Log.Error("the office in this process isn't that of the file: the replay is ended, and both begin with the file",
		"why", why, "pause", pause.String())
	o.state.Forget()
	o.feed.Kill()
}
