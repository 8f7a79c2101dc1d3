package record

import (
	"bytes"
	"context"
	"strings"
	"testing"

	"rbac-node/internal/api"
	"rbac-node/internal/feed"
	"rbac-node/internal/logs"
	"rbac-node/internal/recorded"
)

// A review between commands, whose answers a crash has taken, is found again in its place.
func TestReviewIsFoundAgain(t *testing.T) {
	b := open(t)
	first, err := api.NewCall("addUser", "user", "ann")
	if err != nil {
		t.Fatal(err)
	}
	second, err := api.NewCall("addUser", "user", "bob")
	if err != nil {
		t.Fatal(err)
	}
	text := recorded.ReviewPrefix + `"review":"Q4","sha256":"","kept":1,"removed":0,"open":0}`
	var units []*feed.Unit
	for _, call := range []*api.Call{first, api.NewEntry(api.Review, []byte(text)), second} {
		u := feed.NewUnit(call)
		if err := b.Admit(u); err != nil {
			t.Fatal(err)
		}
		units = append(units, u)
	}
	if err := b.Keep(nil, units); err != nil {
		t.Fatal(err)
	}
	if units[1].Numbers[0] != 3 {
		t.Errorf("the number is %v", units[1].Numbers)
	}
	b.do(string(first.Line)) // The crash came after the first command.
	file := b.Office
	if err := b.Record.close(); err != nil {
		t.Fatal(err)
	}
	b.reopen(file)
	if err := b.Before(context.Background()); err != nil {
		t.Fatal(err)
	}
	page, err := b.Recorded(context.Background(), recorded.Query{Limit: 10})
	if err != nil {
		t.Fatal(err)
	}
	if len(page.Entries) != 4 || string(page.Entries[1].Request) != text || string(page.Entries[1].Answer) != accepted || !page.Entries[1].IsFound {
		t.Errorf("%+v", page.Entries)
	}
	var out bytes.Buffer
	tool := &Tool{Office: file, Program: b.Program, Out: &out, Log: logs.New(&out)}
	if err := b.Record.Close(false); err != nil {
		t.Fatal(err)
	}
	if err := tool.Verify(context.Background(), nil); err != nil || !strings.Contains(out.String(), "the office has the rows") {
		t.Errorf("verify: %v, %s", err, &out)
	}
	b.reopen(file)
}
