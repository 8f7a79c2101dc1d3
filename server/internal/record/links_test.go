package record

import (
	"context"
	"strconv"
	"strings"
	"testing"
)

// TestLinksOfParts asks for the links of more entries than one answer has, of which the last are in another file. None is left out.
func TestLinksOfParts(t *testing.T) {
	b, ctx := open(t), context.Background()
	lines := []string{addAnn, addRole}
	long := `{"fn":"importAssignments","csv":"user,role` + strings.Repeat(`\nann,clerk`, 5000) + `"}`
	for i := 0; i < mostLinkedBytes/len(long)+2; i++ {
		lines = append(lines, long)
	}
	b.answered(lines...)
	tool, _ := b.tool()
	if err := tool.Cut(ctx); err != nil {
		t.Fatal(err)
	}
	b.reopen(b.Office)
	b.answered(`{"fn":"addUser","user":"bob"}`)
	answers := 0
	for after := int64(0); after < b.Head().N; answers++ {
		links, err := b.Links(ctx, after)
		if err != nil || len(links.Entries) == 0 {
			t.Fatalf("after %d: %v, %d entries", after, err, len(links.Entries))
		}
		for _, fields := range links.Entries {
			if after++; fields[0] != strconv.FormatInt(after, 10) {
				t.Fatalf("entry %s comes after %d", fields[0], after-1)
			}
		}
	}
	if answers < 2 {
		t.Errorf("all entries are in %d answers", answers)
	}
}
