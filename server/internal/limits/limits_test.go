package limits

import (
	"strconv"
	"strings"
	"testing"
)

// TestTable has the columns of the table in the order of the versions, each kind once, and a limit in each version.
func TestTable(t *testing.T) {
	head, _, _ := strings.Cut(table, "\n")
	for i, name := range strings.Split(head, ",")[versionsFrom:] {
		if name != strconv.Itoa(i+1) {
			t.Errorf("the column of version %d is called %q", i+1, name)
		}
	}
	if Newest() < Current {
		t.Errorf("the newest version is %d", Newest())
	}
	met := map[string]bool{}
	for _, one := range Kinds() {
		if met[one.Name] || one.Name == "" || one.Counted == "" {
			t.Errorf("%+v", one)
		}
		met[one.Name] = true
		for version := 1; version <= Newest(); version++ {
			if one.In(version) < 1 || one.In(version) != Of(one.Name, version) {
				t.Errorf("%s: %d in version %d", one.Name, one.In(version), version)
			}
		}
	}
}

// TestOfNoKind asks for a kind that doesn't exist, which is a mistake in the sources.
func TestOfNoKind(t *testing.T) {
	defer func() {
		if recover() == nil {
			t.Error("there is a limit of fish")
		}
	}()
	Of("fish", Current)
}
