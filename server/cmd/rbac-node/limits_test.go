package main

import (
	"bytes"
	"encoding/json"
	"fmt"
	"strings"
	"testing"

	"rbac-node/internal/limits"
)

// printed returns what a command line prints.
func printed(t *testing.T, words ...string) string {
	t.Helper()
	var out bytes.Buffer
	before := stdout
	defer func() { stdout = before }()
	stdout = &output{to: &out}
	if err := run(words); err != nil {
		t.Fatalf("%v: %v", words, err)
	}
	return out.String()
}

// The table has a line for each kind below its heads, and a column for each version that is asked for.
func TestLimits(t *testing.T) {
	table := func(versions ...int) string {
		text := "kind      "
		for _, one := range versions {
			text += fmt.Sprintf("  version %d", one)
		}
		text += "  counted\n"
		for _, kind := range limits.Kinds() {
			text += fmt.Sprintf("%-10s", kind.Name)
			for _, one := range versions {
				text += fmt.Sprintf("  %9d", kind.In(one))
			}
			text += fmt.Sprintf("  %s\n", kind.Counted)
		}
		return text
	}
	if given := printed(t, "limits"); given != table(allVersions()...) {
		t.Errorf("limits:\n%s", given)
	}
	for _, one := range allVersions() {
		if given := printed(t, "limits", "--version", fmt.Sprint(one)); given != table(one) {
			t.Errorf("limits of version %d:\n%s", one, given)
		}
	}
}

// Programs get the same as JSON, with the numbers of the versions as keys.
func TestLimitsAsJSON(t *testing.T) {
	for words, versions := range map[string][]int{"limits --json": allVersions(), "limits --json --version 1": {1}} {
		var given []limit
		text := printed(t, strings.Fields(words)...)
		if err := json.Unmarshal([]byte(text), &given); err != nil || strings.Count(text, "\n") != 1 {
			t.Fatalf("%s: %v, %s", words, err, text)
		}
		for i, kind := range limits.Kinds() {
			if given[i].Kind != kind.Name || given[i].Counted != kind.Counted || len(given[i].Limits) != len(versions) {
				t.Errorf("%s: %+v", words, given[i])
			}
			for _, one := range versions {
				if most := given[i].Limits[fmt.Sprint(one)]; most != kind.In(one) {
					t.Errorf("%s: %d of %s in version %d", words, most, kind.Name, one)
				}
			}
		}
	}
}

// There is no limit of a version that doesn't exist, and nothing else to ask for.
func TestNoLimits(t *testing.T) {
	for _, words := range []string{"limits --version 0", fmt.Sprint("limits --version ", limits.Newest()+1), "limits --version two", "limits users"} {
		if err := run(strings.Fields(words)); err == nil || strings.Contains(err.Error(), "\n") || !strings.Contains(err.Error(), "rbac-node limits") {
			t.Errorf("%s: %v", words, err)
		}
	}
}
