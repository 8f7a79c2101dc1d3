package record

import (
	"context"
	"fmt"
	"io"
	"os/exec"
	"path/filepath"
	"strings"
	"testing"

	"rbac-node/internal/limits"
	"rbac-node/internal/programtest"
)

// TestSmallerLimits has each kind of which version 1 allows fewer than librbac, in their order.
func TestSmallerLimits(t *testing.T) {
	var smaller []string
	for _, kind := range limits.Kinds() {
		if kind.In(1) < limits.Of(kind.Name, limits.Current) {
			smaller = append(smaller, kind.Name)
		}
	}
	var known []string
	for _, one := range smallerLimits {
		known = append(known, one.kind)
	}
	if strings.Join(known, " ") != strings.Join(smaller, " ") {
		t.Errorf("%v and not %v", known, smaller)
	}
}

// TestVersion1 has an office of version 1 that is at its limits. A rerun gives the answers of the program, and the same rows.
func TestVersion1(t *testing.T) {
	file := filepath.Join(t.TempDir(), "office")
	if said, err := exec.Command(programtest.Path(t), "init", file).CombinedOutput(); err != nil {
		t.Fatalf("%s", said)
	}
	// allButOne counts from 0 to one less than a limit allows.
	allButOne := func(kind string) string {
		const count = "WITH RECURSIVE count(i) AS (SELECT 0 UNION ALL SELECT i + 1 FROM count WHERE i < %d)"
		return fmt.Sprintf(count, limits.Of(kind, 1)-2)
	}
	edges := allButOne("edge") + "INSERT INTO pair_row SELECT %d, 'r' || (i / 32), 'r' || (32 + i %% 32) FROM count"
	change(t, file, "UPDATE meta_row SET version = 1", "DROP TABLE locked_row",
		allButOne("user")+"INSERT INTO name_row SELECT 1, 'u' || i FROM count",
		allButOne("role")+"INSERT INTO name_row SELECT 2, 'r' || i FROM count", fmt.Sprintf(edges, 3), fmt.Sprintf(edges, 4))
	tool := &Tool{Office: file, Program: programtest.Path(t), Out: io.Discard, Err: io.Discard}
	if err := tool.Adopt(context.Background(), "a test", "version 1"); err != nil {
		t.Fatal(err)
	}
	b := &bench{T: t}
	b.reopen(file)
	before := []string{
		`{"fn":"lockUserAccount","user":"u0"}`, `{"fn":"unlockUserAccount","user":"nobody"}`, `{"fn":"lockUserAccount","user":""}`,
		`{"fn":"addUser","user":"u0"}`, `{"fn":"addUser","user":"the last one"}`, `{"fn":"addUser","user":"one more"}`, `{"fn":"addUser","user":"u0"}`,
		`{"fn":"addDescendant","asc":"r100","desc":"the last one"}`, `{"fn":"addRole","role":"one more"}`, `{"fn":"addRole","role":"r0"}`,
		`{"fn":"assignUser","user":"u1","role":"r98"}`, `{"fn":"assignUser","user":"u1","role":"r97"}`,
		`{"fn":"createSsdSet","set":"s","roles":["r97","r99"],"cardinality":2}`,
		`{"fn":"addInheritance","asc":"r98","desc":"r99"}`, `{"fn":"addInheritance","asc":"r98","desc":"r96"}`,
		`{"fn":"addInheritance","asc":"r0","desc":"r32"}`, `{"fn":"addAscendant","asc":"one more","desc":"r1"}`,
		`{"fn":"deleteRole","role":"r254"}`, `{"fn":"addAscendant","asc":"one more","desc":"r1"}`, `{"fn":"deleteUser","user":"u7"}`,
		`{"fn":"addUser","user":"one more"}`, `{"fn":"deleteInheritance","asc":"r0","desc":"r32"}`,
		`{"fn":"addInheritance","asc":"r98","desc":"r99"}`,
	}
	b.answered(before...)
	for condition, wanted := range map[string]int{
		"answer ->> 'code' = 51": 2, "answer ->> 'kind' = 'user'": 1, "answer ->> 'kind' = 'role'": 2, "answer ->> 'kind' = 'edge'": 3,
		"answer ->> 'code' = 24": 1,
	} {
		if given := b.count(condition); given != wanted {
			t.Errorf("%s: %d answers of the program", condition, given)
		}
	}
	// These have no answer yet.
	open := []string{`{"fn":"lockUserAccount","user":"u0"}`, `{"fn":"addUser","user":"again too many"}`, `{"fn":"assignUser","user":"u3","role":"r3"}`}
	b.ask(open...)
	b.do(open...)
	if err := b.Before(context.Background()); err != nil || b.count("found AND answer ->> 'code' IN (32, 51)") != 2 {
		t.Errorf("a start: %v", err)
	}
	tool, out := b.tool()
	if err := tool.Verify(context.Background(), nil); err != nil || !strings.Contains(out.String(), "the office has the rows that the record gives") {
		t.Errorf("%v, %s", err, out)
	}
}
