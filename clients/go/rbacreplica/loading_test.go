package rbacreplica

import (
	"errors"
	"strings"
	"testing"
)

// policy has each sort of line that a snapshot has, with names that are escaped.
const policy = `{"fn":"addUser","user":"a\"n\\n"}
{"fn":"addRole","role":"b"}
{"fn":"addRole","role":"c"}
{"fn":"addInheritance","asc":"b","desc":"c"}
{"fn":"addPermObj","object":"safe"}
{"fn":"addPermission","object":"safe","operation":"open"}
{"fn":"grantPermission","object":"safe","operation":"open","role":"c"}
{"fn":"assignUser","user":"a\"n\\n","role":"b"}
{"fn":"createDsdSet","set":"s","roles":["b","c"],"cardinality":2}
{"fn":"lockUserAccount","user":"a\"n\\n"}`

const session = `{"fn":"createSession","user":"a\"n\\n","roles":["c"],"session":"s1"}`

func lines(text string) [][]byte {
	var found [][]byte
	for _, line := range strings.Split(text, "\n") {
		found = append(found, []byte(line))
	}
	return found
}

// TestOffice makes an office of a snapshot, and none of lines that aren't as the front writes them.
func TestOffice(t *testing.T) {
	unlocked := strings.Replace(policy, "\n"+`{"fn":"lockUserAccount","user":"a\"n\\n"}`, "", 1) + "\n" + session
	office, err := officeOf(lines(unlocked))
	if err != nil {
		t.Fatal(err)
	}
	defer office.Close()
	if isAllowed, err := office.Check("s1", "open", "safe"); err != nil || !isAllowed {
		t.Errorf("the session: %t, %v", isAllowed, err)
	}
	if locked, err := officeOf(lines(policy)); err != nil {
		t.Error(err)
	} else {
		locked.Close()
	}
	for _, wrong := range []string{
		strings.Replace(session, `["c"]`, `"c"`, 1),
		strings.Replace(session, `["c"]`, `null`, 1),
		strings.Replace(session, `"roles"`, `"Roles"`, 1),
		strings.Replace(session, `,"roles":["c"]`, ``, 1),
		strings.Replace(session, `createSession`, `createsession`, 1),
		`{"fn":"addRole","role":7}`,
		`{"fn":"createSsdSet","set":"t","roles":["b","c"],"cardinality":2e0}`,
		`{"fn":"assignedRoles","user":"nobody"}`,
		`<html>`,
		``,
	} {
		made, err := officeOf(lines(unlocked + "\n" + strings.Replace(wrong, `"s1"`, `"s2"`, 1)))
		if !errors.Is(err, errDiverged) {
			t.Errorf("%s: %v", wrong, err)
		}
		if made != nil {
			made.Close()
		}
	}
}

// TestWritten writes each line as the front does.
func TestWritten(t *testing.T) {
	for _, line := range lines(policy + "\n" + session) {
		var read snapshotLine
		if err := read.read(line); err != nil || string(read.written()) != string(line) {
			t.Errorf("%s: %s, %v", line, read.written(), err)
		}
	}
}
