package rbacreplica

import (
	"bytes"
	"encoding/json"
	"sync"

	"rbac/clients/go/rbacclient"
	"rbac/clients/go/rbacoffice"
)

// snapshotLine is a line of a snapshot. Its fields are in the order of the keys of each line, as the front writes it.
type snapshotLine struct {
	Fn          string    `json:"fn"`
	User        string    `json:"user,omitempty"`
	Asc         string    `json:"asc,omitempty"`
	Desc        string    `json:"desc,omitempty"`
	Object      string    `json:"object,omitempty"`
	Operation   string    `json:"operation,omitempty"`
	Role        string    `json:"role,omitempty"`
	Set         string    `json:"set,omitempty"`
	Roles       *[]string `json:"roles,omitempty"` // A list may be empty.
	Cardinality uint32    `json:"cardinality,omitempty"`
	Session     string    `json:"session,omitempty"`
}

// rows returns the rows that a line makes, or false if it isn't one of those that snapshots have.
func (l *snapshotLine) rows() ([]rbacoffice.Row, bool) {
	row := func(table rbacoffice.Table, names ...string) rbacoffice.Row {
		made := rbacoffice.Row{Table: table}
		copy(made.Names[:], names)
		return made
	}
	list := func(first rbacoffice.Row, table rbacoffice.Table, name string) ([]rbacoffice.Row, bool) {
		if l.Roles == nil {
			return nil, false
		}
		found := []rbacoffice.Row{first}
		for _, role := range *l.Roles {
			found = append(found, row(table, name, role))
		}
		return found, true
	}
	set := func(cardinalities, members rbacoffice.Table) ([]rbacoffice.Row, bool) {
		first := row(cardinalities, l.Set)
		first.Number = l.Cardinality
		return list(first, members, l.Set)
	}
	switch l.Fn {
	case "addUser":
		return []rbacoffice.Row{row(rbacoffice.Users, l.User)}, true
	case "addRole":
		return []rbacoffice.Row{row(rbacoffice.Roles, l.Role)}, true
	case "addInheritance":
		return []rbacoffice.Row{row(rbacoffice.Inheritances, l.Asc, l.Desc)}, true
	case "addPermObj":
		return []rbacoffice.Row{row(rbacoffice.Objects, l.Object)}, true
	case "addPermission":
		return []rbacoffice.Row{row(rbacoffice.Permissions, l.Object, l.Operation)}, true
	case "grantPermission":
		return []rbacoffice.Row{row(rbacoffice.Grants, l.Object, l.Operation, l.Role)}, true
	case "assignUser":
		return []rbacoffice.Row{row(rbacoffice.Assignments, l.User, l.Role)}, true
	case "createSsdSet":
		return set(rbacoffice.StaticCardinalities, rbacoffice.StaticMembers)
	case "createDsdSet":
		return set(rbacoffice.DynamicCardinalities, rbacoffice.DynamicMembers)
	case "lockUserAccount":
		return []rbacoffice.Row{row(rbacoffice.Locks, l.User)}, true
	case "createSession":
		return list(row(rbacoffice.Sessions, l.Session, l.User), rbacoffice.ActivatedRoles, l.Session)
	}
	return nil, false
}

// read reads a line that may be written in any way.
func (l *snapshotLine) read(text []byte) error {
	return json.Unmarshal(text, l)
}

// written returns the line as the front writes it. One that is written in another way may mean something else.
func (l *snapshotLine) written() []byte {
	var text bytes.Buffer
	encoder := json.NewEncoder(&text)
	encoder.SetEscapeHTML(false)
	if err := encoder.Encode(l); err != nil {
		return nil
	}
	return bytes.TrimSuffix(text.Bytes(), []byte("\n"))
}

// officeOf returns the office that the lines of a snapshot make: by its rows, since a large office is loaded faster by them.
func officeOf(lines [][]byte) (*rbacoffice.Office, error) {
	var rows []rbacoffice.Row
	done := 0
	for _, text := range lines {
		var line snapshotLine
		if err := line.read(text); err != nil {
			return nil, diverged("line %d of the snapshot is none", done+1)
		}
		more, isKnown := line.rows()
		if !isKnown || !bytes.Equal(line.written(), text) {
			break // The office judges it.
		}
		rows = append(rows, more...)
		done++
	}
	office, err := rbacoffice.Load(append(rows, rbacoffice.Closure(rows)...), 0)
	if err != nil {
		return nil, diverged("the snapshot is none of an office")
	}
	for _, text := range lines[done:] {
		if err := do(office, text); err != nil {
			office.Close()
			return nil, err
		}
	}
	return office, nil
}

// do does a command that the office of the front has accepted.
func do(office *rbacoffice.Office, line []byte) error {
	before, err := office.Revision()
	if err != nil {
		return diverged("%v", err)
	}
	answer, err := office.Answer(line)
	if err != nil {
		return diverged("%v", err)
	}
	after, err := office.Revision()
	if err != nil || after != before+1 || !bytes.HasPrefix(answer, []byte(`{"ok":true`)) {
		var refusal struct{ Code int }
		_ = json.Unmarshal(answer, &refusal) // Without a code it was no command.
		return diverged("it doesn't accept a command: code %d", refusal.Code)
	}
	return nil
}

// mostDigests is how many digests of sessions are kept.
const mostDigests = 16_384

// digests has the digests of names of sessions that were asked about.
type digests struct {
	mu    sync.RWMutex
	known map[string]string
}

// of returns the digest of a name.
func (d *digests) of(name string) string {
	d.mu.RLock()
	digest, isKnown := d.known[name]
	d.mu.RUnlock()
	if isKnown {
		return digest
	}
	digest = rbacclient.SessionDigest(name)
	d.mu.Lock()
	defer d.mu.Unlock()
	if d.known == nil || len(d.known) >= mostDigests {
		d.known = map[string]string{}
	}
	d.known[name] = digest
	return digest
}
