package callers

import (
	"encoding/json"
	"fmt"
	"net/http"
	"net/url"
	"os"
	"path/filepath"
	"strings"
	"sync"
	"time"

	"rbac-node/internal/api"
	"rbac-node/internal/disk"
)

const (
	// mostBytes is how long a file of refused requests may get before it is renamed and another one begun.
	mostBytes = 4 << 20
	// mostLines is how many lines there may be in a file for one second, and mostOfCaller how many of one caller. The others are only
	// counted.
	mostLines, mostOfCaller = 200, 20
	// longestTarget is how many bytes of a target or a name are written, and mostRoles how many names of a list.
	longestTarget, mostRoles = 200, 32
	// unknownSuffix is added to the path for the requests of those who haven't shown who they are.
	unknownSuffix = ".unknown"
)

// A Journal is two files of refused requests, one for callers and one for all others, so that nobody else pushes out what callers have
// asked. They and those before them take up 16 MiB at most.
type Journal struct {
	known, unknown journalFile
	digest         func(text string) string
}

// A journalFile is one of the files.
type journalFile struct {
	path    string
	mutex   sync.Mutex
	file    *os.File
	size    int64
	second  int64
	lines   int
	leftOut int
	// isFull says that the disk has no room for a line in this second.
	isFull   bool
	byCaller map[string]int
}

// A refusal is a line of the journal. All names are escaped, as JSON is.
type refusal struct {
	Time    string `json:"time"`
	Status  int    `json:"status"`
	Caller  string `json:"caller,omitempty"`
	From    string `json:"from"`
	Method  string `json:"method"`
	Target  string `json:"target"`
	Why     string `json:"why"`
	Asked   *asked `json:"asked,omitempty"`
	LeftOut int    `json:"left_out,omitempty"`
}

// An asked is the call that the caller may not do: its function, the names in it, and the reason that was given.
type asked struct {
	Function   string   `json:"function"`
	User       string   `json:"user,omitempty"`
	Role       string   `json:"role,omitempty"`
	Roles      []string `json:"roles,omitempty"`
	Ascendant  string   `json:"asc,omitempty"`
	Descendant string   `json:"desc,omitempty"`
	Object     string   `json:"object,omitempty"`
	Operation  string   `json:"operation,omitempty"`
	Set        string   `json:"set,omitempty"`
	Session    string   `json:"session,omitempty"`
	Reason     string   `json:"reason,omitempty"`
}

// askedOf returns what a call asks for, or nil if there is no call.
func (j *Journal) askedOf(call *api.Call) *asked {
	if call == nil {
		return nil
	}
	a := &asked{
		Function: call.Function, User: shortened(call.User), Role: shortened(call.Role), Ascendant: shortened(call.Ascendant),
		Descendant: shortened(call.Descendant), Object: shortened(call.Object), Operation: shortened(call.Operation), Set: shortened(call.Set),
		Reason: shortened(call.Reason),
	}
	for i := 0; i < len(call.Roles) && i < mostRoles; i++ {
		a.Roles = append(a.Roles, shortened(call.Roles[i]))
	}
	if call.Session != "" {
		a.Session = j.digest(call.Session)
	}
	return a
}

// OpenJournal opens the journal in a file, and one beside it. The digest takes the place of what nobody may read there.
func OpenJournal(path string, digest func(text string) string) (*Journal, error) {
	j := &Journal{known: journalFile{path: path}, unknown: journalFile{path: path + unknownSuffix}, digest: digest}
	for _, one := range []*journalFile{&j.known, &j.unknown} {
		if err := one.open(); err != nil {
			return nil, err
		}
	}
	return j, nil
}

func (f *journalFile) open() error {
	file, err := os.OpenFile(f.path, os.O_WRONLY|os.O_APPEND|os.O_CREATE, 0o600)
	if err != nil {
		return fmt.Errorf("refused requests: %w", err)
	}
	about, err := file.Stat()
	if err != nil {
		_ = file.Close()
		return fmt.Errorf("refused requests: %w", err)
	}
	f.file, f.size = file, about.Size()
	return nil
}

// Write notes a refused request. Why may be nil, and so may be the call that the caller may not do.
func (j *Journal) Write(r *http.Request, status int, caller string, why error, denied *api.Call) error {
	if j == nil {
		return nil
	}
	now := time.Now()
	line := refusal{
		Time: now.UTC().Format("2006-01-02T15:04:05.000Z"), Status: status, Caller: shortened(caller), From: from(r),
		Method: shortened(r.Method), Target: shortened(j.target(r.RequestURI)), Why: http.StatusText(status),
		Asked: j.askedOf(denied),
	}
	if why != nil {
		line.Why = shortened(why.Error())
	}
	f := &j.known
	if caller == "" {
		f = &j.unknown
	}
	if err := f.write(now.Unix(), caller, line); err != nil {
		return fmt.Errorf("refused requests: %w", err)
	}
	return nil
}

// write adds a line, if there is room for it in this second.
func (f *journalFile) write(second int64, caller string, line refusal) error {
	f.mutex.Lock()
	defer f.mutex.Unlock()
	if second != f.second {
		f.second, f.lines, f.byCaller = second, 0, map[string]int{}
		f.isFull = disk.IsShort(filepath.Dir(f.path)) // A start needs what is left.
	}
	f.byCaller[caller]++
	if f.lines == mostLines || f.isFull || caller != "" && f.byCaller[caller] > mostOfCaller {
		f.leftOut++
		return nil
	}
	f.lines++
	line.LeftOut = f.leftOut
	text, err := json.Marshal(line)
	if err != nil {
		return err
	}
	f.leftOut = 0
	if f.size+int64(len(text)) >= mostBytes {
		if err := f.begin(); err != nil {
			return err
		}
	}
	written, err := f.file.Write(append(text, '\n'))
	f.size += int64(written)
	return err
}

// begin renames the file, and begins another one.
func (f *journalFile) begin() error {
	_ = f.file.Close()
	if err := os.Rename(f.path, f.path+".1"); err != nil {
		return err
	}
	return f.open()
}

// namedKeys are the keys of queries whose values are written. All others may be a secret: a token, or the name of a session.
var namedKeys = map[string]bool{
	"user": true, "role": true, "object": true, "operation": true, "function": true, "caller": true, "since": true, "until": true,
	"refused": true, "limit": true, "before": true, "after": true, "contains": true, "prefix": true, "from": true, "stop": true,
	"set": true, "reason": true, "format": true, "lines": true, "asc": true, "desc": true,
}

// sessionTarget is what comes before the session in a path.
const sessionTarget = "/sessions/"

// target returns the target of a request, with digests in place of what may let others in.
func (j *Journal) target(target string) string {
	path, query, hasQuery := strings.Cut(target, "?")
	if before, name, has := strings.Cut(path, sessionTarget); has {
		path = before + sessionTarget + j.hidden(name)
	}
	if !hasQuery {
		return path
	}
	pairs := strings.Split(query, "&")
	for i, pair := range pairs {
		key, value, hasValue := strings.Cut(pair, "=")
		switch {
		case !hasValue:
			pairs[i] = j.hidden(key)
		case !namedKeys[key]:
			pairs[i] = shortened(key) + "=" + j.hidden(value)
		}
	}
	return path + "?" + strings.Join(pairs, "&")
}

// hidden returns the digest of a text that is written in a target. What looks like a digest may be a token or a name.
func (j *Journal) hidden(text string) string {
	if plain, err := url.QueryUnescape(text); err == nil {
		text = plain
	}
	return j.digest(text)
}

// from returns where a request comes from.
func from(r *http.Request) string {
	if user := PeerOf(r); user != "" {
		return user
	}
	return r.RemoteAddr
}

func shortened(text string) string {
	if len(text) > longestTarget {
		return text[:longestTarget] + ".."
	}
	return text
}
