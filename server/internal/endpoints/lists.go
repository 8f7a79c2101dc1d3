package endpoints

import (
	"bytes"
	"errors"
	"fmt"
	"net/http"
	"strings"

	"rbac-node/internal/api"
	"rbac-node/internal/recorded"
	"rbac-node/internal/state"
)

const (
	// listsPath is where lists are, by their names.
	listsPath = "/lists/"
	// severalLists is where parts of several lists are, mostLists how many at once, and mostListsBytes how long their queries are.
	severalLists              = "/lists"
	mostLists, mostListsBytes = 20, 65_536
	// usualRows is how many rows an answer has if nothing is said, and mostRows how many it has at most.
	usualRows, mostRows = 100, 1000
	// nameSeparator stands between the names of a row at after: no name has it.
	nameSeparator = "\t"
)

// A page is the part of a list that is answered.
type page struct {
	rows [][]byte
	// next is what after has to be for the next part, or empty.
	next string
}

func (e *Endpoints) list(r *request) (int, error) {
	s, err := e.knownTo(r, api.Lists)
	if err != nil {
		return 0, err
	}
	query, err := readListQuery(strings.TrimPrefix(r.URL.Path, listsPath), r.URL.RawQuery)
	if err != nil {
		return 0, err
	}
	if err := e.enter(over, r); err != nil {
		return 0, err
	}
	var text []byte
	err = r.slot.make(r.ctx, func() error {
		found, err := e.page(r, s, query)
		text = found.text()
		return err
	})
	if err != nil {
		return 0, err
	}
	return r.reply(http.StatusOK, text), nil
}

// lists answers parts of several lists, a line for each. The head of the answer says which revision of the policy all are from, if
// there is one.
func (e *Endpoints) lists(r *request) (int, error) {
	s, err := e.knownTo(r, api.Lists)
	if err != nil {
		return 0, err
	}
	body, err := api.ReadBody(r.Request, mostListsBytes)
	if err != nil {
		return 0, err
	}
	queries, err := readListQueries(body)
	if err != nil {
		return 0, err
	}
	if err := e.enter(over, r); err != nil {
		return 0, err
	}
	before, answers := s.Numbers(), [][]byte(nil)
	err = r.slot.make(r.ctx, func() error {
		answers, err = e.pages(r, s, queries)
		return err
	})
	if err != nil {
		return 0, err
	}
	if s.Numbers().Policy != before.Policy {
		api.ForgetPolicy(r.w.Header())
	}
	r.visit.Done()
	return writeLines(r.w, answers), nil
}

func (e *Endpoints) pages(r *request, s *state.State, queries []listQuery) ([][]byte, error) {
	answers := make([][]byte, len(queries))
	for i, query := range queries {
		found, err := e.page(r, s, query)
		var refused api.Refusal
		switch {
		case err == nil:
			answers[i] = found.text()
		case errors.As(err, &refused) && refused.Status == http.StatusConflict:
			answers[i] = api.RefusalText(refused.Code, refused.Name)
		default:
			return nil, err
		}
	}
	return answers, nil
}

func (e *Endpoints) page(r *request, s *state.State, query listQuery) (page, error) {
	name := query.list
	switch {
	case name == "sessions":
		var sessions []state.Session
		err := s.Look(func(v *state.View) {
			sessions = v.Sessions()
			r.isAt(v.Numbers)
		})
		rows, byDigest := make([]state.Row, len(sessions)), make(map[string]state.Session, len(sessions))
		for i, one := range sessions {
			rows[i], byDigest[one.Digest] = state.Row{one.Digest, one.User}, one
		}
		return query.choose(rows, func(row state.Row) []byte { return textOfSession(byDigest[row[0]]) }), err
	case name == "staticSets" || name == "dynamicSets":
		sets, numbers, err := s.Sets(name == "staticSets")
		r.isAt(numbers)
		rows, byName := make([]state.Row, len(sets)), make(map[string]state.NamedSet, len(sets))
		for i, one := range sets {
			rows[i], byName[one.Name] = state.Row{one.Name}, one
		}
		return query.choose(rows, func(row state.Row) []byte { return textOfSet(byName[row[0]]) }), err
	case query.holder != nil:
		rows, err := e.permissionsOf(r, query.holder)
		if err != nil {
			return page{}, err
		}
		return query.choose(rows, textOfRow(name)), nil
	}
	rows, hasMore, numbers, err := s.Rows(name, query.Query)
	r.isAt(numbers)
	return query.page(rows, hasMore, textOfRow(name)), err
}

// isAt says in the head of the answer which revision of the policy it is from.
func (r *request) isAt(numbers state.Numbers) {
	api.Point{Policy: numbers.Policy}.SetHead(r.w.Header())
}

// permissionsOf returns the permissions of a user or a role, as the office answers them.
func (e *Endpoints) permissionsOf(r *request, holder *api.Call) (rows []state.Row, err error) {
	answers, err := e.ask(r, api.Rule{}, holder)
	if err != nil {
		return nil, err
	}
	if !api.IsAccepted(answers[0]) {
		code, name := api.CodeOf(answers[0])
		return nil, api.Refusal{Status: api.StatusOf(answers[0]), Code: code, Name: name}
	}
	var pairs [][2]string
	if err := api.ValueOf(answers[0], &pairs); err != nil {
		return nil, err
	}
	rows = make([]state.Row, len(pairs))
	for i, one := range pairs {
		rows[i] = state.Row{one[0], one[1]}
	}
	return rows, nil
}

// A listQuery is what a request wants of a list. holder asks for the permissions of a user or a role, or is nil.
type listQuery struct {
	state.Query
	list   string
	holder *api.Call
}

// readListQueries reads what is wanted of several lists: a line for each, with the name at list and the keys of a query.
func readListQueries(body []byte) (queries []listQuery, err error) {
	for i, line := range bytes.Split(body, []byte("\n")) {
		if len(bytes.TrimSpace(line)) == 0 {
			continue
		}
		query, err := readListLine(line)
		if err == nil && len(queries) == mostLists {
			err = notRead("a request has at most %d lists", mostLists)
		}
		if err != nil {
			return nil, &api.LineError{Number: i + 1, Refusal: api.RefusalOf(err)}
		}
		queries = append(queries, query)
	}
	if len(queries) == 0 {
		return nil, notRead("the body has no line with a list")
	}
	return queries, nil
}

// readListLine reads what is wanted of a list. The limit is a number, and what is at the other keys a text.
func readListLine(line []byte) (query listQuery, err error) {
	fields, err := api.FieldsOf(string(line))
	if err != nil {
		return query, err
	}
	list, err := api.Text(fields.At("list"))
	if err != nil && fields.Has("list") {
		return query, notRead("list has to be a text")
	}
	if query, err = newListQuery(list); err != nil {
		return query, err
	}
	for _, one := range fields.Distinct() {
		key, text := one.Key, one.Value
		if key != "limit" {
			if text, err = api.Text(text); err != nil {
				return query, notRead("%s has to be a text", echoed(key))
			}
		}
		if key == "list" {
			continue
		}
		if err := query.set(key, text); err != nil {
			return query, err
		}
	}
	return query, nil
}

func readListQuery(list, text string) (query listQuery, err error) {
	if query, err = newListQuery(list); err == nil {
		err = readQuery(text, query.set)
	}
	return query, err
}

// newListQuery returns a query of a list that wants all rows.
func newListQuery(list string) (query listQuery, err error) {
	if state.Columns(list) == nil {
		return query, noSuch("list", list)
	}
	return listQuery{list: list, Query: state.Query{Names: map[string]string{}, Limit: usualRows}}, nil
}

func (q *listQuery) set(key, text string) (err error) {
	switch {
	case key == "contains":
		q.Contains = text
	case key == "prefix":
		q.Prefix = text
	case key == "after":
		q.After = strings.Split(text, nameSeparator)
	case key == "limit":
		q.Limit, err = readLimit(text)
	case has(state.Columns(q.list), key):
		q.Names[key] = text
	case q.list != "permissions" || key != "user" && key != "role":
		return notRead("the list %s has no key %s", q.list, echoed(key))
	case q.holder != nil:
		return notRead("user and role exclude each other")
	default:
		q.holder, err = api.NewCall(key+"Permissions", key, text)
	}
	return err
}

func (p page) text() []byte {
	text := []byte{'{'}
	if p.next != "" {
		text = append(api.AppendQuoted(append(text, `"next":`...), p.next), ',')
	}
	text = append(text, `"ok":true,"value":[`...)
	return append(append(text, bytes.Join(p.rows, []byte(","))...), `]}`...)
}

// choose returns the page of the wanted ones of rows that are in order. A function writes each.
func (q listQuery) choose(rows []state.Row, text func(row state.Row) []byte) page {
	found, hasMore := q.Select(q.list, rows)
	return q.page(found, hasMore, text)
}

func (q listQuery) page(rows []state.Row, hasMore bool, text func(row state.Row) []byte) (p page) {
	for _, row := range rows {
		p.rows = append(p.rows, text(row))
	}
	if hasMore {
		p.next = strings.Join(state.KeyOf(q.list, rows[len(rows)-1]), nameSeparator)
	}
	return p
}

// textOfRow returns what writes a row of names: a text if the list has one column, and an object otherwise.
func textOfRow(list string) func(row state.Row) []byte {
	columns := state.Columns(list)
	return func(row state.Row) (text []byte) {
		if len(columns) == 1 {
			return api.AppendQuoted(nil, row[0])
		}
		for i, column := range columns {
			text = api.AppendQuoted(api.AppendKey(text, column), row[i]) // The first comma becomes a brace.
		}
		text[0] = '{'
		return append(text, '}')
	}
}

func textOfSession(one state.Session) []byte {
	return fmt.Appendf(nil, `{"roles":%s,"session":"%s","since":"%s","used":"%s","user":%s}`, api.AppendTexts(nil, one.Active), one.Digest,
		one.Since.UTC().Format(recorded.TimeLayout), one.Used.UTC().Format(recorded.TimeLayout), api.AppendQuoted(nil, one.User))
}

func textOfSet(one state.NamedSet) []byte {
	return fmt.Appendf(nil, `{"cardinality":%d,"roles":%s,"set":%s}`, one.Cardinality, api.AppendTexts(nil, one.Roles), api.AppendQuoted(nil, one.Name))
}

// room answers how many there are of each kind, and how many there may be.
func (e *Endpoints) room(r *request) (int, error) {
	s, err := e.knownTo(r, api.Lists)
	if err != nil {
		return 0, err
	}
	var rooms []state.Room
	err = s.Look(func(v *state.View) {
		rooms = v.Rooms()
		r.isAt(v.Numbers)
	})
	if err != nil {
		return 0, err
	}
	return r.replyValue(struct {
		Room []state.Room `json:"room"`
	}{rooms})
}
