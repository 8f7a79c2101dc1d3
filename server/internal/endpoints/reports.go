package endpoints

import (
	"bufio"
	"context"
	"fmt"
	"io"
	"net/http"
	"strconv"
	"strings"
	"time"

	"rbac-node/internal/api"
	"rbac-node/internal/recorded"
	"rbac-node/internal/reports"
	"rbac-node/internal/state"
	"rbac-node/internal/web"
)

const (
	// reportsPath is where a report is asked for by its name, and read by a ticket.
	reportsPath = "/reports/"
	// longestFilter is how many bytes the body of such a request has at most.
	longestFilter = 4096
	// slotTimeout is how long a report waits for another one that is being read, and reportTimeout how long it may take.
	slotTimeout, reportTimeout = 10 * time.Second, 5 * time.Minute
	// rightInterval is how often the right to a report is judged while it is read, and pieceBytes how much is written at once.
	rightInterval, pieceBytes = time.Second, 1 << 16
)

// reporting is held by the one report that is being read.
var reporting = make(chan struct{}, 1)

// A reportQuery is what is asked for: a report, which of its lines, how many of them, and whether they are CSV.
type reportQuery struct {
	reports.Filter
	name  string
	most  int64
	isCSV bool
}

// report answers a ticket for a report, and how many lines it has. None of them has been made.
func (e *Endpoints) report(r *request) (int, error) {
	s, err := e.knownTo(r, api.Reports)
	if err != nil {
		return 0, err
	}
	query, err := readReportQuery(r)
	if err != nil {
		return 0, err
	}
	if !e.tickets.hasRoom(r.visit.Name()) {
		return 0, api.TooManyRequests
	}
	ctx, cancel := r.whileThere()
	defer cancel()
	if err := e.enter(ctx, r); err != nil {
		return 0, err
	}
	var office *state.Frozen
	var made *reports.Report
	err = r.slot.make(ctx, func() (err error) {
		if office, err = e.tickets.freeze(s); err == nil {
			made, err = reports.New(query.name, office, query.Filter)
		}
		return err
	})
	if err != nil {
		return 0, err
	}
	api.Point{Policy: office.Numbers.Policy}.SetHead(r.w.Header())
	if made.Lines > reports.MostLines {
		text := fmt.Sprintf(`{"code":%d,"error":"BadRequest","lines":%d}`, errNotRead.Code, made.Lines)
		return r.reply(http.StatusRequestEntityTooLarge, []byte(text)), nil
	}
	name, err := e.tickets.add(&ticket{query: query, office: office, request: r.Request, visit: r.visit})
	if err != nil {
		return 0, err
	}
	r.w.Header().Set("Cache-Control", "no-store")
	return r.replyValue(struct {
		At      string   `json:"at"`
		Columns []string `json:"columns,omitempty"`
		Lines   int64    `json:"lines"`
		Policy  int64    `json:"policy"`
		Seconds int      `json:"seconds"`
		Ticket  string   `json:"ticket"`
	}{office.At.UTC().Format(recorded.TimeLayout), made.Columns, made.Lines, office.Numbers.Policy, int(ticketAge / time.Second), name})
}

func readReportQuery(r *request) (query reportQuery, err error) {
	query = reportQuery{name: strings.TrimPrefix(r.URL.Path, reportsPath), most: reports.MostLines, isCSV: true}
	keys, known := reports.Filters(query.name)
	if !known {
		return query, noSuch("report", query.name)
	}
	body, err := api.ReadBody(r.Request, longestFilter)
	if err != nil {
		return query, err
	}
	fields := api.Fields{}
	if len(body) > 0 {
		if fields, err = api.FieldsOf(string(body)); err != nil {
			return query, err
		}
	}
	for _, one := range fields.Distinct() {
		if err := query.set(keys, one.Key, one.Value); err != nil {
			return query, err
		}
	}
	query.isCSV = query.isCSV && query.name != "dump"
	return query, nil
}

// set sets what a key means. An empty text chooses nothing, as if it were left out.
func (q *reportQuery) set(keys []string, key string, value string) (err error) {
	texts := map[string]*string{
		"user": &q.User, "role": &q.Role, "object": &q.Object, "operation": &q.Operation, "set": &q.Set,
	}
	switch place, isText := texts[key]; {
	case key == "format":
		text, err := api.Text(value)
		if err != nil || text != "csv" && text != "lines" {
			return notRead("format is csv or lines")
		}
		q.isCSV = text == "csv"
	case key == "limit":
		q.most, err = strconv.ParseInt(value, 10, 64)
		if err != nil || q.most < 1 {
			return notRead("limit is a number from 1")
		}
	case !has(keys, key):
		return notRead("the report %s has no key %s", q.name, echoed(key))
	case isText:
		if *place, err = api.Text(value); err != nil {
			return notRead("%s has to be a text", key)
		}
	default: // It is left.
		q.Left, err = strconv.ParseInt(value, 10, 64)
		if q.HasLeft = true; err != nil {
			return notRead("left has to be a number")
		}
	}
	return nil
}

// ServeTicket answers a request with the report of its ticket, if it is one for a report. Who has the ticket needs no other identity:
// a browser sends none with a download.
func (e *Endpoints) ServeTicket(w http.ResponseWriter, r *http.Request) bool {
	if r.Method != http.MethodGet || !strings.HasPrefix(r.URL.Path, reportsPath) {
		return false
	}
	start, status := time.Now(), http.StatusOK
	defer func() { e.Note("report", status, start) }()
	if err := e.serveTicket(w, r); err != nil {
		status = api.Refuse(w, api.RefusalOf(err))
	}
	return true
}

func (e *Endpoints) serveTicket(w http.ResponseWriter, r *http.Request) error {
	name := strings.TrimPrefix(r.RequestURI, reportsPath)
	if !e.tickets.has(name) {
		return api.UnknownFunction
	}
	select {
	case reporting <- struct{}{}:
		defer func() { <-reporting }()
	case <-time.After(slotTimeout): // The ticket may be of use later.
		return api.Unavailable
	case <-e.life.Done():
		return api.Unavailable
	}
	one := e.tickets.take(name)
	if one == nil {
		return api.UnknownFunction
	}
	ctx, cancel := context.WithTimeout(e.life, reportTimeout)
	defer cancel()
	if err := one.again(); err != nil {
		return err
	}
	made, err := reports.New(one.query.name, one.office, one.query.Filter)
	if err != nil {
		return err
	}
	one.setHead(w.Header())
	web.Unlimited(r.Context())
	if one.write(ctx, w, made) != nil {
		panic(http.ErrAbortHandler) // The client sees that the end is missing.
	}
	return nil
}

// again reports whether the caller may still read reports, by the callers that are in force now.
func (t *ticket) again() error { return t.visit.Again(t.request, api.Reports, func() {}) }

// setHead sets the head of the answer. The name of the file says which report it is, of when, and of which revision of the policy.
func (t *ticket) setHead(head http.Header) {
	sort, ending := "text/csv; charset=utf-8", "csv"
	if !t.query.isCSV {
		sort, ending = "application/jsonl", "jsonl"
	}
	file := fmt.Sprintf("%s-%s-revision-%d.%s", t.query.name, t.office.At.UTC().Format("2006-01-02"), t.office.Numbers.Policy, ending)
	api.Point{Policy: t.office.Numbers.Policy}.SetHead(head)
	for name, value := range map[string]string{
		"Content-Type": sort, "Content-Disposition": `attachment; filename="` + file + `"`, "Connection": "close",
		"Content-Security-Policy": "default-src 'none'; sandbox", "X-Content-Type-Options": "nosniff", "Cache-Control": "no-store",
		"Referrer-Policy": "no-referrer", "Cross-Origin-Resource-Policy": "same-origin",
	} {
		head.Set(name, value)
	}
}

// write writes the report, piece by piece, while the right to it holds.
func (t *ticket) write(ctx context.Context, to io.Writer, made *reports.Report) error {
	pieces := bufio.NewWriterSize(&rightful{ticket: t, ctx: ctx, to: to, judged: time.Now()}, pieceBytes)
	write := made.WriteLines
	if t.query.isCSV {
		write = made.WriteCSV
	}
	if err := write(pieces, t.query.most); err != nil {
		return err
	}
	return pieces.Flush()
}

// A rightful writer writes while the right to a report holds, and its time isn't over.
type rightful struct {
	ticket *ticket
	ctx    context.Context
	to     io.Writer
	judged time.Time
}

func (w *rightful) Write(text []byte) (int, error) {
	if err := w.ctx.Err(); err != nil {
		return 0, err
	}
	if time.Since(w.judged) >= rightInterval {
		if err := w.ticket.again(); err != nil {
			return 0, err
		}
		w.judged = time.Now()
	}
	return w.to.Write(text)
}
