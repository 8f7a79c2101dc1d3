package front

import (
	"errors"
	"net"
	"net/http"
	"strings"
	"time"

	"rbac-node/internal/api"
	"rbac-node/internal/callers"
	"rbac-node/internal/console"
	"rbac-node/internal/web"
)

// requestField is the field in which a client of AuthZEN numbers its requests.
const requestField = "X-Request-Id"

// notStored is in the head of each answer: a cache would answer others with it, or later, and looks neither at who asks nor at the fields
// that say what is to be decided.
var notStored = []string{"no-store"}

// ServeHTTP answers a request, unless it comes from a foreign page or nobody knows who asks.
func (f *Front) ServeHTTP(w http.ResponseWriter, r *http.Request) {
	w.Header()["Cache-Control"] = notStored
	if f.guard == nil || r.ContentLength == 0 { // A stranger may take long for a body, also where none is needed.
		web.Admitted(r.Context())
	}
	if !isFramed(w, r) {
		web.Refused(r.Context())
		api.Refuse(w, api.BadRequest(http.StatusNotImplemented))
		return
	}
	if id := r.Header[requestField]; len(id) > 0 && strings.HasPrefix(r.URL.Path, "/access/") {
		w.Header()[requestField] = id[:1] // As AuthZEN wants it, whatever is answered.
	}
	if !f.isServing.Load() {
		f.serveStart(w, r)
		return
	}
	if origins, has := r.Header["Origin"]; has && !f.areOwn(origins) && !isOwnPage(r, origins) {
		api.Close(w)
		f.refuse(w, r, "", errors.New("a page of "+strings.Join(origins, ", ")), api.ForeignOrigin)
		return
	}
	if f.IsHostChecked && f.guard == nil && f.isLocal && !isLocalHost(r.Host) {
		api.Close(w)
		f.refuse(w, r, "", errors.New("the host "+r.Host), api.ForeignHost)
		return
	}
	if r.URL.Path == "/healthz" {
		f.serveHealth(w, r)
		return
	}
	if f.endpoints.ServeConfiguration(w, r) || f.endpoints.ServeTicket(w, r) {
		return
	}
	if console.Has(r) {
		start := time.Now()
		f.endpoints.Note("page", console.Serve(w, r), start)
		return
	}
	if f.guard == nil {
		f.answer(w, r, nil)
		return
	}
	visit, why, err := f.guard.Enter(r)
	if err != nil {
		f.refuse(w, r, "", why, api.RefusalOf(err))
		return
	}
	defer visit.Leave()
	web.Admitted(r.Context())
	f.answer(w, r, visit)
}

// isFramed reports whether a request has no transfer coding, which the front doesn't accept. It ends the connection behind a request of
// which two might not see the same end, such as the front and a proxy before it: RFC 9112, section 6, says which are. Of a length beside
// a coding the library says nothing, and nothing of a coding in HTTP/1.0. What else is wrong with a length it refuses itself.
func isFramed(w http.ResponseWriter, r *http.Request) bool {
	if len(r.TransferEncoding) > 0 || !r.ProtoAtLeast(1, 1) {
		api.Close(w)
	}
	return len(r.TransferEncoding) == 0
}

// serveStart answers before the office does: it reports what the start does.
func (f *Front) serveStart(w http.ResponseWriter, r *http.Request) {
	if r.URL.Path != "/healthz" {
		api.Refuse(w, api.Unavailable)
		return
	}
	stage, _ := f.stage.Load().(string)
	api.Health{Why: "starting: " + stage}.Reply(w)
}

// serveHealth reports the condition of the office. Strangers learn no more than what doesn't work.
func (f *Front) serveHealth(w http.ResponseWriter, r *http.Request) {
	health := f.office.Health()
	if f.guard != nil && !f.guard.Knows(r) {
		health = health.Discreet()
	}
	health.Reply(w)
}

// answer answers a request of a caller, or of anybody if there is no visit.
func (f *Front) answer(w http.ResponseWriter, r *http.Request, visit *callers.Visit) {
	if f.HasMetrics && r.RequestURI == "/metrics" && (r.Method == http.MethodGet || r.Method == http.MethodHead) {
		f.answerMetrics(w, r, visit)
		return
	}
	f.endpoints.Serve(w, r, visit)
}

// denied notes that a caller may not do what it asks for. What it still sends may come late.
func (f *Front) denied(r *http.Request, visit *callers.Visit, call *api.Call) {
	web.Refused(r.Context())
	f.note(r, visit.Caller, errDenied, api.Forbidden, call)
}

// answerMetrics reports the metrics to a caller who may read them.
func (f *Front) answerMetrics(w http.ResponseWriter, r *http.Request, visit *callers.Visit) {
	if err := visit.May(&api.Call{Function: callers.Metrics}); err != nil {
		f.refuse(w, r, visit.Name(), errDenied, api.RefusalOf(err))
		return
	}
	f.metrics.ServeHTTP(w, r)
}

// areOwn reports whether all origins of a request are those of the front's pages.
func (f *Front) areOwn(origins []string) bool {
	for _, origin := range origins {
		if !f.origins[origin] {
			return false
		}
	}
	return len(origins) > 0
}

// isOwnPage reports whether a page of the front itself has sent a request: its origin is where the request was sent to, and no other
// site can have made that name mean this machine. Either the name belongs to the machine, or the certificate vouches for it, or the
// request has a token, which a browser doesn't send by itself.
func isOwnPage(r *http.Request, origins []string) bool {
	scheme := "http://"
	if r.TLS != nil {
		scheme = "https://"
	}
	if len(origins) != 1 || r.Host == "" || !strings.EqualFold(origins[0], scheme+r.Host) {
		return false
	}
	return r.TLS != nil || isLocalHost(r.Host) || len(r.Header["Authorization"]) > 0
}

// isLocalHost reports whether a Host is a name of this machine that no other name can be made to mean. A request without one
// does not come from a browser.
func isLocalHost(host string) bool {
	if host == "" {
		return true
	}
	name := host
	if before, _, err := net.SplitHostPort(host); err == nil {
		name = before
	}
	name = strings.TrimSuffix(strings.TrimPrefix(name, "["), "]")
	if strings.EqualFold(name, "localhost") {
		return true
	}
	ip := net.ParseIP(name)
	return ip != nil && ip.IsLoopback()
}
