package endpoints

import (
	"context"
	"io"
	"net"
	"net/http"
	"net/http/httptest"
	"strings"
	"testing"
	"time"

	"github.com/prometheus/client_golang/prometheus"

	"rbac-node/internal/api"
	"rbac-node/internal/boottime"
)

// A fakeOffice accepts everything, and remembers it.
type fakeOffice struct {
	Office
	lines  []string
	newest boottime.Moment
}

func (f *fakeOffice) Do(_ context.Context, b api.Batch) (api.Answers, error) {
	f.lines = append(f.lines, string(b.Kind)+" "+string(b.Calls[0].Line))
	return api.Answers{Texts: [][]byte{[]byte(`{"ok":true}`)}, Point: api.Point{Newest: f.newest}}, nil
}

// said returns all that a server answers to some bytes until it closes the connection.
func said(t *testing.T, office Office, text string) string {
	e := New(context.Background(), office, Options{Metrics: prometheus.NewRegistry()})
	server := httptest.NewServer(http.HandlerFunc(func(w http.ResponseWriter, r *http.Request) { e.Serve(w, r, nil) }))
	defer server.Close()
	conn, err := net.Dial("tcp", server.Listener.Addr().String())
	if err != nil {
		t.Fatal(err)
	}
	defer conn.Close()
	if _, err := io.WriteString(conn, text); err != nil {
		t.Fatal(err)
	}
	_ = conn.SetDeadline(time.Now().Add(20 * time.Second))
	given, err := io.ReadAll(conn)
	if err != nil {
		t.Fatalf("after %q: %v", given, err)
	}
	return string(given)
}

const command = "POST /v1/addUser HTTP/1.1\r\nHost: a\r\nContent-Length: 14\r\n\r\n{\"user\":\"ann\"}"

// After a request that is refused with 501 the connection is closed: what follows may be meant as its body.
func TestSmuggledRequest(t *testing.T) {
	office := &fakeOffice{}
	given := said(t, office, "POST /v1/addUser HTTP/1.1\r\nHost: a\r\nContent-Length: 5\r\nTransfer-Encoding: chunked\r\n\r\n0\r\n\r\n"+command)
	if strings.Count(given, "HTTP/1.1") != 1 || !strings.HasPrefix(given, "HTTP/1.1 501 ") || len(office.lines) > 0 {
		t.Errorf("%v, %s", office.lines, given)
	}
}

// Office-Age is what has passed since the state was the newest one.
func TestAge(t *testing.T) {
	office := &fakeOffice{newest: boottime.Now() - boottime.Moment(3*time.Second)}
	given := said(t, office, "POST /v1/ssdRoleSets HTTP/1.1\r\nHost: a\r\nConsistency: local\r\nConnection: close\r\nContent-Length: 0\r\n\r\n")
	if !strings.Contains(given, "Office-Age: 3.") || len(office.lines) != 1 || office.lines[0] != `local {"fn":"ssdRoleSets"}` {
		t.Errorf("%v, %s", office.lines, given)
	}
}

// Keys that the office ignores don't get into the log.
func TestIgnoredKeys(t *testing.T) {
	office := &fakeOffice{}
	said(t, office, strings.NewReplacer("14", "81", "Host", "Connection: close\r\nHost", `"ann"`, `"ann","x":"`+strings.Repeat("y", 60)+`"`).Replace(command))
	if len(office.lines) != 1 || office.lines[0] != `command {"fn":"addUser","user":"ann"}` {
		t.Errorf("%v", office.lines)
	}
}
