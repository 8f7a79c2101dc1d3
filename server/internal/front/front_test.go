package front

import (
	"bytes"
	"context"
	"crypto/sha256"
	"fmt"
	"io"
	"net/http/httptest"
	"os"
	"path/filepath"
	"strings"
	"testing"
	"time"

	"github.com/prometheus/client_golang/prometheus"

	"rbac-node/internal/api"
	"rbac-node/internal/callers"
	"rbac-node/internal/endpoints"
	"rbac-node/internal/logs"
	"rbac-node/internal/state"
)

// An echo is an office that answers each call with its line, and the opening question with nothing special.
type echo struct {
	endpoints.Office
	asked  []string
	health api.Health
}

func (e *echo) Do(_ context.Context, b api.Batch) (api.Answers, error) {
	e.asked = append(e.asked, string(b.Calls[0].Line))
	return api.Answers{Texts: [][]byte{[]byte(`{"ok":true}`)}}, nil
}

func (e *echo) Await(context.Context, api.Kind) (api.Point, error) { return api.Point{}, nil }

func (e *echo) State() *state.State { return nil }

func (e *echo) IsReady() bool { return true }

func (e *echo) Health() api.Health { return e.health }

func (e *echo) Settle(context.Context) error { return nil }

const rules = `{"fn":"addUser","user":"token:desk"}
{"fn":"addUser","user":"unix:0"}
{"fn":"addRole","role":"desks"}
{"fn":"assignUser","user":"token:desk","role":"desks"}
{"fn":"addPermObj","object":"role clerk"}
{"fn":"addPermission","object":"role clerk","operation":"assignUser"}
{"fn":"grantPermission","object":"role clerk","operation":"assignUser","role":"desks"}
`

// withMetrics also lets the desk read the metrics.
const withMetrics = rules + `{"fn":"addPermObj","object":"office"}
{"fn":"addPermission","object":"office","operation":"metrics"}
{"fn":"grantPermission","object":"office","operation":"metrics","role":"desks"}
`

// newFront returns a front, open if there are no rules, and what it logs.
func newFront(t *testing.T, rules string, change func(*Options)) (*Front, *echo, *bytes.Buffer) {
	t.Helper()
	log, folder := &bytes.Buffer{}, t.TempDir()
	options := Options{
		IsHostChecked: true, HasMetrics: true, Connections: 10, CallerRequests: 64, AnswerTimeout: time.Minute, Log: logs.New(log), Metrics: prometheus.NewRegistry(),
		Origins: []string{"https://console.example"},
	}
	if rules != "" {
		options.Callers = callers.Options{
			Files: callers.Files{Callers: write(t, folder, "callers", rules), Tokens: write(t, folder, "tokens", sumOf("secret")+" desk\n")},
			Log:   options.Log,
		}
		options.Refused = filepath.Join(folder, "refused")
	}
	if change != nil {
		change(&options)
	}
	f, err := New(context.Background(), options)
	if err != nil {
		t.Fatal(err)
	}
	t.Cleanup(f.Close)
	office := &echo{health: api.Health{Ready: true}}
	f.Serve(context.Background(), func(func() error) {}, office)
	return f, office, log
}

func write(t *testing.T, folder, name, text string) string {
	t.Helper()
	path := filepath.Join(folder, name)
	if err := os.WriteFile(path, []byte(text), 0o600); err != nil {
		t.Fatal(err)
	}
	return path
}

func sumOf(token string) string { return fmt.Sprintf("%x", sha256.Sum256([]byte(token))) }

const (
	clerk  = `{"user":"ann","role":"clerk"}`
	boss   = `{"user":"ann","role":"boss"}`
	assign = "/v1/assignUser"
)

func TestRequests(t *testing.T) {
	type head map[string]string
	token := head{"Authorization": "Bearer secret"}
	for _, test := range []struct {
		name, rules, method, target, body string
		head                              head
		status                            int
		says                              string
	}{
		{"open", "", "POST", assign, clerk, nil, 200, `{"ok":true}`},
		{"open, local host", "", "POST", assign, clerk, head{"Host": "LocalHost:8080"}, 200, `{"ok":true}`},
		{"open, loopback address", "", "POST", assign, clerk, head{"Host": "127.8.9.1"}, 200, `{"ok":true}`},
		{"open, loopback address of IPv6", "", "POST", assign, clerk, head{"Host": "[::1]:8080"}, 200, `{"ok":true}`},
		{"open, no host", "", "POST", assign, clerk, head{"Host": ""}, 200, `{"ok":true}`},
		{"open, another host", "", "POST", assign, clerk, head{"Host": "evil.example"}, 421, `{"code":66,"error":"ForeignHost"}`},
		{"open, a host that begins with localhost", "", "POST", assign, clerk, head{"Host": "localhost.evil.example"}, 421, "ForeignHost"},
		{"open, a host that looks like an address", "", "POST", assign, clerk, head{"Host": "127.0.0.1.evil.example"}, 421, "ForeignHost"},
		{"open, another address", "", "POST", assign, clerk, head{"Host": "192.168.1.1"}, 421, "ForeignHost"},
		{"open, health of another host", "", "GET", "/healthz", "", head{"Host": "evil.example"}, 421, "ForeignHost"},
		{"open, a foreign origin", "", "POST", assign, clerk, head{"Origin": "https://evil.example"}, 403, `{"code":65,"error":"ForeignOrigin"}`},
		{"open, the origin null", "", "POST", assign, clerk, head{"Origin": "null"}, 403, "ForeignOrigin"},
		{"open, an empty origin", "", "POST", assign, clerk, head{"Origin": ""}, 403, "ForeignOrigin"},
		{"open, an origin on this machine", "", "POST", assign, clerk, head{"Origin": "http://localhost:1"}, 403, "ForeignOrigin"},
		{"open, a page of the front itself", "", "POST", assign, clerk, head{"Origin": "http://localhost"}, 200, `{"ok":true}`},
		{"open, an own origin", "", "POST", assign, clerk, head{"Origin": "https://console.example"}, 200, `{"ok":true}`},
		{"open, an own origin in another case", "", "POST", assign, clerk, head{"Origin": "https://Console.example"}, 403, "ForeignOrigin"},
		{"open, a question about an origin", "", "OPTIONS", assign, "", head{"Origin": "https://evil.example"}, 403, "ForeignOrigin"},
		{"open, health", "", "GET", "/healthz", "", nil, 200, `{"ready":true}`},
		{"open, metrics", "", "GET", "/metrics", "", nil, 200, "rbac_node_open 1\n"},
		{"open, POST of the metrics", "", "POST", "/metrics", "{}", nil, 404, "UnknownFunction"},
		{"no identity", rules, "POST", assign, clerk, nil, 401, `{"code":62,"error":"Unauthorized"}`},
		{"a wrong token", rules, "POST", assign, clerk, head{"Authorization": "Bearer secre"}, 401, "Unauthorized"},
		{"no identity and no function", rules, "POST", "/v1/fly", "{}", nil, 401, "Unauthorized"},
		{"health without identity", rules, "GET", "/healthz", "", nil, 200, `{"ready":true}`},
		{"health with a wrong token", rules, "GET", "/healthz", "", head{"Authorization": "x"}, 200, `{"ready":true}`},
		{"metrics without identity", rules, "GET", "/metrics", "", nil, 401, "Unauthorized"},
		{"metrics without the right", rules, "GET", "/metrics", "", token, 403, "Forbidden"},
		{"metrics with the right", withMetrics, "GET", "/metrics", "", token, 200, "rbac_node_open 0\n"},
		{"another target with health in it", rules, "GET", "/healthz/../v1/addUser", "", nil, 401, "Unauthorized"},
		{"what the caller may do", rules, "POST", assign, clerk, token, 200, `{"ok":true}`},
		{"any host", rules, "POST", assign, clerk, head{"Authorization": "Bearer secret", "Host": "rbac.example"}, 200, `{"ok":true}`},
		{"what the caller may not do", rules, "POST", assign, boss, token, 403, `{"code":63,"error":"Forbidden"}`},
		{"a body that can't be read", rules, "POST", assign, "x", token, 400, "BadRequest"},
		{"a function that doesn't exist", rules, "POST", "/v1/fly", "{}", token, 404, "UnknownFunction"},
		{"another method", rules, "GET", assign, "", token, 405, "BadRequest"},
		{"a foreign origin with a token", rules, "POST", assign, clerk, head{"Authorization": "Bearer secret", "Origin": "http://a"}, 403, "ForeignOrigin"},
		{"health for a foreign origin", rules, "GET", "/healthz", "", head{"Origin": "http://a"}, 403, "ForeignOrigin"},
	} {
		t.Run(test.name, func(t *testing.T) {
			f, office, _ := newFront(t, test.rules, nil)
			r := httptest.NewRequest(test.method, test.target, strings.NewReader(test.body))
			r.Host = "localhost"
			r.Header.Set("Content-Length", fmt.Sprint(len(test.body)))
			for name, value := range test.head {
				if name == "Host" {
					r.Host = value
				} else {
					r.Header[name] = []string{value}
				}
			}
			w := httptest.NewRecorder()
			f.ServeHTTP(w, r)
			if w.Code != test.status || !strings.Contains(w.Body.String(), test.says) {
				t.Errorf("%d %s", w.Code, w.Body)
			}
			if done := len(office.asked) > 0; done != (test.status == 200 && test.method == "POST") {
				t.Errorf("the office was asked %q", office.asked)
			}
			if isNoted := noted(f, w.Code); test.rules != "" && !isNoted && (w.Code == 401 || w.Code == 403) {
				t.Error("it isn't noted")
			}
		})
	}
}

// Who doesn't show who asks learns that something doesn't work, and no paths.
func TestHealth(t *testing.T) {
	fails, isFull := api.Health{Why: "open /var/lib/x"}, api.Health{Ready: true, Record: "/x is full"}
	for _, test := range []struct {
		name, rules, token string
		health             api.Health
		want               string
	}{
		{"a stranger", rules, "", fails, `{"ready":false,"why":"the office doesn't answer"}`},
		{"a wrong token", rules, "x", isFull, `{"ready":true,"record":"commands can't be recorded"}`},
		{"a stranger, and nothing is wrong", rules, "", api.Health{Ready: true}, `{"ready":true}`},
		{"a caller", rules, "secret", fails, `{"ready":false,"why":"open /var/lib/x"}`},
		{"anybody, if that may do everything", "", "", fails, `{"ready":false,"why":"open /var/lib/x"}`},
	} {
		f, office, _ := newFront(t, test.rules, nil)
		office.health = test.health
		r := httptest.NewRequest("GET", "/healthz", nil)
		r.Host = "localhost"
		if test.token != "" {
			r.Header.Set("Authorization", "Bearer "+test.token)
		}
		w := httptest.NewRecorder()
		f.ServeHTTP(w, r)
		if given := strings.TrimSpace(w.Body.String()); given != test.want {
			t.Errorf("%s: %s and not %s", test.name, given, test.want)
		}
	}
}

// A body that isn't small isn't read if no call of the function may be done.
func TestUnread(t *testing.T) {
	f, office, _ := newFront(t, rules, nil)
	for function, isRead := range map[string]bool{"addUser": false, "assignUser": true} {
		body := strings.NewReader(strings.Repeat(" ", api.SmallBody) + clerk)
		r := httptest.NewRequest("POST", "/v1/"+function, body)
		r.Header.Set("Authorization", "Bearer secret")
		w := httptest.NewRecorder()
		f.ServeHTTP(w, r)
		if (w.Code == 200) != isRead || (body.Len() == 0) != isRead {
			t.Errorf("%s: %d, and %d bytes are left", function, w.Code, body.Len())
		}
	}
	if len(office.asked) != 1 {
		t.Errorf("the office was asked %q", office.asked)
	}
}

// A request of AuthZEN keeps its number, whatever is answered.
func TestRequestNumber(t *testing.T) {
	f, _, _ := newFront(t, rules, nil)
	for path, want := range map[string]string{"/access/v1/evaluation": "n 7", assign: ""} {
		r := httptest.NewRequest("POST", path, strings.NewReader("{}"))
		r.Header.Set("X-Request-ID", "n 7")
		w := httptest.NewRecorder()
		f.ServeHTTP(w, r)
		if given := w.Header().Get("X-Request-ID"); w.Code != 401 || given != want {
			t.Errorf("%s: %d with %q", path, w.Code, given)
		}
	}
}

// noted reports whether the journal has a line with a status, in one of its files.
func noted(f *Front, status int) bool {
	callers, _ := os.ReadFile(f.Refused)
	others, _ := os.ReadFile(f.Refused + ".unknown")
	return strings.Contains(string(callers)+string(others), fmt.Sprintf(`"status":%d`, status))
}

func TestReload(t *testing.T) {
	f, office, log := newFront(t, rules, nil)
	ask := func(body string) int {
		r := httptest.NewRequest("POST", assign, strings.NewReader(body))
		r.Header.Set("Authorization", "Bearer secret")
		w := httptest.NewRecorder()
		f.ServeHTTP(w, r)
		return w.Code
	}
	for _, test := range []struct {
		name, rules string
		clerk, boss int
		isRefused   bool
		says        string
	}{
		{"the same", rules, 200, 403, false, "the callers are in force"},
		{"a bad line", rules + "x\n", 200, 403, true, ":8: BadRequest"},
		{"another bad line", rules + `{"fn":"fly"}`, 200, 403, true, ":8: UnknownFunction"},
		{"other rights", strings.ReplaceAll(rules, "role clerk", "role boss"), 403, 200, false, "the callers are in force"},
		{"no rights", "", 403, 403, false, "the callers are in force"},
		{"as before", rules, 200, 403, false, "the callers are in force"},
	} {
		t.Run(test.name, func(t *testing.T) {
			if err := os.WriteFile(f.Callers.Callers, []byte(test.rules), 0o600); err != nil {
				t.Fatal(err)
			}
			log.Reset()
			before := len(office.asked)
			f.reload(context.Background())
			if !strings.Contains(log.String(), test.says) {
				t.Errorf("the log: %s", log)
			}
			if asked := len(office.asked) > before; asked == test.isRefused {
				t.Errorf("the office was asked: %v", asked)
			}
			if given := [2]int{ask(clerk), ask(boss)}; given != [2]int{test.clerk, test.boss} {
				t.Errorf("%v", given)
			}
			if since := f.refusedAt.Load(); (since > 0) != test.isRefused {
				t.Errorf("refused since %v", since)
			}
		})
	}
}

func TestAddresses(t *testing.T) {
	folder := t.TempDir()
	for _, test := range []struct {
		name, text string
		isLocal    bool
		says       string
	}{
		{"loopback", "127.0.0.1:0", true, ""},
		{"another loopback address", "127.1.2.3:0", true, ""},
		{"a name", "localhost:0", true, ""},
		{"a socket", "unix:" + folder + "/a/socket", true, ""},
		{"all addresses", ":0", false, ""},
		{"all addresses by their name", "0.0.0.0:0", false, ""},
		{"another machine's", "192.0.2.1:0", false, "listen"},
		{"no port", "127.0.0.1", false, "listen"},
		{"no path", "unix:", false, "listen"},
		{"a folder that can't be made", "unix:" + folder + "/b/c/socket", true, "listen"},
		{"a path that is too long", "unix:" + folder + "/" + strings.Repeat("x", 100), true, "listen"},
		{"a file", "unix:" + write(t, folder, "file", ""), true, "is no socket"},
	} {
		t.Run(test.name, func(t *testing.T) {
			addresses, err := ParseAddresses(test.text)
			if err == nil {
				if addresses[0].IsLocal() != test.isLocal {
					t.Errorf("it is local: %v", !test.isLocal)
				}
				var listener io.Closer
				if listener, err = addresses[0].listen(); err == nil {
					defer listener.Close()
				}
			}
			if test.says == "" && err != nil || test.says != "" && (err == nil || !strings.Contains(err.Error(), test.says)) {
				t.Errorf("%v and not %q", err, test.says)
			}
		})
	}
}

func TestSocket(t *testing.T) {
	path := filepath.Join(t.TempDir(), "run", "socket")
	address := Address{Network: unix, Place: path}
	listener, err := address.listen()
	if err != nil {
		t.Fatal(err)
	}
	for name, want := range map[string]os.FileMode{path: 0o660, filepath.Dir(path): 0o750} {
		if about, err := os.Stat(name); err != nil || about.Mode().Perm() != want {
			t.Errorf("%s: %v, %v", name, about.Mode(), err)
		}
	}
	if _, err := address.listen(); err == nil || !strings.Contains(err.Error(), "another program listens") {
		t.Errorf("twice: %v", err)
	}
	// What a crash leaves.
	keep, ok := listener.(interface{ SetUnlinkOnClose(bool) })
	if !ok {
		t.Fatal("it is no socket")
	}
	keep.SetUnlinkOnClose(false)
	_ = listener.Close()
	if listener, err = address.listen(); err != nil {
		t.Fatal(err)
	}
	_ = listener.Close()
	if _, err := os.Stat(path); err == nil {
		t.Error("the socket is left")
	}
}

// While the office starts, nothing but the reason is answered.
func TestStart(t *testing.T) {
	f, err := New(context.Background(), Options{Connections: 10, Log: logs.New(io.Discard), Metrics: prometheus.NewRegistry()})
	if err != nil {
		t.Fatal(err)
	}
	t.Cleanup(f.Close)
	nobody := func(func() error) {}
	f.Begin(nobody)
	f.Say("command 7 of 9")
	for target, says := range map[string]string{
		"/healthz": `{"ready":false,"why":"starting: command 7 of 9"}`, assign: `{"code":60,"error":"Unavailable"}`, "/metrics": `"Unavailable"`,
	} {
		w := httptest.NewRecorder()
		f.ServeHTTP(w, httptest.NewRequest("POST", target, strings.NewReader(clerk)))
		if w.Code != 503 || !strings.Contains(w.Body.String(), says) {
			t.Errorf("%s: %d %s", target, w.Code, w.Body)
		}
	}
	f.Serve(context.Background(), nobody, &echo{})
	w := httptest.NewRecorder()
	f.ServeHTTP(w, httptest.NewRequest("POST", assign, strings.NewReader(clerk)))
	if w.Code != 200 {
		t.Errorf("%d %s", w.Code, w.Body)
	}
}
