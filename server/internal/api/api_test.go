package api

import (
	"errors"
	"net/http"
	"net/http/httptest"
	"strings"
	"testing"
	"time"

	"rbac-node/internal/boottime"
)

// The time of an answer is not after that of its age, if the process is paused before the answer is written.
func TestPausedAnswer(t *testing.T) {
	var reckoned time.Time
	server := httptest.NewServer(http.HandlerFunc(func(w http.ResponseWriter, _ *http.Request) {
		Point{Revision: 1, Newest: boottime.Now()}.SetHead(w.Header())
		reckoned = time.Now()
		time.Sleep(1100 * time.Millisecond) // The time has whole seconds.
	}))
	defer server.Close()
	reply, err := server.Client().Get(server.URL)
	if err != nil {
		t.Fatal(err)
	}
	defer reply.Body.Close()
	at, err := http.ParseTime(reply.Header.Get("Date"))
	if err != nil || at.After(reckoned) {
		t.Errorf("%v is after %v, %v", at, reckoned, err)
	}
}

func TestRead(t *testing.T) {
	for _, one := range []struct {
		method, target, body string
		status               int
	}{
		{"POST", "/v1/addUser", `{"user":"ann"}`, 0},
		{"POST", "/v1/addUser?x", `{"user":"ann"}`, http.StatusNotFound},
		{"POST", "/v1/addUser/", `{"user":"ann"}`, http.StatusNotFound},
		{"POST", "/v1/fly", `{"user":"ann"}`, http.StatusNotFound},
		{"GET", "/v1/fly", "", http.StatusNotFound},
		{"GET", "/v1/addUser", "{}", http.StatusMethodNotAllowed},
		{"POST", "/v1/addUser", "[]", http.StatusBadRequest},
		{"POST", "/v1/addUser", `{"user":"` + strings.Repeat("a", MaxBodyBytes) + `"}`, http.StatusRequestEntityTooLarge},
		{"POST", "/v1/addUser", `{"user":"` + strings.Repeat("a", MaxBodyBytes-11) + `"}`, http.StatusRequestEntityTooLarge},
		{"POST", "/v1/importAssignments", strings.Repeat("a", MaxBodyBytes+1), http.StatusRequestEntityTooLarge},
		{"POST", "/v1/importAssignments", strings.Repeat("a", MaxLineBytes-100), 0},
	} {
		request := httptest.NewRequest(one.method, one.target, strings.NewReader(one.body))
		name, _, err := FunctionOf(request)
		if err == nil {
			_, err = ReadCall(request, name)
		}
		var r Refusal
		status := 0
		if errors.As(err, &r) {
			status = r.Status
		}
		if status != one.status {
			t.Errorf("%s %s %.20s: %d and not %d", one.method, one.target, one.body, status, one.status)
		}
	}
}

func TestStatusOf(t *testing.T) {
	for answer, status := range map[string]int{
		`{"ok":true}`:                                       200,
		`{"ok":true,"value":false}`:                         200,
		`{"code":1,"error":"BadName"}`:                      400,
		`{"code":34,"error":"BadRequest"}`:                  400,
		`{"code":36,"error":"BadCsv","record":2}`:           400,
		`{"code":35,"error":"UnknownFunction"}`:             404,
		`{"code":2,"error":"NoUser"}`:                       409,
		`{"code":24,"error":"StaticSeparation","set":"ok"}`: 409,
	} {
		if given := StatusOf([]byte(answer)); given != status {
			t.Errorf("%s: %d and not %d", answer, given, status)
		}
	}
}
