package rbacclient

import (
	"context"
	"net/http"
	"net/http/httptest"
	"testing"
	"time"
)

// TestGuard passes a request on only after a decision that allows.
func TestGuard(t *testing.T) {
	s := serve(t)
	office, err := New(Config{Addresses: []string{s.address()}, Pause: time.Hour})
	if err != nil {
		t.Fatal(err)
	}
	passed := http.HandlerFunc(func(w http.ResponseWriter, _ *http.Request) { w.WriteHeader(http.StatusTeapot) })
	need := func(*http.Request) *Need { return &Need{Operation: "open", Object: "safe"} }
	session := func(*http.Request) string { return "s1" }
	status := func(handler http.Handler) int {
		recorder := httptest.NewRecorder()
		handler.ServeHTTP(recorder, httptest.NewRequest(http.MethodGet, "/", nil))
		return recorder.Code
	}
	for _, test := range []struct {
		answer string
		status int
	}{{right, http.StatusTeapot}, {denied, http.StatusForbidden}, {"", http.StatusServiceUnavailable}} {
		s.set(test.answer, false)
		if got := status(office.Guard(passed, need, session)); got != test.status {
			t.Errorf("the answer %q: status %d, want %d", test.answer, got, test.status)
		}
		s.set(test.answer, false)
		if got := status(office.GuardByUser(passed, need, func(*http.Request) string { return "ann" })); got != test.status {
			t.Errorf("the answer %q about a user: status %d, want %d", test.answer, got, test.status)
		}
		if requests, _ := s.set(test.answer, false); len(requests) != 1 || requests[0].URL.Path != "/v1/decideByUser" {
			t.Errorf("the requests about a user: %v", requests)
		}
	}
	if got := status(office.GuardByUser(passed, need, func(*http.Request) string { return "" })); got != http.StatusUnauthorized {
		t.Errorf("no user: status %d", got)
	}
	nothing := func(context.Context, string, string, string) Decision { return Decision{} }
	if got := status(NewGuard(nothing, passed, need, session)); got != http.StatusServiceUnavailable {
		t.Errorf("a decision without a reason: status %d", got)
	}
	if got := status(office.Guard(passed, need, func(*http.Request) string { return "" })); got != http.StatusUnauthorized {
		t.Errorf("no session: status %d", got)
	}
}
