package rbacclient

import (
	"context"
	"io"
	"log"
	"net/http"
	"net/http/httptest"
	"sync/atomic"
	"testing"
	"time"
)

// TestHangingRenewal checks that a caller waits for a renewal only until its own context ends, and that Name never waits.
func TestHangingRenewal(t *testing.T) {
	var opened atomic.Int32
	over := make(chan struct{})
	s := httptest.NewServer(http.HandlerFunc(func(w http.ResponseWriter, r *http.Request) {
		switch {
		case r.URL.Path != "/sessions":
			w.WriteHeader(http.StatusConflict)
			_, _ = io.WriteString(w, `{"code":26,"error":"NoSession"}`)
		case opened.Add(1) == 1:
			_, _ = io.WriteString(w, `{"ok":true,"value":{"left":[],"roles":["boss"],"session":"s1"}}`)
		default:
			<-over
		}
	}))
	defer s.Close()
	defer close(over)
	office, err := New(Config{Addresses: []string{s.URL}, Timeout: 20 * time.Second, Log: log.New(io.Discard, "", 0)})
	if err != nil {
		t.Fatal(err)
	}
	ctx, cancel := context.WithCancel(context.Background())
	defer cancel()
	session, err := office.OpenSession(ctx, SessionConfig{User: "ann", Renew: true})
	if err != nil {
		t.Fatal(err)
	}
	first := make(chan Decision, 1)
	go func() { first <- session.Check(ctx, "open", "safe") }()
	for opened.Load() < 2 {
		time.Sleep(time.Millisecond)
	}
	short, cancelShort := context.WithTimeout(ctx, 100*time.Millisecond)
	defer cancelShort()
	if decision := session.Check(short, "open", "safe"); decision.Reason != Unanswered {
		t.Errorf("the decision of who waits: %v", decision)
	}
	if name := session.Name(); name != "s1" || len(session.Roles()) != 1 {
		t.Errorf("the name is %s", name)
	}
	select {
	case decision := <-first:
		t.Fatalf("they have waited for the renewal: %v", decision)
	default:
	}
	cancel()
	if decision := <-first; decision.Reason != Unanswered || opened.Load() != 2 {
		t.Errorf("the first decision: %v, %d requests for a session", decision, opened.Load())
	}
	if office.Counts()[Unanswered] != 1 {
		t.Errorf("the cancelled decision is counted: %v", office.Counts())
	}
}
