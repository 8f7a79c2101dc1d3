package record

import (
	"context"
	"fmt"
	"net/http"
	"net/http/httptest"
	"path/filepath"
	"strings"
	"testing"
)

// A front that somebody else has taken over answers the machine that signs with what a terminal would obey: none of it is shown.
func TestSignShowsNothingThatATerminalObeys(t *testing.T) {
	const hostile = "\x1b]0;owned\x07\u009b2J\u202e"
	for _, one := range []struct {
		status int
		body   string
	}{{500, hostile}, {200, hostile}, {200, fmt.Sprintf(`{"ok":true,"value":{"head":%s}}`, quoted(hostile))}} {
		front := httptest.NewServer(http.HandlerFunc(func(w http.ResponseWriter, _ *http.Request) {
			w.WriteHeader(one.status)
			_, _ = w.Write([]byte(one.body))
		}))
		s := Signer{URL: front.URL, Client: front.Client(), Heads: filepath.Join(t.TempDir(), "heads"), IsFirst: true}
		err := s.Sign(context.Background())
		front.Close()
		if err == nil || strings.ContainsAny(err.Error(), "\x1b\x07\u009b\u202e") {
			t.Errorf("%d %q: %q", one.status, one.body, err)
		}
	}
}
