package main

import (
	"fmt"
	"net"
	"net/http"
	"path/filepath"
	"strings"
	"testing"
)

func TestAskHealth(t *testing.T) {
	cases := map[string]struct {
		status int
		body   string
		want   string
	}{
		"ready":     {http.StatusOK, `{"ready":true}`, ""},
		"not ready": {http.StatusServiceUnavailable, `{"ready":false}`, `503 Service Unavailable: {"ready":false}`},
		"no front":  {http.StatusNotFound, "", "404 Not Found: "},
	}
	for name, one := range cases {
		t.Run(name, func(t *testing.T) {
			socket := filepath.Join(t.TempDir(), "socket")
			listener, err := net.Listen("unix", socket)
			if err != nil {
				t.Fatal(err)
			}
			var asked string
			server := http.Server{Handler: http.HandlerFunc(func(w http.ResponseWriter, r *http.Request) {
				asked = r.Method + " " + r.URL.Path
				w.WriteHeader(one.status)
				fmt.Fprint(w, one.body)
			})}
			go server.Serve(listener)
			defer server.Close()
			got := ""
			if err := askHealth(socket); err != nil {
				got = err.Error()
			}
			if got != one.want || asked != "GET /healthz" {
				t.Errorf("askHealth: %q after %q, want %q", got, asked, one.want)
			}
		})
	}
	t.Run("nobody listens", func(t *testing.T) {
		err := askHealth(filepath.Join(t.TempDir(), "socket"))
		if err == nil || !strings.Contains(err.Error(), "no such file") {
			t.Errorf("askHealth: %v, want no such file", err)
		}
	})
}
