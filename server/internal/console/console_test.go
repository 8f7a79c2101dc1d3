package console

import (
	"net/http"
	"net/http/httptest"
	"testing"
)

func TestServe(t *testing.T) {
	for _, one := range []struct {
		name, method, path string
		status             int
	}{
		{"the document", http.MethodGet, "/console/", http.StatusOK},
		{"a module", http.MethodGet, "/console/app.js", http.StatusOK},
		{"without the slash", http.MethodGet, "/console", http.StatusMovedPermanently},
		{"a folder above", http.MethodGet, "/console/../console.go", http.StatusNotFound},
		{"the folder", http.MethodGet, "/console/.", http.StatusNotFound},
		{"no such file", http.MethodGet, "/console/none.js", http.StatusNotFound},
		{"another method", http.MethodPost, "/console/", http.StatusMethodNotAllowed},
	} {
		t.Run(one.name, func(t *testing.T) {
			w := httptest.NewRecorder()
			r := httptest.NewRequest(one.method, "/", nil)
			r.URL.Path = one.path
			if !Has(r) {
				t.Fatal("the path isn't that of the console")
			}
			Serve(w, r)
			if w.Code != one.status {
				t.Errorf("%d and not %d", w.Code, one.status)
			}
			if w.Header().Get("Content-Security-Policy") != policy {
				t.Error("there is no policy")
			}
		})
	}
}
