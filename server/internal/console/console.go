// Package console has the pages for the people who administer an office and for those who audit it. They are files of HTML, CSS and
// JavaScript, the same for everybody. What a page shows it asks the front for, with the token or the certificate of its user.
package console

import (
	"embed"
	"io/fs"
	"mime"
	"net/http"
	"path"
	"strings"
)

const (
	// Path is where the pages are.
	Path = "/console/"
	// policy lets a page load nothing from elsewhere, run no script but its own files, and be in no frame.
	policy = "default-src 'self'; frame-ancestors 'none'; base-uri 'none'; form-action 'self'; img-src 'self' blob:"
)

//go:embed site
var site embed.FS

// Has reports whether a request is for a file of the console, or reads the root, which leads there.
func Has(r *http.Request) bool {
	if r.URL.Path == "/" {
		return r.Method == http.MethodGet || r.Method == http.MethodHead
	}
	return r.URL.Path == strings.TrimSuffix(Path, "/") || strings.HasPrefix(r.URL.Path, Path)
}

// Serve answers a request with a file, and returns the status.
func Serve(w http.ResponseWriter, r *http.Request) int {
	header := w.Header()
	header.Set("Content-Security-Policy", policy)
	header.Set("X-Content-Type-Options", "nosniff")
	header.Set("Cache-Control", "no-store")
	header.Set("Referrer-Policy", "no-referrer")
	header.Set("Cross-Origin-Opener-Policy", "same-origin")
	header.Set("Cross-Origin-Resource-Policy", "same-origin")
	header.Set("X-Frame-Options", "DENY") // For browsers that don't read the policy.
	if r.Method != http.MethodGet && r.Method != http.MethodHead {
		header.Set("Allow", "GET, HEAD")
		return fail(w, http.StatusMethodNotAllowed)
	}
	if !strings.HasPrefix(r.URL.Path, Path) {
		header.Set("Location", Path)
		return fail(w, http.StatusMovedPermanently)
	}
	name := strings.TrimPrefix(r.URL.Path, Path)
	if name == "" {
		name = "index.html"
	}
	text, err := fs.ReadFile(site, "site/"+name)
	if err != nil {
		return fail(w, http.StatusNotFound)
	}
	header.Set("Content-Type", typeOf(name))
	_, _ = w.Write(text) // If it fails, the client is gone.
	return http.StatusOK
}

func fail(w http.ResponseWriter, status int) int {
	w.Header().Set("Content-Type", "text/plain; charset=utf-8")
	w.WriteHeader(status)
	_, _ = w.Write([]byte(http.StatusText(status) + "\n"))
	return status
}

// typeOf returns the type of a file's content, whatever the machine knows of types.
func typeOf(name string) string {
	switch path.Ext(name) {
	case ".js":
		return "text/javascript; charset=utf-8"
	case ".css":
		return "text/css; charset=utf-8"
	case ".html":
		return "text/html; charset=utf-8"
	case ".svg":
		return "image/svg+xml"
	}
	return mime.TypeByExtension(path.Ext(name))
}
