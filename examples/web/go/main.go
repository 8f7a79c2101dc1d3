// Command app has a bank's pages. RBAC is the address of the office, RBAC_TOKEN the application's token, if it needs one.
package main

import (
	"fmt"
	"log"
	"net"
	"net/http"
	"os"
	"sync"

	"rbac/clients/go/rbacclient"
)

var needs = map[string]*rbacclient.Need{"/vault": {Operation: "open", Object: "vault"}, "/count": {Operation: "count", Object: "vault"}}
var passwords = map[string]string{"ann": "apple", "erin": "elder"} // An application keeps digests of them.
var sessions sync.Map                                              // by the cookie

func sessionName(r *http.Request) string {
	if cookie, err := r.Cookie("login"); err == nil {
		if session, isKnown := sessions.Load(cookie.Value); isKnown {
			return session.(*rbacclient.Session).Name()
		}
	}
	return ""
}

func main() {
	office, err := rbacclient.New(rbacclient.Config{Addresses: []string{os.Getenv("RBAC")}, Token: os.Getenv("RBAC_TOKEN")})
	if err != nil {
		log.Fatal(err)
	}
	http.HandleFunc("/login", func(w http.ResponseWriter, r *http.Request) {
		if user := r.PostFormValue("user"); passwords[user] == "" || passwords[user] != r.PostFormValue("password") {
			http.Error(w, "Unauthorized", http.StatusUnauthorized)
		} else if session, err := office.OpenSession(r.Context(), rbacclient.SessionConfig{User: user}); err != nil {
			http.Error(w, "Service Unavailable", http.StatusServiceUnavailable)
		} else if cookie, err := rbacclient.NewSessionName(); err == nil {
			sessions.Store(cookie, session)
			http.SetCookie(w, &http.Cookie{Name: "login", Value: cookie, HttpOnly: true, SameSite: http.SameSiteStrictMode})
		}
	})
	http.HandleFunc("/logout", func(w http.ResponseWriter, r *http.Request) {
		if cookie, err := r.Cookie("login"); err == nil && r.Method == http.MethodPost {
			if session, isKnown := sessions.LoadAndDelete(cookie.Value); isKnown {
				_ = session.(*rbacclient.Session).Close(r.Context())
			}
		}
	})
	http.HandleFunc("/", func(w http.ResponseWriter, r *http.Request) { fmt.Fprintln(w, r.URL.Path) })
	guarded := office.Guard(http.DefaultServeMux, func(r *http.Request) *rbacclient.Need { return needs[r.URL.Path] }, sessionName)
	listener, err := net.Listen("tcp", "127.0.0.1:"+os.Getenv("PORT"))
	if err == nil {
		fmt.Printf("http://%s\n", listener.Addr())
		err = http.Serve(listener, guarded)
	}
	log.Fatal(err)
}
