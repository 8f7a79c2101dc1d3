package rbacclient

import (
	"context"
	"net/http"
)

// Need is what a request needs: an operation on an object.
type Need struct {
	Operation, Object string
}

// Guard returns a handler that passes a request on only if its session may do what it needs. A request for which need returns nil
// passes without a question. session returns the name of a request's session, which the application keeps, or nothing.
func (c *Client) Guard(next http.Handler, need func(*http.Request) *Need, session func(*http.Request) string) http.Handler {
	return NewGuard(c.Check, next, need, session)
}

// GuardByUser is Guard for applications without sessions: user returns the user whom the application has authenticated, or nothing.
func (c *Client) GuardByUser(next http.Handler, need func(*http.Request) *Need, user func(*http.Request) string) http.Handler {
	return NewGuard(c.DecideByUser, next, need, user)
}

// Check decides whether a session may do an operation on an object: the method of a Client, or of what decides instead of it.
// DecideByUser is one for users.
type Check func(ctx context.Context, session, operation, object string) Decision

// NewGuard returns a handler as Client.Guard does, for which check decides.
func NewGuard(check Check, next http.Handler, need func(*http.Request) *Need, session func(*http.Request) string) http.Handler {
	return http.HandlerFunc(func(w http.ResponseWriter, r *http.Request) {
		needed := need(r)
		if needed == nil {
			next.ServeHTTP(w, r)
			return
		}
		status := http.StatusUnauthorized
		if name := session(r); name != "" {
			decision := check(r.Context(), name, needed.Operation, needed.Object)
			if decision.Allowed() {
				next.ServeHTTP(w, r)
				return
			}
			status = statusOf(decision)
		}
		w.Header().Set("Cache-Control", "no-store")
		http.Error(w, http.StatusText(status), status)
	})
}

// statusOf is the status of the answer to a request that doesn't pass.
func statusOf(decision Decision) int {
	switch {
	case decision.Reason == EndedSession:
		return http.StatusUnauthorized
	case decision.IsDecided():
		return http.StatusForbidden
	}
	return http.StatusServiceUnavailable
}
