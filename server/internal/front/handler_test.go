package front

import (
	"crypto/tls"
	"net/http/httptest"
	"testing"
)

func TestOwnPages(t *testing.T) {
	for _, one := range []struct {
		name, origin, host string
		hasTLS, hasToken   bool
		isOwn              bool
	}{
		{"this machine", "http://localhost:8080", "localhost:8080", false, false, true},
		{"this machine by its address", "http://[::1]:8080", "[::1]:8080", false, false, true},
		{"another port", "http://localhost:8081", "localhost:8080", false, false, false},
		{"another scheme", "https://localhost:8080", "localhost:8080", false, false, false},
		{"a name that may mean any machine", "http://evil.example", "evil.example", false, false, false},
		{"such a name with a token", "http://office.example", "office.example", false, true, true},
		{"a name with a certificate", "https://office.example", "office.example", true, false, true},
		{"another name with a certificate", "https://evil.example", "office.example", true, true, false},
		{"null", "null", "localhost", false, true, false},
		{"no host", "http://", "", false, true, false},
	} {
		t.Run(one.name, func(t *testing.T) {
			r := httptest.NewRequest("POST", "/v1/addUser", nil)
			r.Host = one.host
			if one.hasTLS {
				r.TLS = &tls.ConnectionState{}
			}
			if one.hasToken {
				r.Header.Set("Authorization", "Bearer x")
			}
			if is := isOwnPage(r, []string{one.origin}); is != one.isOwn {
				t.Errorf("%v and not %v", is, one.isOwn)
			}
		})
	}
	if isOwnPage(httptest.NewRequest("POST", "/", nil), []string{"http://localhost", "http://localhost"}) {
		t.Error("two origins are own")
	}
}
