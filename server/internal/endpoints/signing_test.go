package endpoints

import (
	"net/http/httptest"
	"strings"
	"testing"

	"rbac-node/internal/api"
)

func TestSign(t *testing.T) {
	for _, test := range []struct {
		name      string
		reasons   []string
		wanted    string
		isRefused bool
	}{
		{"none", nil, "", false},
		{"a reason", []string{"ticket 7, für ann"}, "ticket 7, für ann", false},
		{"the longest", []string{strings.Repeat("r", 256)}, strings.Repeat("r", 256), false},
		{"too long a one", []string{strings.Repeat("r", 257)}, "", true},
		{"two", []string{"a", "b"}, "", true},
		{"no text", []string{"\xff"}, "", true},
		{"a tab", []string{"a\tb"}, "", true},
		{"another control character", []string{"a\u0085b"}, "", true},
		{"the end of a line", []string{"a\u2028b"}, "", true},
	} {
		t.Run(test.name, func(t *testing.T) {
			r := httptest.NewRequest("POST", "/v1/addUser", nil)
			r.Header[reasonField] = test.reasons
			call := &api.Call{Kind: api.Command}
			if err := (&request{Request: r}).sign(call); (err != nil) != test.isRefused || call.Reason != test.wanted || call.Caller != openCaller {
				t.Errorf("%v, %+v", err, call)
			}
			if err := (&request{Request: r}).sign(&api.Call{Kind: api.Question}); err != nil {
				t.Errorf("a question: %v", err)
			}
		})
	}
}
