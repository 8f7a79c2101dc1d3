package metrics

import (
	"fmt"
	"net/http"
	"net/http/httptest"
	"strings"
	"testing"

	"github.com/prometheus/client_golang/prometheus"
)

// said returns what a registry answers.
func said(registry *prometheus.Registry) string {
	answer := httptest.NewRecorder()
	Handler(registry).ServeHTTP(answer, httptest.NewRequest(http.MethodGet, "/metrics", nil))
	return answer.Body.String()
}

func TestFlag(t *testing.T) {
	registry, is := prometheus.NewPedanticRegistry(), false
	Flag(registry, "open", "1 if it is open.", func() bool { return is })
	for _, value := range []int{0, 1} {
		is = value == 1
		if given, wanted := said(registry), fmt.Sprintf("# HELP open 1 if it is open.\n# TYPE open gauge\nopen %d\n", value); given != wanted {
			t.Errorf("%q and not %q", given, wanted)
		}
	}
}

// What the program was built of is a metric, beside those of the process and of Go.
func TestNew(t *testing.T) {
	text := said(New("1.2", "abc", "def"))
	for _, wanted := range []string{
		"\nrbac_node_build_info{", `program="def"`, `sources="abc"`, `version="1.2"} 1`, "\nprocess_open_fds ", "\ngo_goroutines ",
	} {
		if !strings.Contains(text, wanted) {
			t.Errorf("no %s in %s", wanted, text)
		}
	}
}
