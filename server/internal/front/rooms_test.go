package front

import (
	"fmt"
	"strings"
	"testing"

	"rbac-node/internal/logs"
	"rbac-node/internal/state"
)

// The log says once that a kind is nearly full, and once that it is full, and again only after it fell. A single session may be full.
func TestRoomsSaid(t *testing.T) {
	var log strings.Builder
	r := newRooms(&echo{}, logs.New(&log))
	for _, step := range []struct {
		count int
		level string
	}{
		{0, ""}, {799, ""}, {800, "warn"}, {801, ""}, {799, ""}, {800, ""}, {1000, "error"}, {999, ""}, {1000, ""}, {700, ""}, {900, ""}, {699, ""},
		{850, "warn"}, {699, ""}, {1000, "error"}, {900, ""},
	} {
		log.Reset()
		r.say([]state.Room{{Count: step.count, Kind: "session", Limit: 1000}, {Count: 32, Kind: "activeRole", Limit: 32}, {Count: 1, Kind: "user", Limit: 20_000}})
		said, wanted := log.String(), ""
		if step.level != "" {
			wanted = fmt.Sprintf(`"level":%q`, step.level)
		}
		if (said != "") != (wanted != "") || !strings.Contains(said, wanted) || strings.Count(said, "\n") > 1 {
			t.Errorf("at %d the log says %q", step.count, said)
		}
	}
}
