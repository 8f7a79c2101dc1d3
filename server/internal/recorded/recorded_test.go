package recorded

import "testing"

func TestParseTime(t *testing.T) {
	for text, want := range map[string]string{
		"":                         "",
		"2026":                     "2026-01-01T00:00:00.000Z",
		"2026-11":                  "2026-11-01T00:00:00.000Z",
		"2026-11-27":               "2026-11-27T00:00:00.000Z",
		"2026-11-27T09":            "2026-11-27T09:00:00.000Z",
		"2026-11-27T09:30Z":        "2026-11-27T09:30:00.000Z",
		"2026-11-27T09:30:59":      "2026-11-27T09:30:59.000Z",
		"2026-11-27T09:30:59.123Z": "2026-11-27T09:30:59.123Z",
	} {
		if got, err := ParseTime(text); err != nil || got != want {
			t.Errorf("%q is %q, %v, and not %q", text, got, err, want)
		}
	}
	for _, text := range []string{"yesterday", "21.11.2026", "2026-13-45", "2026-02-30", "2026-11-27 09:30", "2026-11-27T25", "27", "2026-11-27T09:30+01:00"} {
		if got, err := ParseTime(text); err == nil {
			t.Errorf("%q is %q, and no error", text, got)
		}
	}
}
