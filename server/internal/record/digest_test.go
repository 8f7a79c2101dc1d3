package record

import (
	"strings"
	"testing"

	"rbac-node/internal/api"
	"rbac-node/internal/feed"
	"rbac-node/internal/state"
)

func TestRecordedText(t *testing.T) {
	for _, test := range []struct{ name, text, wanted string }{
		{"a name", "ann 1", "b74873c54c09ef651f3994313cc993b4"},
		{"the longest name", strings.Repeat("x", 64), "ebfb7592668a75a51c15ba71c7557f21"},
		{"no name", "", ""},
		{"too long a name", strings.Repeat("x", 65), ""},
		{"a tab", "a\tb", ""},
		{"a delete character", "a\x7f", ""},
		{"other letters", "ä", state.DigestOf("ä")},
		{"a digest", "b74873c54c09ef651f3994313cc993b4", state.DigestOf("b74873c54c09ef651f3994313cc993b4")},
	} {
		t.Run(test.name, func(t *testing.T) {
			if given := recordedText(test.text); given != test.wanted {
				t.Errorf("%q and not %q", given, test.wanted)
			}
		})
	}
}

func TestAdmit(t *testing.T) {
	digest := state.DigestOf("s")
	roles := strings.Repeat(`"`+strings.Repeat("r", 61)+`",`, 1000)
	for _, test := range []struct{ name, line, wanted string }{
		{"a command without a session", `{"fn":"addUser","user":"ann"}`, `{"fn":"addUser","user":"ann"}`},
		{"a session", `{"session":"s","user":"ann","fn":"deleteSession"}`,
			`{"fn":"deleteSession","user":"ann","session":"` + digest + `"}`},
		{"a session in the middle", `{"fn":"addActiveRole","user":"ann","session":"s","role":"r"}`,
			`{"fn":"addActiveRole","user":"ann","session":"` + digest + `","role":"r"}`},
		{"roles", `{"fn":"createSession","user":"ann","roles":["a","b"],"session":"s"}`,
			`{"fn":"createSession","user":"ann","roles":["a","b"],"session":"` + digest + `"}`},
		{"no name", `{"fn":"deleteSession","user":"ann","session":"\u0001"}`, `{"fn":"deleteSession","user":"ann","session":""}`},
		{"a line that the digest makes too long", `{"fn":"createSession","user":"ann","roles":[` + roles + `"` +
			strings.Repeat("q", api.MaxLineBytes-len(roles)-65) + `"],"session":"s"}`, ""},
	} {
		t.Run(test.name, func(t *testing.T) {
			call, err := api.ParseLine([]byte(test.line))
			if err != nil {
				t.Fatal(err)
			}
			u := feed.NewUnit(call)
			switch err := (&Record{}).Admit(u); {
			case test.wanted == "" && err == nil:
				t.Error("it was admitted")
			case test.wanted != "" && (err != nil || string(u.Recorded[0]) != test.wanted):
				t.Errorf("%s, %v", u.Recorded[0], err)
			}
			if string(u.Lines[0]) != string(call.Line) {
				t.Error("the line for the replay has changed")
			}
		})
	}
}

func TestChained(t *testing.T) {
	e := entry{n: 2, at: "2026-11-27T00:00:00.000Z", caller: "token:desk", reason: "ticket", request: `{"fn":"x"}`, answer: `{"ok":true}`}
	wanted := chained("before", &e)
	for _, change := range []func(e *entry){
		func(e *entry) { e.n = 3 }, func(e *entry) { e.at = "x" }, func(e *entry) { e.caller = "x" }, func(e *entry) { e.reason = "x" },
		func(e *entry) { e.request = "x" }, func(e *entry) { e.answer = "x" }, func(e *entry) { e.found = true },
		// What moves from one field to the next makes another link.
		func(e *entry) { e.caller, e.reason = "token:deskticket", "" },
	} {
		other := e
		if change(&other); chained("before", &other) == wanted {
			t.Errorf("%+v has the same link", other)
		}
	}
	if chained("other", &e) == wanted {
		t.Error("another link before gives the same link")
	}
}

func TestParseHead(t *testing.T) {
	chain := strings.Repeat("a", 64)
	if head, err := ParseHead("7:" + chain); err != nil || head.String() != "7:"+chain {
		t.Errorf("%v, %v", head, err)
	}
	for _, text := range []string{"", "7", "7:", ":" + chain, "x:" + chain, "7:" + chain + "a", chain} {
		if _, err := ParseHead(text); err == nil {
			t.Errorf("%q was read", text)
		}
	}
}
