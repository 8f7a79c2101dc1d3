package endpoints

import "testing"

func TestLabels(t *testing.T) {
	for _, one := range []struct{ name, text, label string }{
		{"a plain name", "branch manager", `"branch manager"`},
		{"what Graphviz reads as something else", `a\n"b"&lt;`, `"a\\n\"b\"&amp;lt;"`},
		{"a letter that turns others round", "\u202egnirob", `"[U+202E]gnirob"`},
		{"a control character", "\u0085x", `"[U+0085]x"`},
		{"a space that doesn't break", "a\u00a0b", `"a[U+00A0]b"`},
		{"a selector of a variant", "a\ufe0f", `"a[U+FE0F]"`},
		{"letters from right to left", "\u05d0\u05d1", "\"\u05d0\u05d1\""},
	} {
		t.Run(one.name, func(t *testing.T) {
			if label := quoted(one.text); label != one.label {
				t.Errorf("%s and not %s", label, one.label)
			}
		})
	}
}
