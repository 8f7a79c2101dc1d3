package api

import (
	"encoding/json"
	"fmt"
	"math"
	"math/rand"
	"strings"
	"testing"
	"time"
	"unicode/utf8"
)

func TestFieldsOf(t *testing.T) {
	deep := func(depth int) string { return strings.Repeat("[", depth) + strings.Repeat("]", depth) }
	for _, test := range []struct {
		name, text string
		isObject   bool
	}{
		{"an object", `{"user":"ann","role":"clerk"}`, true},
		{"spaces everywhere", " \t{ \"user\"\r\n:\n\"ann\" , \"role\" : \"clerk\" } \n", true},
		{"nothing in it", `{ }`, true},
		{"an empty key and an empty text", `{"":""}`, true},
		{"signs that are not ASCII", `{"user":"é"}`, true},
		{"escapes", `{"us\u0065r":"\"\\\/\b\f\n\r\t\u00E9\ud83d\ude00"}`, true},
		{"numbers", `{"a":[0,-0,10,2.50,-1e9,1E-9,0.1e+1]}`, true},
		{"words", `{"a":[true,false,null]}`, true},
		{"objects in a list", `{"a":[{"b":{"c":"d"}},{"b":["e"]}],"f":"g"}`, true},
		{"what is as deep as it may be", `{"a":` + deep(maxDepth-1) + `}`, true},
		{"what is deeper", `{"a":` + deep(maxDepth) + `}`, false},
		{"half a pair", `{"a":"\ud83d"}`, false},
		{"half a pair before an escape", `{"a":"\ud83d\n"}`, false},
		{"two first halves", `{"a":"\ud83d\ud83d"}`, false},
		{"a second half", `{"a":"\ude00"}`, false},
		{"half a pair in a key", `{"\ud83d":"a"}`, false},
		{"an escape of nothing", `{"a":"\x"}`, false},
		{"an escape of few digits", `{"a":"\u00e"}`, false},
		{"an escape with a sign", `{"a":"\u+0e9"}`, false},
		{"a number with a zero before it", `{"a":01}`, false},
		{"a number with a plus", `{"a":+1}`, false},
		{"a number without a digit", `{"a":-}`, false},
		{"a number with a point at its end", `{"a":1.}`, false},
		{"a number with a point at its begin", `{"a":.5}`, false},
		{"a number without an exponent", `{"a":1e}`, false},
		{"a number that is too large", `{"a":1e400}`, false},
		{"a word in capitals", `{"a":True}`, false},
		{"half a word", `{"a":tru}`, false},
		{"a key in a list", `{"a":["b":"c"]}`, false},
		{"no key in an object", `{"a":{"b"}}`, false},
		{"a comma at the end of a list", `{"a":["b",]}`, false},
		{"a list without an end", `{"a":["b"}`, false},
		{"a list that ends an object", `{"a":["b"}]`, false},
		{"a comma at the end", `{"user":"ann",}`, false},
		{"a comma alone", `{,}`, false},
		{"no comma", `{"user":"ann" "role":"clerk"}`, false},
		{"no colon", `{"user" "ann"}`, false},
		{"no value", `{"user":}`, false},
		{"no end", `{"user":"ann"`, false},
		{"no end of a text", `{"user":"ann}`, false},
		{"no end of an escape", `{"user":"ann\`, false},
		{"something behind it", `{"user":"ann"}x`, false},
		{"two objects", `{"user":"ann"}{}`, false},
		{"a control character", "{\"user\":\"a\nb\"}", false},
		{"bytes that are no text", "{\"user\":\"\xff\"}", false},
		{"a mark of the byte order", "\ufeff{}", false},
		{"a list", `[]`, false},
		{"a text", `"a"`, false},
		{"nothing", ``, false},
		{"spaces alone", ` `, false},
		{"a brace alone", `{`, false},
	} {
		t.Run(test.name, func(t *testing.T) {
			if found, err := FieldsOf(test.text); (err == nil) != test.isObject {
				t.Errorf("%v, %v", found, err)
			}
		})
	}
}

func TestAt(t *testing.T) {
	found, err := FieldsOf(`{"user":"ann","us\u0065r":"bob","role":null}`)
	if err != nil || len(found.Distinct()) != 2 || found.At("user") != `"bob"` || found.At("role") != "null" || found.Has("set") {
		t.Errorf("%v, %v", found, err)
	}
}

func TestTexts(t *testing.T) {
	for _, test := range []struct{ value, texts string }{
		{`["a","\u0062"]`, "[a b]"}, {`[ ]`, "[]"}, {`["a",7]`, ""}, {`["a",["b"]]`, ""}, {`null`, ""}, {`"a"`, ""}, {``, ""},
	} {
		texts, err := Texts(test.value)
		if said := fmt.Sprint(texts); (err == nil) != (test.texts != "") || err == nil && (said != test.texts || texts == nil) {
			t.Errorf("%s: %v, %v", test.value, texts, err)
		}
	}
}

// pieces are what random texts are made of.
var pieces = []string{
	"{", "}", `"`, `"a"`, `"b"`, `"a":"b"`, ":", ",", " ", "\n", `\`, "é", "\xff", "1", "[", "]", "\x00", `"a":"b",`, `"c":{`, `"d":[`, `["a"`,
	"0", "-", ".5", "e9", "1e400", "true", "null", `"\u00e9"`, `"\ud83d\ude00"`, `"\ud83d"`, `u`, `"a":7,`, `"\n"`, `"a":1e400`, `"a":"\ud83d"`,
}

// TestLikeLibrary compares what is read of random texts with what the library reads, except for what the office refuses.
func TestLikeLibrary(t *testing.T) {
	seed := time.Now().UnixNano()
	t.Logf("seed %d", seed)
	rng, objects, lists, stricter := rand.New(rand.NewSource(seed)), 0, 0, 0
	for i := 0; i < 300_000; i++ {
		text := ""
		for k := rng.Intn(9); k > 0; k-- {
			text += pieces[rng.Intn(len(pieces))]
		}
		list := "[" + text + "]"
		items, err := Items(list)
		var wantedItems []json.RawMessage
		switch wantedErr := json.Unmarshal([]byte(list), &wantedItems); {
		case err == nil && (wantedErr != nil || fmt.Sprintf("%s", items) != fmt.Sprintf("%s", wantedItems)):
			t.Fatalf("%q: %v and not %v, %v", list, items, wantedItems, wantedErr)
		case err == nil:
			lists++
		case wantedErr == nil && isRead([]byte(list)):
			t.Fatalf("%q is refused", list)
		}
		object := "{" + text + "}"
		found, err := FieldsOf(object)
		var wanted map[string]json.RawMessage
		switch wantedErr := json.Unmarshal([]byte(object), &wanted); {
		case err == nil && wantedErr != nil:
			t.Fatalf("%q: %v and not %v", object, found, wantedErr)
		case err == nil:
			objects++
			for key, value := range wanted {
				if found.At(key) != string(value) {
					t.Fatalf("%q: %s is %s and not %s", object, key, found.At(key), value)
				}
			}
		case wantedErr == nil && isRead([]byte(object)):
			t.Fatalf("%q is refused", object)
		case wantedErr == nil:
			stricter++
		}
	}
	if objects < 1000 || lists < 1000 || stricter < 100 {
		t.Errorf("only %d and %d were read, and %d refused by the office alone", objects, lists, stricter)
	}
}

// isRead reports whether the office reads a text that the library reads: it has no byte that isn't UTF-8, nothing that the library replaces
// by U+FFFD, and no number that is too large.
func isRead(text []byte) bool {
	var value any
	if !utf8.Valid(text) || json.Unmarshal(text, &value) != nil {
		return false
	}
	var isWhole func(any) bool
	isWhole = func(value any) bool {
		switch value := value.(type) {
		case string:
			return !strings.ContainsRune(value, utf8.RuneError)
		case float64:
			return !math.IsInf(value, 0)
		case []any:
			for _, one := range value {
				if !isWhole(one) {
					return false
				}
			}
		case map[string]any:
			for key, one := range value {
				if !isWhole(key) || !isWhole(one) {
					return false
				}
			}
		}
		return true
	}
	return isWhole(value) && !strings.Contains(string(text), `\ud83d"`)
}

func BenchmarkParseLine(b *testing.B) {
	line := []byte(`{"fn":"checkAccess","session":"session 17","operation":"open","object":"object 12"}`)
	b.ReportAllocs()
	for i := 0; i < b.N; i++ {
		if _, err := ParseLine(line); err != nil {
			b.Fatal(err)
		}
	}
}
