package api

import (
	"encoding/json"
	"math"
	"net/http"
	"strconv"
	"strings"
	"unicode/utf8"
)

// maxDepth is how deep the office lets lists and objects nest.
const maxDepth = 127

// Fields are those of an object of JSON, in their order.
type Fields []Field

// A Field is a key, and its value: JSON that was read whole.
type Field struct{ Key, Value string }

// At returns the value at a key, or nothing if there is none. If a key occurs twice, the last one counts, as in the office.
func (f Fields) At(key string) string {
	for i := len(f) - 1; i >= 0; i-- {
		if f[i].Key == key {
			return f[i].Value
		}
	}
	return ""
}

// Has reports whether there is a key.
func (f Fields) Has(key string) bool { return f.At(key) != "" }

// Distinct returns the fields with each key once.
func (f Fields) Distinct() Fields {
	found, places := f[:0], make(map[string]int, len(f))
	for _, one := range f {
		if place, has := places[one.Key]; has {
			found[place] = one
			continue
		}
		places[one.Key] = len(found)
		found = append(found, one)
	}
	return found
}

// errNoObject refuses a text that is no object of JSON.
var errNoObject error = BadRequestSince(http.StatusBadRequest, "this is no object of JSON")

// FieldsOf reads an object of JSON as the office does, which may have a key twice. It refuses what the office refuses as no JSON, even at
// keys that the office ignores: half a surrogate pair, numbers that are too large, and what nests too deep, all of which Go's library
// accepts.
func FieldsOf(text string) (Fields, error) {
	found := make(Fields, 0, 5)
	if !readMembers(text, '{', found.add) {
		return nil, errNoObject
	}
	return found, nil
}

// add appends a field, by its key as it is written.
func (f *Fields) add(key, value string) { *f = append(*f, Field{unquote(key), value}) }

// Items returns the values of a list that is written as JSON.
func Items(value string) (items []string, err error) {
	if !readMembers(value, '[', func(_, item string) { items = append(items, item) }) {
		return nil, BadRequest(http.StatusBadRequest)
	}
	return items, nil
}

// Texts returns the texts of a list that is written as JSON.
func Texts(value string) ([]string, error) {
	texts, areTexts := []string{}, true
	isList := readMembers(value, '[', func(_, item string) {
		if areTexts = areTexts && item[0] == '"'; areTexts {
			texts = append(texts, unquote(item))
		}
	})
	if !isList || !areTexts {
		return nil, BadRequest(http.StatusBadRequest)
	}
	return texts, nil
}

// Text returns the text that a value of an object or of a list is.
func Text(value string) (string, error) {
	if value == "" || value[0] != '"' {
		return "", BadRequest(http.StatusBadRequest)
	}
	return unquote(value), nil
}

// unquote returns the text that JSON which was read writes. It takes no memory unless it has escapes.
func unquote(quoted string) string {
	if strings.IndexByte(quoted, '\\') >= 0 {
		var text string
		_ = json.Unmarshal([]byte(quoted), &text) // It was read as a text.
		return text
	}
	return quoted[1 : len(quoted)-1]
}

// readMembers calls a function for each member of the object or the list which a text is, and reports whether it is one. Members of a
// list have no keys.
func readMembers(text string, begin byte, do func(key, value string)) bool {
	at := skipSpaces(text, 0)
	if at == len(text) || text[at] != begin || !utf8.ValidString(text) {
		return false
	}
	after := afterMembers(text, at, maxDepth, do)
	return after > 0 && skipSpaces(text, after) == len(text)
}

// afterMembers calls a function for each member of the object or the list that begins at a place. Like the functions below it returns the
// place after it, or -1 if it is none.
func afterMembers(text string, at, depth int, do func(key, value string)) int {
	if depth == 0 {
		return -1
	}
	end := text[at] + 2 // In ASCII, } is two behind {, and ] two behind [.
	if at = skipSpaces(text, at+1); at < len(text) && text[at] == end {
		return at + 1
	}
	for {
		var key string
		if end == '}' {
			after := afterText(text, at)
			if after < 0 {
				return -1
			}
			key = text[at:after]
			if at = skipSpaces(text, after); at == len(text) || text[at] != ':' {
				return -1
			}
			at = skipSpaces(text, at+1)
		}
		after := afterValue(text, at, depth-1)
		if after < 0 {
			return -1
		}
		do(key, text[at:after])
		at = skipSpaces(text, after)
		if at < len(text) && text[at] == end {
			return at + 1
		}
		if at == len(text) || text[at] != ',' {
			return -1
		}
		at = skipSpaces(text, at+1)
	}
}

// afterValue is afterMembers for any value.
func afterValue(text string, at, depth int) int {
	if at == len(text) {
		return -1
	}
	switch text[at] {
	case '{', '[':
		return afterMembers(text, at, depth, func(_, _ string) {})
	case '"':
		return afterText(text, at)
	case 't', 'f', 'n':
		for _, word := range []string{"true", "false", "null"} {
			if strings.HasPrefix(text[at:], word) {
				return at + len(word)
			}
		}
		return -1
	}
	return afterNumber(text, at)
}

// afterText is afterMembers for a text.
func afterText(text string, at int) int {
	if at == len(text) || text[at] != '"' {
		return -1
	}
	for at++; at < len(text); {
		switch b := text[at]; {
		case b == '"':
			return at + 1
		case b == '\\':
			if at = afterEscape(text, at); at < 0 {
				return -1
			}
		case b < ' ':
			return -1
		default:
			at++
		}
	}
	return -1
}

// afterEscape is afterMembers for an escape, or for the two of a surrogate pair.
func afterEscape(text string, at int) int {
	if at+1 == len(text) || text[at+1] != 'u' {
		if at+1 == len(text) || strings.IndexByte(`"\/bfnrt`, text[at+1]) < 0 {
			return -1
		}
		return at + 2
	}
	const high, low = 0xd800 >> 10, 0xdc00 >> 10
	switch unit := unitAt(text, at+2); {
	case unit < 0 || unit>>10 == low:
		return -1
	case unit>>10 != high:
		return at + 6
	}
	if at += 6; strings.HasPrefix(text[at:], `\u`) && unitAt(text, at+2)>>10 == low {
		return at + 6
	}
	return -1
}

// unitAt returns the number that four hexadecimal digits at a place are, or -1.
func unitAt(text string, at int) int {
	if at+4 > len(text) {
		return -1
	}
	unit, err := strconv.ParseUint(text[at:at+4], 16, 16)
	if err != nil {
		return -1
	}
	return int(unit)
}

// afterNumber is afterMembers for a number that isn't too large.
func afterNumber(text string, begin int) int {
	at := begin
	if text[at] == '-' {
		at++
	}
	whole := at
	if at = skipDigits(text, at); at == whole || text[whole] == '0' && at > whole+1 {
		return -1
	}
	if at < len(text) && text[at] == '.' {
		part := at + 1
		if at = skipDigits(text, part); at == part {
			return -1
		}
	}
	if at < len(text) && (text[at] == 'e' || text[at] == 'E') {
		if at++; at < len(text) && (text[at] == '+' || text[at] == '-') {
			at++
		}
		exponent := at
		if at = skipDigits(text, at); at == exponent {
			return -1
		}
	}
	if number, _ := strconv.ParseFloat(text[begin:at], 64); math.IsInf(number, 0) {
		return -1
	}
	return at
}

// skipDigits returns the next place at or after this one that has no digit.
func skipDigits(text string, at int) int {
	for at < len(text) && '0' <= text[at] && text[at] <= '9' {
		at++
	}
	return at
}

// skipSpaces returns the next place at or after this one that has no space.
func skipSpaces(text string, at int) int {
	for at < len(text) && (text[at] == ' ' || text[at] == '\n' || text[at] == '\r' || text[at] == '\t') {
		at++
	}
	return at
}
