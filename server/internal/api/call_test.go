package api

import (
	"bytes"
	"errors"
	"fmt"
	"math/rand"
	"net/http/httptest"
	"os"
	"os/exec"
	"strings"
	"testing"
)

func TestParseBody(t *testing.T) {
	deep := func(depth int) string { return strings.Repeat("[", depth) + strings.Repeat("]", depth) }
	for _, one := range []struct{ name, function, body, line string }{
		{"a key", "addUser", `{"user":"ann"}`, `{"fn":"addUser","user":"ann"}`},
		{"white space", "addUser", " {\n\"user\" : \"a b\"\r\n}\n", `{"fn":"addUser","user":"a b"}`},
		{"another function", "addUser", `{"fn":"x","user":"ann"}`, `{"fn":"addUser","user":"ann"}`},
		{"ignored keys", "addUser", `{"id":7,"user":"ann","x":[{}]}`, `{"fn":"addUser","user":"ann"}`},
		{"a key in another case", "addUser", `{"user":"ann","USER":"bob"}`, `{"fn":"addUser","user":"ann"}`},
		{"a key twice", "addUser", `{"user":7,"us\u0065r":"bob"}`, `{"fn":"addUser","user":"bob"}`},
		{"escapes", "addUser", `{"user":"\u0061\/\n\u001f\"\\\ud83d\ude00"}`, `{"fn":"addUser","user":"a/\n\u001f\"\\😀"}`},
		{"no body", "ssdRoleSets", "", `{"fn":"ssdRoleSets"}`},
		{"no key", "ssdRoleSets", "{ }", `{"fn":"ssdRoleSets"}`},
		{"roles", "createSession", `{"roles":["b", "a"],"user":"ann","session":"s"}`,
			`{"fn":"createSession","user":"ann","roles":["b","a"],"session":"s"}`},
		{"no roles", "createSession", `{"roles":[],"user":"ann","session":"s"}`,
			`{"fn":"createSession","user":"ann","roles":[],"session":"s"}`},
		{"a number", "setSsdSetCardinality", `{"set":"s","cardinality":2}`, `{"fn":"setSsdSetCardinality","set":"s","cardinality":2}`},
		{"CSV", "importAssignments", "user,role\r\n\"<a>\"\tb\x00", `{"fn":"importAssignments","csv":"user,role\r\n\"<a>\"\tb\u0000"}`},
		{"numbers that are ignored", "addUser", `{"x":[1e308,1e-999,-0.0,0e999],"user":"a"}`, `{"fn":"addUser","user":"a"}`},
		{"as deep as it may be", "addUser", `{"x":` + deep(maxDepth-1) + `,"user":"a"}`, `{"fn":"addUser","user":"a"}`},

		{"no JSON", "addUser", "x", ""},
		{"a list", "addUser", "[]", ""},
		{"null", "ssdRoleSets", "null", ""},
		{"a text", "addUser", `"user"`, ""},
		{"two objects", "addUser", `{"user":"a"}{}`, ""},
		{"a line feed in a text", "addUser", "{\"user\":\"a\nb\"}", ""},
		{"a comma at the end", "addUser", `{"user":"ann",}`, ""},
		{"half an object", "addUser", "{", ""},
		{"bytes that are not UTF-8", "addUser", "{\"user\":\"a\",\"x\":\"\xff\"}", ""},
		{"half a surrogate pair", "addUser", `{"user":"\ud800"}`, ""},
		{"the other half", "addUser", `{"user":"a","x":"\udc00"}`, ""},
		{"a pair with a text between", "addUser", `{"user":"a","x":"\ud83dx\ude00"}`, ""},
		{"too deep", "addUser", `{"x":` + deep(maxDepth) + `,"user":"a"}`, ""},
		{"a number that is too large", "addUser", `{"user":"a","x":-1e999}`, ""},
		{"a missing key", "addUser", `{"USER":"ann"}`, ""},
		{"a text of another type", "addUser", `{"user":null}`, ""},
		{"a number at roles", "createSession", `{"roles":[7],"user":"ann","session":"s"}`, ""},
		{"null at roles", "createSession", `{"roles":null,"user":"ann","session":"s"}`, ""},
		{"a cardinality below zero", "setSsdSetCardinality", `{"set":"s","cardinality":-2}`, ""},
		{"a broken cardinality", "setSsdSetCardinality", `{"set":"s","cardinality":2.0}`, ""},
		{"CSV that is not UTF-8", "importAssignments", "\xff", ""},
	} {
		t.Run(one.name, func(t *testing.T) {
			call, err := parseBody(one.function, []byte(one.body))
			if one.line == "" {
				refused := Refusal{}
				if !errors.As(err, &refused) || refused.Status != 400 || refused.Code != 34 {
					t.Fatalf("%v, %v", call, err)
				}
				return
			}
			if err != nil || string(call.Line) != one.line {
				t.Errorf("%v: %s and not %s", err, call.Line, one.line)
			}
		})
	}
}

// Odd lines get the same answers by their calls as from the program itself.
func TestParseLineAsTheOffice(t *testing.T) {
	program := os.Getenv("RBAC_PROGRAM")
	if program == "" {
		t.Skip("RBAC_PROGRAM is not set")
	}
	odd := oddLines{rand.New(rand.NewSource(1))}
	lines := [][]byte{[]byte(`{"fn":"addUser","user":"ann"}`), []byte(`{"fn":"addRole","role":"clerk"}`)}
	for len(lines) < 20_000 {
		lines = append(lines, odd.line())
	}
	answers := make([][]byte, len(lines))
	var passed [][]byte
	for i, line := range lines {
		call, err := ParseLine(line)
		var refused Refusal
		if errors.As(err, &refused) {
			answers[i] = []byte(fmt.Sprintf(`{"code":%d,"error":"%s"}`, refused.Code, refused.Name))
			continue
		}
		passed = append(passed, call.Line)
	}
	wanted, given := replayed(t, program, lines), replayed(t, program, passed)
	accepted := 0
	for i, line := range lines {
		if answers[i] == nil {
			answers[i], given = given[0], given[1:]
		}
		if !bytes.Equal(answers[i], wanted[i]) {
			t.Errorf("%s: %s and not %s", line, answers[i], wanted[i])
		}
		if bytes.HasPrefix(wanted[i], []byte(`{"ok"`)) {
			accepted++
		}
	}
	if accepted < len(lines)/20 {
		t.Errorf("only %d of %d lines were accepted", accepted, len(lines))
	}
}

// replayed returns what the program answers to lines.
func replayed(t *testing.T, program string, lines [][]byte) [][]byte {
	command := exec.Command(program, "replay", "--memory")
	command.Stdin = bytes.NewReader(append(bytes.Join(lines, []byte("\n")), '\n'))
	said, err := command.Output()
	if err != nil {
		t.Fatal(err)
	}
	answers := bytes.Split(bytes.TrimSuffix(said, []byte("\n")), []byte("\n"))
	if len(answers) != len(lines) {
		t.Fatalf("%d answers to %d lines", len(answers), len(lines))
	}
	return answers
}

// oddLines makes lines in which something is unusual.
type oddLines struct{ *rand.Rand }

func (o oddLines) one(from ...string) string { return from[o.Intn(len(from))] }

func (o oddLines) text() string {
	return `"` + o.one("ann", "bob", "clerk", "a b", "é", `\u00e9`, `\ud83d\ude00`, `\ud800`, `\udc00x`, `\uD800\u0041`, "\ufffd",
		strings.Repeat("x", 64), strings.Repeat("x", 65), strings.Repeat("é", 33), "", `\u0000`, `\u001f`, "\x7f", `\/`, `\"`,
		`\\`, `\n`, `\b`, "<a>&", "\u2028", `\u2028`, "a:b", `\x`, "\t", "\ufeff", `\u00`, `\ud83d`) + `"`
}

func (o oddLines) value(key string) string {
	switch {
	case o.Intn(16) == 0:
		return o.one("1", "0", "-0", "2.0", "2e0", "01", "4294967295", "4294967296", "99999999999999999999", "true", "null", "{}",
			"[]", "[[]]", `[{"a":1}]`, "[1]", "+1", ".5", "1.", "1e999", "-1e400", "1e-999", "0e999", "1E+400", "1e", "tru",
			"1"+strings.Repeat("0", 400), "1"+strings.Repeat("0", 300), "123456789012345678901234567890e280",
			strings.Repeat("[", 130)+strings.Repeat("]", 130), strings.Repeat(`{"a":`, 126)+"1"+strings.Repeat("}", 126),
			strings.Repeat("[", 127)+strings.Repeat("]", 127))
	case o.Intn(25) == 0:
		return o.text()
	case key == "roles":
		list := make([]string, o.Intn(4))
		for i := range list {
			list[i] = o.one(`"clerk"`, `"boss"`, o.text())
		}
		return "[" + strings.Join(list, o.one(",", ", ")) + "]"
	case key == "cardinality":
		return o.one("2", "3", "1")
	case key == "csv":
		return o.one(`"user,role\nann,clerk\n"`, `"user,role\r\n\"ann\",\"clerk\""`, `"x"`)
	}
	return o.one(`"ann"`, `"clerk"`, `"boss"`, `"s1"`, o.text())
}

// names has the names of all functions.
var names = func() (all []string) {
	for _, line := range strings.Split(commands+questions, "\n") {
		_, functions, _ := strings.Cut(line, ":")
		all = append(all, strings.Fields(functions)...)
	}
	return all
}()

func (o oddLines) line() []byte {
	name := o.one(names...)
	var pairs []string
	add := func(key, value string) {
		at := o.Intn(len(pairs) + 1)
		pairs = append(pairs[:at], append([]string{`"` + key + `"` + o.one("", " ") + ":" + value}, pairs[at:]...)...)
	}
	for _, key := range functions[name].keys {
		if o.Intn(12) > 0 {
			add(key, o.value(key))
		}
	}
	for i := o.Intn(3); i > 0; i-- {
		key := o.one("user", "role", "roles", "session", "csv", "USER", `us\u0065r`, "x", "", `\ud800`)
		add(key, o.value(key))
	}
	add("fn", o.one(`"`+name+`"`, `"`+name+`"`, `"`+name+`"`, `"`+name+`"`, `"`+name+`"`, `"fly"`, "7", "null"))
	text := o.one("", "", " ", "\t") + "{" + strings.Join(pairs, o.one(",", ", ")) + "}" + o.one("", "", "", "", " ", "\r", "x", "{}", ",")
	if o.Intn(40) == 0 {
		text = o.one("[]", "7", `"x"`, "null", "{", "}", "\ufeff"+text, text[:len(text)-1])
	}
	line := []byte(text)
	if o.Intn(40) == 0 {
		line[o.Intn(len(line))] = o.one("\xff", "\x80", "\xc0", "\xed", "\\", "\"")[0]
	}
	if len(bytes.TrimSpace(line)) == 0 {
		line = []byte("{}")
	}
	return line
}

// A line of a batch is refused with the key that is wrong.
func TestWhyOfBatch(t *testing.T) {
	_, err := ParseBatch([]byte(`{"fn":"addUser","user":"ann"}` + "\n" + `{"fn":"decideByUser","user":"ann","operation":"open"}`))
	refused := Refusal{}
	if !errors.As(err, &refused) || refused.Why != "object is missing, and has to be a text" {
		t.Errorf("%q, %v", refused.Why, err)
	}
}

// A refusal names the key that is wrong, or the limit.
func TestWhy(t *testing.T) {
	for line, why := range map[string]string{
		`{"fn":"addUser","user":7}`:                       "user has to be a text",
		`{"fn":"assignUser","user":"ann","Role":"clerk"}`: "role is missing, and has to be a text: in \"Role\" the case differs",
		`{"fn":"assignUser","user":"ann"}`:                "role is missing, and has to be a text",
		`{"fn":"createDsdSet","set":"s","roles":["r"]}`:   "cardinality is missing, and has to be a number",
		`{"user":"ann"}`:                                  "fn is missing, and has to be a text",
		`{"fn":7}`:                                        "fn has to be a text",
		`["addUser"]`:                                     "this is no object of JSON",
		`{"fn":"createSession","user":"a","session":"s","roles":"r"}`:                  "roles has to be a list of texts",
		`{"fn":"setSsdSetCardinality","set":"s","cardinality":"2"}`:                    "cardinality has to be a number",
		`{"fn":"importAssignments","csv":"` + strings.Repeat("x", MaxLineBytes) + `"}`: "the request makes a line of more than 65536 bytes",
	} {
		_, err := ParseLine([]byte(line))
		refused := Refusal{}
		if w := httptest.NewRecorder(); !errors.As(err, &refused) || Refuse(w, refused) != refused.Status || w.Header().Get("Office-Why") != why {
			t.Errorf("%.80s: %q, %v", line, w.Header().Get("Office-Why"), err)
		}
	}
}
