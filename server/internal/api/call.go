package api

import (
	"net/http"
	"strings"
	"unicode/utf8"
)

// MaxLineBytes is the most bytes of a line that the replay accepts.
const MaxLineBytes = 65_536

// Importer is the function whose body is CSV. bin/commands writes the tables of all functions in table.go: a command changes the office
// if it is accepted, a question changes nothing. The value at roles is a list of texts, that at cardinality a number, and all others are
// texts.
const Importer = "importAssignments"

// A function is one of the office: its name, how it is answered, and its keys.
type function struct {
	name string
	kind Kind
	keys []string
}

// functions has all functions by their names.
var functions = func() map[string]function {
	known := map[string]function{}
	for kind, table := range map[Kind]string{Command: commands, Question: questions} {
		for _, line := range strings.Split(strings.TrimSpace(table), "\n") {
			keys, names, _ := strings.Cut(line, ":")
			for _, name := range strings.Fields(names) {
				known[name] = function{name, kind, strings.Fields(keys)}
			}
		}
	}
	return known
}()

// A Call asks the office for one thing. Its line is made anew from what was read, so that the office can't read it
// differently from those who judge it before. Keys that the office ignores are left out.
type Call struct {
	Function string
	Kind     Kind
	Arguments
	Line []byte
	// Number is that of its line in the body of a batch, from 1.
	Number int
	// Caller is who asks, and Reason why, if it has said so.
	Caller, Reason string
}

// ParseLine reads a line that names its function.
func ParseLine(line []byte) (*Call, error) {
	found, err := FieldsOf(string(line))
	if err != nil {
		return nil, err
	}
	name, err := nameIn(found)
	if err != nil {
		return nil, err
	}
	return newCall(name, found)
}

// nameIn returns the name of the function that a line asks for.
func nameIn(found Fields) (string, error) {
	return TextAt(found, "fn")
}

// parseBody reads what a body asks a function for. No body is an object without keys.
func parseBody(name string, body []byte) (*Call, error) {
	if name == Importer {
		if !utf8.Valid(body) {
			return nil, BadRequestSince(http.StatusBadRequest, "the body isn't UTF-8")
		}
		call := &Call{Function: name, Kind: Command, Arguments: Arguments{CSV: string(body)}}
		return call, call.write()
	}
	if len(body) == 0 {
		return newCall(name, nil)
	}
	found, err := FieldsOf(string(body))
	if err != nil {
		return nil, err
	}
	return newCall(name, found)
}

func newCall(name string, found Fields) (*Call, error) {
	call := &Call{}
	if err := call.readFunction(name, found); err != nil {
		return nil, err
	}
	return call, call.write()
}

// readFunction sets the function and what an object has at its keys.
func (c *Call) readFunction(name string, found Fields) error {
	called, known := functions[name]
	if !known {
		return UnknownFunction
	}
	c.Function, c.Kind = called.name, called.kind
	return c.read(called.keys, found)
}

// read sets what an object has at some keys, and refuses an object that lacks one.
func (c *Call) read(keys []string, found Fields) (err error) {
	for _, key := range keys {
		switch value := found.At(key); key {
		case "cardinality":
			if c.Cardinality = value; value == "" || strings.Trim(value, "0123456789") != "" {
				return wrongKey(found, key, "a number")
			}
		case "roles":
			if c.Roles, err = Texts(value); err != nil {
				return wrongKey(found, key, "a list of texts")
			}
		default:
			if *c.place(key), err = TextAt(found, key); err != nil {
				return err
			}
		}
	}
	return nil
}

// TextAt returns the text at a key, or a refusal that names the key.
func TextAt(found Fields, key string) (string, error) {
	text, err := Text(found.At(key))
	if err != nil {
		return "", wrongKey(found, key, "a text")
	}
	return text, nil
}

// wrongKey is the refusal of a request with a key that is missing or has a value of another type. It names one that is there and
// differs in the case of its letters alone.
func wrongKey(found Fields, key, wanted string) Refusal {
	if found.Has(key) {
		return BadRequestSince(http.StatusBadRequest, "%s has to be %s", key, wanted)
	}
	for _, other := range found {
		if strings.EqualFold(other.Key, key) {
			return BadRequestSince(http.StatusBadRequest, "%s is missing, and has to be %s: in %+q the case differs", key, wanted, other.Key)
		}
	}
	return BadRequestSince(http.StatusBadRequest, "%s is missing, and has to be %s", key, wanted)
}

func (c *Call) write() error {
	_, err := c.writeBehind(make([]byte, 0, 128))
	return err
}

// writeBehind makes the line behind others, in their memory if there is room, and returns all of them.
func (c *Call) writeBehind(lines []byte) ([]byte, error) {
	begin := len(lines)
	line := append(append(append(lines, `{"fn":"`...), c.Function...), '"')
	for _, key := range functions[c.Function].keys {
		switch line = AppendKey(line, key); key {
		case "cardinality":
			line = append(line, c.Cardinality...)
		case "roles":
			line = AppendTexts(line, c.Roles)
		default:
			line = AppendQuoted(line, c.Text(key))
		}
	}
	line = append(line, '}')
	c.Line = line[begin:len(line):len(line)]
	if len(c.Line) > MaxLineBytes {
		return nil, BadRequestSince(http.StatusRequestEntityTooLarge, "the request makes a line of more than %d bytes", MaxLineBytes)
	}
	return line, nil
}

// AppendKey appends a key of an object of JSON that has another one before.
func AppendKey(line []byte, key string) []byte {
	return append(append(append(line, `,"`...), key...), `":`...)
}

// AppendQuoted appends a text as JSON, in as few bytes as its control characters allow.
func AppendQuoted(line []byte, text string) []byte {
	const hex, letters = "0123456789abcdef", "btn\x00fr"
	line = append(line, '"')
	rest := 0 // From here on nothing is written yet.
	for i := 0; i < len(text); i++ {
		b := text[i]
		if b >= ' ' && b != '"' && b != '\\' {
			continue
		}
		line = append(line, text[rest:i]...)
		rest = i + 1
		switch {
		case b >= ' ':
			line = append(line, '\\', b)
		case '\b' <= b && b <= '\r' && b != '\v':
			line = append(line, '\\', letters[b-'\b'])
		default:
			line = append(line, '\\', 'u', '0', '0', hex[b>>4], hex[b&15])
		}
	}
	return append(append(line, text[rest:]...), '"')
}

// AppendTexts appends a list of texts as JSON.
func AppendTexts(line []byte, texts []string) []byte {
	line = append(line, '[')
	for i, text := range texts {
		if i > 0 {
			line = append(line, ',')
		}
		line = AppendQuoted(line, text)
	}
	return append(line, ']')
}
