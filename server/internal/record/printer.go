package record

import (
	"bufio"
	"encoding/csv"
	"encoding/json"
	"errors"
	"io"
	"strings"

	"rbac-node/internal/api"
	"rbac-node/internal/reports"
)

// A Format is how lines are printed.
type Format string

// Formats.
const (
	// Text has tabs between its columns, and no line with their names.
	Text Format = "text"
	// CSV has a line with the names of the columns. Texts that a spreadsheet would take for formulas have an apostrophe before them.
	CSV Format = "csv"
	// JSON has an object in each line.
	JSON Format = "json"
)

var errFormat = errors.New("a format is text, csv or json")

// Set reads a format from a command line.
func (f *Format) Set(text string) error {
	switch Format(text) {
	case Text, CSV, JSON:
		*f = Format(text)
		return nil
	}
	return errFormat
}

func (f *Format) String() string { return string(*f) }

// A cell is the value of a column in a line. If it is JSON, it is a value of its own in an object.
type cell struct {
	text   string
	isJSON bool
}

// withoutSemicolons returns the text of a cell. In JSON semicolons are escaped, so that a spreadsheet finds no formula behind one, and the
// text still means the same.
func (c cell) withoutSemicolons(text string) string {
	if !c.isJSON || !json.Valid([]byte(text)) {
		return text
	}
	return strings.ReplaceAll(text, ";", `\u003b`)
}

// A printer prints lines. No format has a letter that a terminal obeys.
type printer struct {
	format  Format
	columns []string
	out     *bufio.Writer
	csv     *csv.Writer
}

func newPrinter(to io.Writer, format Format, columns ...string) (*printer, error) {
	t := &printer{format: format, columns: columns, out: bufio.NewWriter(to)}
	if format == CSV {
		t.csv = csv.NewWriter(t.out)
		return t, t.csv.Write(columns)
	}
	return t, nil
}

// addNote adds what has to be known about the lines before them, and reports whether the format has room for it.
func (t *printer) addNote(note string) (has bool, err error) {
	switch t.format {
	case CSV:
		return false, nil
	case JSON:
		_, err = t.out.WriteString(printed(`{"note":`+quoted(note)+"}") + "\n")
	default:
		_, err = t.out.WriteString("# " + printed(note) + "\n")
	}
	return true, err
}

func (t *printer) add(cells ...cell) (err error) {
	switch t.format {
	case CSV:
		texts := make([]string, len(cells))
		for i, one := range cells {
			texts[i] = reports.Escaped(one.withoutSemicolons(printed(one.text)))
		}
		return t.csv.Write(texts)
	case JSON:
		_, err = t.out.WriteString(printed(objectOf(t.columns, cells)) + "\n")
	default:
		texts := make([]string, len(cells))
		for i, one := range cells {
			texts[i] = one.text
		}
		_, err = t.out.WriteString(printed(strings.Join(texts, "\t")) + "\n")
	}
	return err
}

// objectOf writes a line as an object, without the cells that are empty.
func objectOf(columns []string, cells []cell) string {
	var line strings.Builder
	for i, one := range cells {
		if one.text == "" {
			continue
		}
		line.WriteByte("{,"[min(line.Len(), 1)])
		line.WriteString(quoted(columns[i]) + ":")
		if one.isJSON && json.Valid([]byte(one.text)) {
			line.WriteString(one.text)
		} else {
			line.WriteString(quoted(one.text))
		}
	}
	return line.String() + "}"
}

func min(a, b int) int {
	if a < b {
		return a
	}
	return b
}

func quoted(text string) string { return string(api.AppendQuoted(nil, text)) }

func (t *printer) end() error {
	if t.csv != nil {
		t.csv.Flush()
		if err := t.csv.Error(); err != nil {
			return err
		}
	}
	return t.out.Flush()
}
