package record

import (
	"context"
	"encoding/csv"
	"errors"
	"fmt"
	"io"
	"strconv"
	"strings"
	"unicode"
	"unicode/utf16"

	"rbac-node/internal/recorded"
)

// A Filter chooses entries.
type Filter recorded.Filter

// ends of records of a text of assignments.
var ends = strings.NewReplacer("\r\n", "\n", "\r", "\n")

// importHas reports whether a text of assignments has a name in a column: users are in the first one, and roles in the second. In a
// text that is no CSV, which the office refuses, a name may be anywhere.
func importHas(text, name string, column int) bool {
	reader := csv.NewReader(strings.NewReader(ends.Replace(strings.TrimPrefix(text, "\ufeff"))))
	reader.FieldsPerRecord, reader.ReuseRecord = -1, true
	for number := 0; ; number++ {
		fields, err := reader.Read()
		switch {
		case errors.Is(err, io.EOF):
			return false
		case err != nil:
			return strings.Contains(text, name)
		case number > 0 && column < len(fields) && fields[column] == name: // The first record has the names of the columns.
			return true
		}
	}
}

// printed returns a text in which letters that a terminal obeys, or that turn other letters round, are written as JSON does.
func printed(text string) string {
	isShown := func(letter rune) bool {
		return letter == '\t' || letter >= ' ' && letter < 0x7f || letter >= 0xa0 && !unicode.In(letter, unicode.Cf, unicode.Zl, unicode.Zp)
	}
	if strings.IndexFunc(text, func(letter rune) bool { return !isShown(letter) }) < 0 {
		return text
	}
	return escaped(text, isShown)
}

// escaped returns a text in which all letters but those that are kept are written as JSON escapes them.
func escaped(text string, isKept func(rune) bool) string {
	var out strings.Builder
	for _, letter := range text {
		switch {
		case isKept(letter):
			out.WriteRune(letter)
		case letter > 0xffff:
			first, second := utf16.EncodeRune(letter)
			fmt.Fprintf(&out, "\\u%04x\\u%04x", first, second)
		default:
			fmt.Fprintf(&out, "\\u%04x", letter)
		}
	}
	return out.String()
}

// where returns the condition of a filter, and its values. An import is chosen if its text has the name.
func (f *Filter) where() (string, []any) {
	conditions, values := []string{"1"}, []any{}
	add := func(value, condition string) {
		if value == "" {
			return
		}
		conditions = append(conditions, "("+condition+")")
		for i := 0; i < strings.Count(condition, "?"); i++ {
			values = append(values, value)
		}
	}
	const inImport = " OR instr(request, '\"csv\":') > 0 AND import_has(coalesce(request ->> 'csv', ''), ?, "
	add(f.User, "request ->> 'user' = ?"+inImport+"0)")
	add(f.Role, "? IN (request ->> 'role', request ->> 'asc', request ->> 'desc') OR "+
		"EXISTS (SELECT 1 FROM json_each(coalesce(request -> 'roles', '[]')) WHERE value = ?)"+inImport+"1)")
	add(f.Object, "request ->> 'object' = ?")
	add(f.Operation, "request ->> 'operation' = ?")
	add(f.Set, "request ->> 'set' = ?")
	add(f.Session, "request ->> 'session' = ?")
	add(f.Reason, "instr(reason, ?) > 0")
	add(f.Function, "request ->> 'fn' = ?")
	add(f.Caller, "caller = ?")
	add(f.Since, "at >= ?")
	add(f.Until, "at < ?")
	if f.IsRefused {
		conditions = append(conditions, "answer ->> 'error' IS NOT NULL")
	}
	return strings.Join(conditions, " AND "), values
}

// entryColumns are what is shown of an entry.
var entryColumns = []string{"number", "at", "caller", "reason", "request", "answer", "found", "chain"}

// Show prints the entries that a filter chooses: number, time, caller, reason, request and answer, and for programs also whether a start
// has found the answer, and the link. In a text an answer that was found has a star, and an entry without an answer has a question mark
// in its place.
func (t *Tool) Show(ctx context.Context, filter Filter, format Format) error {
	out, err := newPrinter(t.Out, format, entryColumns...)
	if err != nil {
		return err
	}
	next := int64(1)
	where, values := filter.where()
	err = t.eachWhole(ctx, func(v *view) error {
		if v.parts[0].first > next && t.Part == "" {
			fmt.Fprintln(t.Err, missing(next, v.parts[0]))
		}
		next = v.last.n + 1
		return eachEntry(ctx, v.tx, "WHERE "+where+" ORDER BY n", values, func(e *entry) error { return out.add(cellsOf(e, out.format)...) })
	})
	if ending := out.end(); err == nil { // What was read is shown.
		err = ending
	}
	return err
}

// eachEntry does something with each entry that a condition chooses.
func eachEntry(ctx context.Context, db querier, condition string, values []any, do func(e *entry) error) error {
	return eachRow(ctx, db, "SELECT "+columns+" FROM entry "+condition, values, func(row scanner) error {
		e, err := entryOf(row)
		if err != nil {
			return err
		}
		return do(&e)
	})
}

func cellsOf(e *entry, format Format) []cell {
	cells := []cell{{strconv.FormatInt(e.n, 10), true}, {text: e.at}, {text: e.caller}, {text: e.reason}, {e.request, true}, {e.answer, true}}
	if format != Text {
		return append(cells, cell{strconv.FormatBool(e.found), true}, cell{text: e.ch})
	}
	answer := &cells[len(cells)-1].text
	if e.found {
		*answer += " *"
	}
	if e.answer == "" {
		*answer = "?"
	}
	return cells
}
