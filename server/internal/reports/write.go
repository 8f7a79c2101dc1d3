package reports

import (
	"bufio"
	"encoding/csv"
	"errors"
	"io"
	"strings"
	"unicode/utf8"

	"rbac-node/internal/api"
)

// MostLines is how many lines a report has at most.
const MostLines = 1_000_000

// errEnough ends a report of which only the first lines are wanted.
var errEnough = errors.New("there are enough lines")

// WriteCSV writes the first lines of a report, below their heads.
func (report *Report) WriteCSV(to io.Writer, most int64) error {
	w := csv.NewWriter(to)
	if err := w.Write(report.Columns); err != nil {
		return err
	}
	escaped := make([]string, len(report.Columns))
	err := report.first(most, func(cells ...string) error {
		for i, cell := range cells {
			escaped[i] = cell
			if !report.Numbers[report.Columns[i]] {
				escaped[i] = Escaped(cell)
			}
		}
		return w.Write(escaped)
	})
	if err != nil {
		return err
	}
	w.Flush()
	return w.Error()
}

// Escaped returns a text with an apostrophe before each part that a spreadsheet would take for a formula: before the text itself, and behind
// a semicolon, which separates cells in many countries. Parts that begin with apostrophes before such a text get one more, so that no two
// names become one.
func Escaped(text string) string {
	parts := strings.Split(text, ";")
	for i, part := range parts {
		// Some spreadsheets also take the wide forms of these signs.
		if first, size := utf8.DecodeRuneInString(strings.TrimLeft(part, "'")); size > 0 && strings.ContainsRune("=+-@＝＋－＠", first) {
			parts[i] = "'" + part
		}
	}
	return strings.Join(parts, ";")
}

// WriteLines writes the first lines of a report, each as JSON: an object if the report has no columns, and otherwise a list of texts.
func (report *Report) WriteLines(to io.Writer, most int64) error {
	w := bufio.NewWriter(to)
	var line []byte
	err := report.first(most, func(cells ...string) error {
		line = line[:0]
		if report.Columns == nil {
			line = append(line, cells[0]...)
		} else {
			line = api.AppendTexts(line, cells)
		}
		_, err := w.Write(append(line, '\n'))
		return err
	})
	if err != nil {
		return err
	}
	return w.Flush()
}

func (report *Report) first(most int64, add func(cells ...string) error) error {
	made := int64(0)
	err := report.Write(func(cells ...string) error {
		if made == most {
			return errEnough
		}
		made++
		return add(cells...)
	})
	if errors.Is(err, errEnough) {
		return nil
	}
	return err
}
