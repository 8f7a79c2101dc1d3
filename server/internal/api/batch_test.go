package api

import (
	"bytes"
	"errors"
	"fmt"
	"net/http"
	"strings"
	"testing"
)

func TestParseBatch(t *testing.T) {
	const command, question = `{"fn":"addUser","user":"ann"}` + "\n", `{"fn":"ssdRoleSets"}` + "\n"
	for _, test := range []struct {
		name, body     string
		calls, refused int
		status         int
	}{
		{"nothing", "", 0, 0, 0},
		{"blank lines", "\n \r\n\t", 0, 0, 0},
		{"no line end", strings.TrimSpace(command), 1, 0, 0},
		{"CR before the line end", `{"fn":"ssdRoleSets"}` + "\r\n" + question, 2, 0, 0},
		{"1,000 questions", strings.Repeat(question, MaxBatchLines), MaxBatchLines, 0, 0},
		{"1,001 questions", strings.Repeat(question, MaxBatchLines+1), 0, MaxBatchLines + 1, http.StatusRequestEntityTooLarge},
		{"100 commands and 900 questions", strings.Repeat(command, 100) + strings.Repeat(question, 900), 1000, 0, 0},
		{"101 commands", strings.Repeat(command, MaxBatchCommands+1), 0, MaxBatchCommands + 1, http.StatusRequestEntityTooLarge},
		{"no JSON", command + "\n" + "x\n" + command, 0, 3, http.StatusBadRequest},
		{"no function", `{"fn":"fly"}`, 0, 1, http.StatusNotFound},
		{"a long line", `{"fn":"addUser","user":"` + strings.Repeat("x", 65_536) + `"}`, 0, 1, http.StatusRequestEntityTooLarge},
	} {
		t.Run(test.name, func(t *testing.T) {
			calls, err := ParseBatch([]byte(test.body))
			var at *LineError
			if errors.As(err, &at) != (test.refused > 0) || at != nil && (at.Number != test.refused || at.Refusal.Status != test.status) {
				t.Errorf("%v", err)
			}
			var refused Refusal
			if errors.As(err, &refused) != (test.refused > 0) {
				t.Errorf("%v isn't answered as a refusal", err)
			}
			if len(calls) != test.calls {
				t.Errorf("%d calls", len(calls))
			}
		})
	}
}

func BenchmarkParseBatch(b *testing.B) {
	var body bytes.Buffer
	for i := 0; i < 100; i++ {
		fmt.Fprintf(&body, `{"fn":"checkAccess","session":"session %d","operation":"read","object":"object %d"}`+"\n", i, i)
	}
	b.ReportAllocs()
	for i := 0; i < b.N; i++ {
		if _, err := ParseBatch(body.Bytes()); err != nil {
			b.Fatal(err)
		}
	}
}
