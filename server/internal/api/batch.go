package api

import (
	"bytes"
	"fmt"
	"net/http"
)

// The limits of a batch: of its lines, of those of them that are commands, of the long questions beside commands, of its bytes, and of
// those of the answers to its questions if there are several.
const (
	MaxBatchLines, MaxBatchCommands, MaxLongBeside = 1000, 100, 20
	MaxBatchBytes, MaxAnswerBytes                  = 2_097_152, 2_097_152
)

// A Batch is some calls that an office does in their order, with nothing of others between them.
type Batch struct {
	// Kind is Command if one of the calls is a command, and otherwise how all of them are to be answered.
	Kind  Kind
	Calls []*Call
	Rule  Rule
}

// NewBatch returns a batch of calls. Its questions are answered as those of a kind if there are no commands.
func NewBatch(kind Kind, calls ...*Call) Batch {
	for _, call := range calls {
		if call.Kind == Command {
			kind = Command
		}
	}
	return Batch{Kind: kind, Calls: calls}
}

// A LineError is what is wrong with a line of a batch. Lines are counted from 1.
type LineError struct {
	Number  int
	Refusal Refusal
}

func (e *LineError) Error() string { return fmt.Sprintf("line %d: %s", e.Number, e.Refusal.Name) }

func (e *LineError) Unwrap() error { return e.Refusal }

// setLine makes a call of what was read of a line, which asks for a function, or whether a user may do something in some session. The
// line of a question is made behind others, which are returned with it. That of a command has memory of its own, since it may be kept.
func (c *Call) setLine(found Fields, lines []byte) ([]byte, error) {
	name, err := nameIn(found)
	if err != nil {
		return nil, err
	}
	if name == DecideByUser {
		*c = Call{Function: DecideByUser, Kind: Question, Line: placeholder}
		return lines, c.read(others[name], found)
	}
	if err := c.readFunction(name, found); err != nil {
		return nil, err
	}
	if c.Kind == Command {
		return lines, c.write()
	}
	return c.writeBehind(lines)
}

// ParseBatch reads the lines of a batch. Each has to be a request; lines without text are none.
func ParseBatch(body []byte) (calls []*Call, err error) {
	most := bytes.Count(body, []byte("\n")) + 1
	if most > MaxBatchLines {
		most = MaxBatchLines + 1
	}
	// The calls are together in memory, and so are the lines of questions, which are mostly as long as those that were read.
	all, lines := make([]Call, most), make([]byte, 0, len(body))
	var found Fields // Those of a line, in the memory of the one before.
	add, commands, beside := found.add, 0, 0
	calls = make([]*Call, 0, most)
	for number := 1; len(body) > 0; number++ {
		var line []byte
		if line, body, _ = bytes.Cut(body, []byte("\n")); len(bytes.Trim(line, " \t\r")) == 0 {
			continue
		}
		call := &all[len(calls)]
		if found, err = found[:0], errNoObject; readMembers(string(line), '{', add) {
			lines, err = call.setLine(found, lines)
		}
		if err != nil {
			return nil, &LineError{number, RefusalOf(err)}
		}
		if call.Kind == Command {
			commands++
		}
		if call.IsLong() || call.Function == DecideByUser {
			beside++
		}
		call.Number = number
		calls = append(calls, call)
		if len(calls) > MaxBatchLines || commands > MaxBatchCommands {
			why := "a batch has at most %d lines, of which at most %d are commands"
			return nil, &LineError{number, BadRequestSince(http.StatusRequestEntityTooLarge, why, MaxBatchLines, MaxBatchCommands)}
		}
		if commands > 0 && beside > MaxLongBeside { // Nobody else's commands are done meanwhile.
			why := "a batch with commands has at most %d questions that may take long"
			return nil, &LineError{number, BadRequestSince(http.StatusRequestEntityTooLarge, why, MaxLongBeside)}
		}
	}
	return calls, nil
}
