package api

import "sort"

// KindOf returns the kind of a function, and whether there is such a function.
func KindOf(name string) (Kind, bool) {
	called, known := functions[name]
	return called.kind, known
}

// The operations that are no function of the office and that callers may have a right to.
const (
	// DecideByUser asks whether a user may do something in some session.
	DecideByUser = "decideByUser"
	// Lists, Snapshot and Watch read what no function lists.
	Lists, Snapshot, Watch = "lists", "snapshot", "watch"
	// Record reads who has asked for which command.
	Record = "record"
	// WhatIf tries commands over a copy of the office, and Review ends a review of who has what.
	WhatIf, Review = "whatIf", "review"
	// Reports reads reports as files.
	Reports = "reports"
)

// others has the keys of these operations.
var others = map[string][]string{
	DecideByUser: {"user", "operation", "object"}, Lists: nil, Snapshot: nil, Watch: nil, Record: nil, WhatIf: nil, Review: nil,
	Reports: nil,
}

// Placeholder is a question that costs the program little.
const Placeholder = `{"fn":"sessionRoles","session":"-"}`

var placeholder = []byte(Placeholder)

// IsOther reports whether an operation is one of these.
func IsOther(name string) bool {
	_, is := others[name]
	return is
}

// Others returns the names of these operations in their order.
func Others() (names []string) {
	for name := range others {
		names = append(names, name)
	}
	sort.Strings(names)
	return names
}

// long has the questions whose answer can be long, or can take librbac long. These are the milliseconds for the worst that is known in an
// office at the limits with names of 64 bytes, on one core of a Xeon at 2.5 GHz, and the kilobytes of that answer. Nothing else may be
// asked of librbac meanwhile. Other calls that can take more than 5 ms there: CheckUser 100, AssignmentConflicts 460, ActivationConflicts
// 50, CreationConflicts 5, StaticConflicts 36,000, DynamicConflicts 46,000, Load 2,000, Rows: 440, and commands that change
// inheritances 150 or 380 or make dynamic sets 110. BenchmarkAtLimits in internal/state measures most of them.
var long = map[string]bool{
	"authorizedUsers":        true, // 35 ms, 1,270 KB
	"authorizedRoles":        true, // 135 ms, 70 KB: a user who is assigned to all roles
	"rolePermissions":        true, // 24 ms, 680 KB
	"userPermissions":        true, // 137 ms, 680 KB
	"sessionPermissions":     true, // 18 ms, 680 KB
	"userOperationsOnObject": true, // 6 ms
	"assignedUsers":          true, // 12 ms, 1,270 KB: ten times what was measured for a tenth of the users
}

// IsLong reports whether a call asks for what can be long, or can take librbac long.
func (c *Call) IsLong() bool { return long[c.Function] }

// Keys returns the keys of a function or of such an operation, in their order.
func Keys(name string) []string {
	if called, known := functions[name]; known {
		return called.keys
	}
	return others[name]
}

// NewOther makes a call of such an operation, for those who judge it and for the office in this process. The program knows none: it gets
// a question that costs it little, so that the call has its place among the commands.
func NewOther(name string, pairs ...string) *Call {
	call := &Call{Function: name, Kind: Question, Line: placeholder}
	call.setTexts(pairs)
	return call
}

// Functions returns the names of all functions in their order.
func Functions() (names []string) {
	for name := range functions {
		names = append(names, name)
	}
	sort.Strings(names)
	return names
}

// NewEntry makes a call that changes nothing and is recorded as a text of JSON.
func NewEntry(name string, text []byte) *Call { return &Call{Function: name, Kind: Entry, Line: text} }

// IsRecorded reports whether a call is recorded: it is a command, or changes nothing and is an entry all the same.
func (c *Call) IsRecorded() bool { return c.Kind == Command || c.Kind == Entry }

// NewCall makes a call of a function all of whose values are texts: its keys, each followed by its text.
func NewCall(name string, pairs ...string) (*Call, error) {
	var arguments Arguments
	arguments.setTexts(pairs)
	return NewCallWith(name, arguments)
}

// NewCallWith makes a call of a function.
func NewCallWith(name string, arguments Arguments) (*Call, error) {
	called, known := functions[name]
	if !known {
		return nil, UnknownFunction
	}
	call := &Call{Function: name, Kind: called.kind, Arguments: arguments}
	return call, call.write()
}
