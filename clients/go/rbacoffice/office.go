// Package rbacoffice has an office of roles in this process, by the library librbac.
//
// An Office answers the lines of docs/reference/api.md, and decides about access without a line. docs/howto/embed.md says when to use it,
// and what is proved about it. The compiler of C has to find rbac.h, and the linker librbac, which linked.go names.
package rbacoffice

// #include <stdlib.h>
// #include "rbac.h"
//
// // ROWS is the most rows that one call returns, and ROOM has enough bytes for that many conflicts.
// enum { ROWS = 64, ROOM = 128 * ROWS };
//
// // An office with what its calls return. It is in the memory of C: cgo would check a pointer to Go's memory at each call,
// // and copy an array that it leads to. For the same reason Go passes its address as a number.
// typedef struct {
//     rbac_office office;
//     size_t length, total;
//     rbac_row rows[ROWS];
//     char out[ROOM];
// } room;
//
// static int32_t decide(uintptr_t at, int of_user, _GoString_ holder, _GoString_ operation, _GoString_ object) {
//     return (of_user ? rbac_check_user : rbac_check)(&((const room *)at)->office, _GoStringPtr(holder), _GoStringLen(holder),
//         _GoStringPtr(operation), _GoStringLen(operation), _GoStringPtr(object), _GoStringLen(object));
// }
//
// static uint32_t explain(uintptr_t at, int of_user, _GoString_ holder, _GoString_ operation, _GoString_ object) {
//     room *made = (room *)at;
//     return (of_user ? rbac_explain_user : rbac_explain_session)(&made->office, _GoStringPtr(holder), _GoStringLen(holder),
//         _GoStringPtr(operation), _GoStringLen(operation), _GoStringPtr(object), _GoStringLen(object), made->out, ROOM, made->rows);
// }
//
// static uint32_t assignment_conflicts(uintptr_t at, _GoString_ user, _GoString_ role, size_t index) {
//     room *made = (room *)at;
//     return rbac_assignment_conflicts(&made->office, _GoStringPtr(user), _GoStringLen(user), _GoStringPtr(role),
//         _GoStringLen(role), index, made->out, ROOM, made->rows, ROWS, &made->length, &made->total);
// }
//
// static uint32_t activation_conflicts(uintptr_t at, _GoString_ user, _GoString_ session, _GoString_ role, size_t index) {
//     room *made = (room *)at;
//     return rbac_activation_conflicts(&made->office, _GoStringPtr(user), _GoStringLen(user), _GoStringPtr(session),
//         _GoStringLen(session), _GoStringPtr(role), _GoStringLen(role), index, made->out, ROOM, made->rows, ROWS,
//         &made->length, &made->total);
// }
//
// static uint32_t inheritance_conflicts(uintptr_t at, int of_sessions, _GoString_ asc, _GoString_ desc, size_t index) {
//     room *made = (room *)at;
//     return rbac_inheritance_conflicts(&made->office, of_sessions, _GoStringPtr(asc), _GoStringLen(asc), _GoStringPtr(desc),
//         _GoStringLen(desc), index, made->out, ROOM, made->rows, ROWS, &made->length, &made->total);
// }
//
// static uint32_t creation_conflicts(uintptr_t at, _GoString_ user, _GoString_ roles, const size_t *lengths, size_t count,
//     size_t index) {
//     room *made = (room *)at;
//     return rbac_creation_conflicts(&made->office, _GoStringPtr(user), _GoStringLen(user), _GoStringPtr(roles), lengths, count,
//         index, made->out, ROOM, made->rows, ROWS, &made->length, &made->total);
// }
//
// static uint32_t range_of(uintptr_t at, uint32_t table, _GoString_ first, size_t *start, size_t *end) {
//     return rbac_range(&((room *)at)->office, table, _GoStringPtr(first), _GoStringLen(first), start, end);
// }
//
// static uint32_t answer(uintptr_t at, const void *line, size_t length) {
//     room *made = (room *)at;
//     return rbac_answer(&made->office, line, length, made->out, ROOM, &made->length);
// }
//
// static uint32_t kept_answer(uintptr_t at, void *out, size_t length) {
//     room *made = (room *)at;
//     return rbac_kept_answer(&made->office, out, length, &made->length);
// }
//
// static uint32_t rows(uintptr_t at, uint32_t table, size_t index, size_t most) {
//     room *made = (room *)at;
//     return rbac_rows(&made->office, table, index, made->out, ROOM, made->rows, most < ROWS ? most : ROWS, &made->length);
// }
//
// static uint32_t add_row(uintptr_t at, uint32_t table, _GoString_ first, _GoString_ second, _GoString_ third,
//     uint32_t number) {
//     return rbac_add_row(&((room *)at)->office, table, _GoStringPtr(first), _GoStringLen(first), _GoStringPtr(second),
//         _GoStringLen(second), _GoStringPtr(third), _GoStringLen(third), number);
// }
import "C"

import (
	"encoding/json"
	"errors"
	"fmt"
	"runtime"
	"strings"
	"sync"
	"unsafe"
)

// The errors that don't depend on the request.
var (
	// ErrClosed is the error of an office that was closed.
	ErrClosed = errors.New("rbacoffice: the office is closed")
	// ErrMemory says that an allocation failed. A line was done then, or nothing was, and Revision shows which.
	ErrMemory = errors.New("rbacoffice: an allocation failed")
)

// RefusedError says that the office refused a request, and that nothing was done. Code and Name are those of docs/reference/api.md.
type RefusedError struct {
	Code    int
	Name    string
	Details map[string]interface{} // the further key of the answer, if any
}

func (e *RefusedError) Error() string {
	return fmt.Sprintf("rbacoffice: refused: %d %s", e.Code, e.Name)
}

// Office is an office in memory. Its methods may be called by several goroutines. Check, CheckUser and Revision run side by side;
// each other method waits for the calls before it, and runs alone.
type Office struct {
	mu   sync.RWMutex
	room *C.room // nil once the office is closed
}

// Open returns a new and empty office. Close frees it, and so does the garbage collector, some time after its last use.
func Open() (*Office, error) {
	room := (*C.room)(C.calloc(1, C.sizeof_room))
	if room == nil {
		return nil, ErrMemory
	}
	if code := C.rbac_open(&room.office); code != C.RBAC_DONE {
		C.free(unsafe.Pointer(room))
		return nil, errorOf(code)
	}
	o := &Office{room: room}
	runtime.SetFinalizer(o, (*Office).Close)
	return o, nil
}

// Close frees the office. Further calls return ErrClosed.
func (o *Office) Close() {
	o.mu.Lock()
	defer o.mu.Unlock()
	if o.room == nil {
		return
	}
	runtime.SetFinalizer(o, nil)
	C.rbac_close(&o.room.office)
	C.free(unsafe.Pointer(o.room))
	o.room = nil
}

// at returns the address of the room. The caller holds the lock, at least for reading, and the unlocking afterwards keeps o from the finalizer.
func (o *Office) at() C.uintptr_t {
	return C.uintptr_t(uintptr(unsafe.Pointer(o.room)))
}

// out returns these bytes of the room's buffer, which the next call overwrites. The caller holds the lock.
func (o *Office) out(from, to C.size_t) []byte {
	return (*[C.ROOM]byte)(unsafe.Pointer(&o.room.out))[from:to]
}

// Answer returns the answer to a line of docs/reference/api.md, both without a line feed.
func (o *Office) Answer(line []byte) ([]byte, error) {
	o.mu.Lock()
	defer o.mu.Unlock()
	if o.room == nil {
		return nil, ErrClosed
	}
	var code C.uint32_t
	if len(line) == 0 {
		code = C.answer(o.at(), nil, 0)
	} else {
		code = C.answer(o.at(), unsafe.Pointer(&line[0]), C.size_t(len(line)))
	}
	switch code {
	case C.RBAC_DONE:
		return append([]byte(nil), o.out(0, o.room.length)...), nil
	case C.RBAC_SHORT:
		return o.keptAnswer()
	default:
		return nil, errorOf(code)
	}
}

// keptAnswer returns an answer that is longer than the room's buffer. The caller holds the lock.
func (o *Office) keptAnswer() ([]byte, error) {
	answer := make([]byte, o.room.length)
	if code := C.kept_answer(o.at(), unsafe.Pointer(&answer[0]), o.room.length); code != C.RBAC_DONE {
		return nil, errorOf(code)
	}
	return answer, nil
}

// Call calls any function with these arguments, and stores its value in value, unless that is nil.
func (o *Office) Call(function string, arguments map[string]interface{}, value interface{}) error {
	request := map[string]interface{}{"fn": function}
	for key, argument := range arguments {
		request[key] = argument
	}
	line, err := json.Marshal(request)
	if err != nil {
		return fmt.Errorf("rbacoffice: the arguments of %s: %w", function, err)
	}
	text, err := o.Answer(line)
	if err != nil {
		return err
	}
	var answer struct {
		OK    bool
		Value json.RawMessage
		Code  int
		Error string
	}
	if err := json.Unmarshal(text, &answer); err != nil {
		return fmt.Errorf("rbacoffice: the answer of %s: %w", function, err)
	}
	if !answer.OK {
		return refusal(text, answer.Code, answer.Error)
	}
	if value == nil || answer.Value == nil {
		return nil
	}
	if err := json.Unmarshal(answer.Value, value); err != nil {
		return fmt.Errorf("rbacoffice: the value of %s: %w", function, err)
	}
	return nil
}

// refusal returns the error of an answer that reports a refusal.
func refusal(text []byte, code int, name string) error {
	var details map[string]interface{}
	if err := json.Unmarshal(text, &details); err != nil {
		return fmt.Errorf("rbacoffice: the answer %s: %w", text, err)
	}
	delete(details, "code")
	delete(details, "error")
	return &RefusedError{Code: code, Name: name, Details: details}
}

// Check decides whether the session may do the operation on the object. With an error the access has to be denied.
func (o *Office) Check(session, operation, object string) (bool, error) {
	return o.decide(0, session, operation, object)
}

// CheckUser decides whether the user could do the operation on the object in some session: whether the user may create a session
// for which Check returns true, as long as there may be one more. With an error the access has to be denied.
func (o *Office) CheckUser(user, operation, object string) (bool, error) {
	return o.decide(1, user, operation, object)
}

// decide returns what the library decides about the holder, which is a user if ofUser is 1, and a session if it is 0.
func (o *Office) decide(ofUser C.int, holder, operation, object string) (bool, error) {
	o.mu.RLock()
	if o.room == nil {
		o.mu.RUnlock()
		return false, ErrClosed
	}
	decision := C.decide(o.at(), ofUser, holder, operation, object)
	o.mu.RUnlock()
	switch decision {
	case 1:
		return true, nil
	case 0:
		return false, nil
	default:
		return false, errorOf(C.uint32_t(-decision))
	}
}

// A Why is the reason of a decision.
type Why uint32

// The reasons. About a user a reason is the first that applies, from Locked on; about a session it is NotGranted, NotActive or Allowed.
const (
	// Allowed says that there is access: Names has an assigned role, or one that was activated, and the role that is granted the
	// permission, which is this one or a junior of it.
	Allowed Why = C.RBAC_WHY_ALLOWED
	// Locked says that the user is locked.
	Locked Why = C.RBAC_WHY_LOCKED
	// NotGranted says that the permission is granted to no role.
	NotGranted Why = C.RBAC_WHY_NOT_GRANTED
	// NotAuthorized says that the user is authorized for no role to which it is granted.
	NotAuthorized Why = C.RBAC_WHY_NOT_AUTHORIZED
	// Separated says that no session may have such a role: Names has the first, and the first dynamic set that it violates alone.
	Separated Why = C.RBAC_WHY_SEPARATED
	// NotActive says that the session has no role to which it is granted.
	NotActive Why = C.RBAC_WHY_NOT_ACTIVE
)

// Reason says why a decision is as it is. Names that it doesn't have are empty.
type Reason struct {
	Why   Why
	Names [2]string
}

// Conflict is a separation of duty set that an inheritance would violate, with the first user who would be authorized for too many of
// its roles, or with the first session that would have too many.
type Conflict struct {
	Set, Holder string
}

// ViolatedSet is a dynamic separation of duty set that a new session would violate, with those of its roles that the session would have,
// in byte order.
type ViolatedSet struct {
	Set   string
	Roles []string
}

// Explain says why Check decides as it does: Allowed exactly if it returns true.
func (o *Office) Explain(session, operation, object string) (Reason, error) {
	return o.explain(0, session, operation, object)
}

// ExplainUser says why CheckUser decides as it does: Allowed exactly if it returns true.
func (o *Office) ExplainUser(user, operation, object string) (Reason, error) {
	return o.explain(1, user, operation, object)
}

// explain returns the reason of the decision about the holder, which is a user if ofUser is 1, and a session if it is 0.
func (o *Office) explain(ofUser C.int, holder, operation, object string) (Reason, error) {
	o.mu.Lock()
	defer o.mu.Unlock()
	if o.room == nil {
		return Reason{}, ErrClosed
	}
	if code := C.explain(o.at(), ofUser, holder, operation, object); code != C.RBAC_DONE {
		return Reason{}, errorOf(code)
	}
	row := o.room.rows[0]
	text := string(o.out(0, row.first+row.second))
	return Reason{Why(row.number), [2]string{text[:row.first], text[row.first:]}}, nil
}

// AssignmentConflicts returns the static separation of duty sets that would be violated if the user were assigned to the role, in byte
// order. If assignUser is refused with StaticSeparation, it names the first.
func (o *Office) AssignmentConflicts(user, role string) ([]string, error) {
	return o.sets(func(index C.size_t) C.uint32_t { return C.assignment_conflicts(o.at(), user, role, index) })
}

// ActivationConflicts returns the dynamic separation of duty sets that would be violated if the role were activated in the user's
// session, in byte order. If addActiveRole is refused with DynamicSeparation, it names the first.
func (o *Office) ActivationConflicts(user, session, role string) ([]string, error) {
	return o.sets(func(index C.size_t) C.uint32_t { return C.activation_conflicts(o.at(), user, session, role, index) })
}

// sets returns the names of the sets that a function of the library writes into the room.
func (o *Office) sets(from func(index C.size_t) C.uint32_t) ([]string, error) {
	rows, err := o.violations(from)
	if err != nil {
		return nil, err
	}
	names := make([]string, len(rows))
	for i, row := range rows {
		names[i] = row.Names[0]
	}
	return names, nil
}

// StaticConflicts returns the static separation of duty sets that would be violated if asc became an immediate ascendant of desc, in
// byte order, each with the first user in byte order who would violate it. If addInheritance is refused with StaticSeparation, it names
// the first.
func (o *Office) StaticConflicts(asc, desc string) ([]Conflict, error) {
	return o.conflicts(0, asc, desc)
}

// DynamicConflicts returns the dynamic sets that would be violated, each with the first session in byte order that would violate it.
// If addInheritance is refused with DynamicSeparation, it names the first.
func (o *Office) DynamicConflicts(asc, desc string) ([]Conflict, error) {
	return o.conflicts(1, asc, desc)
}

// conflicts returns the sets that an inheritance would violate, with users, or with sessions if ofSessions is 1.
func (o *Office) conflicts(ofSessions C.int, asc, desc string) ([]Conflict, error) {
	rows, err := o.violations(func(index C.size_t) C.uint32_t { return C.inheritance_conflicts(o.at(), ofSessions, asc, desc, index) })
	if err != nil {
		return nil, err
	}
	found := make([]Conflict, len(rows))
	for i, row := range rows {
		found[i] = Conflict{row.Names[0], row.Names[1]}
	}
	return found, nil
}

// CreationConflicts returns the dynamic separation of duty sets that a new session of the user with these roles would violate, in byte
// order. If createSession is refused with DynamicSeparation, it names the first.
func (o *Office) CreationConflicts(user string, roles []string) ([]ViolatedSet, error) {
	lengths := make([]C.size_t, len(roles)+1) // One more, so that the first has an address.
	for i, role := range roles {
		lengths[i] = C.size_t(len(role))
	}
	names := strings.Join(roles, "")
	rows, err := o.violations(func(index C.size_t) C.uint32_t {
		return C.creation_conflicts(o.at(), user, names, &lengths[0], C.size_t(len(roles)), index)
	})
	if err != nil {
		return nil, err
	}
	found := []ViolatedSet{}
	for _, row := range rows {
		set, role := row.Names[0], row.Names[1]
		if len(found) == 0 || found[len(found)-1].Set != set {
			found = append(found, ViolatedSet{Set: set})
		}
		last := &found[len(found)-1]
		last.Roles = append(last.Roles, role)
	}
	return found, nil
}

// violations returns the rows that a function of the library writes into the room from a place on, until it has written all. They are
// of no table.
func (o *Office) violations(from func(index C.size_t) C.uint32_t) (rows []Row, err error) {
	o.mu.Lock()
	defer o.mu.Unlock()
	if o.room == nil {
		return nil, ErrClosed
	}
	for o.room.total = 1; C.size_t(len(rows)) < o.room.total; {
		if code := from(C.size_t(len(rows))); code != C.RBAC_DONE {
			return nil, errorOf(code)
		}
		rows = o.appendRows(rows, tables)
	}
	return rows, nil
}

// Revision returns how many commands the office has accepted. A decision holds as long as this stays the same.
func (o *Office) Revision() (uint64, error) {
	o.mu.RLock()
	defer o.mu.RUnlock()
	if o.room == nil {
		return 0, ErrClosed
	}
	var revision C.uint64_t
	if code := C.rbac_revision(&o.room.office, &revision); code != C.RBAC_DONE {
		return 0, errorOf(code)
	}
	return uint64(revision), nil
}

// refusals has the names of the refusals of questions without a line, and of rows.
var refusals = map[C.uint32_t]string{
	C.RBAC_BAD_NAME: "BadName", 2: "NoUser", 4: "NoRole", 6: "NoObject", 16: "Cycle", 26: "NoSession", 28: "NotOwner",
	29: "NotAuthorized", 32: "TooMany", 33: "NoOperation", 37: "UserLocked", 52: "Damaged",
}

// errorOf returns the error for a code of the library, which isn't RBAC_DONE.
func errorOf(code C.uint32_t) error {
	switch code {
	case C.RBAC_CLOSED:
		return ErrClosed
	case C.RBAC_MEMORY:
		return ErrMemory
	}
	if name, ok := refusals[code]; ok {
		return &RefusedError{Code: int(code), Name: name}
	}
	return fmt.Errorf("rbacoffice: librbac returned %d", code)
}

// Table is a table of an office.
type Table uint32

// The tables, with the names that a row of each has.
const (
	Users                Table = iota // user
	Roles                             // role
	Objects                           // object
	Permissions                       // object, operation
	Assignments                       // user, role
	Inheritances                      // ascendant, descendant
	ClosurePairs                      // senior, junior
	StaticMembers                     // set, role
	DynamicMembers                    // set, role
	Sessions                          // session, user
	ActivatedRoles                    // session, role
	Grants                            // object, operation, role
	StaticCardinalities               // set
	DynamicCardinalities              // set
	Locks                             // user
	tables
)

// Row is a row of a table. Names that the table doesn't have are empty. Number is the cardinality of a separation of duty set,
// and otherwise 0.
type Row struct {
	Table  Table
	Names  [3]string
	Number uint32
}

// Rows returns the rows of all tables, which Load takes.
func (o *Office) Rows() ([]Row, error) {
	o.mu.Lock()
	defer o.mu.Unlock()
	if o.room == nil {
		return nil, ErrClosed
	}
	var rows []Row
	for table := Table(0); table < tables; table++ {
		for index := 0; ; index += int(o.room.length) {
			var err error
			if rows, err = o.rowsFrom(rows, table, index, mostRows); err != nil {
				return nil, err
			}
			if o.room.length == 0 {
				break
			}
		}
	}
	return rows, nil
}

// mostRows is how many rows one call of the library returns at most.
const mostRows = C.ROWS

// RowsFrom appends rows of a table from a place on, which is counted from 0, to others: at least one if the table has one there, and at
// most as many as wanted. The rows of a table are in the byte order of their names.
func (o *Office) RowsFrom(rows []Row, table Table, index, most int) ([]Row, error) {
	o.mu.Lock()
	defer o.mu.Unlock()
	if o.room == nil {
		return nil, ErrClosed
	}
	return o.rowsFrom(rows, table, index, most)
}

// rowsFrom appends rows of a table from a place on. The caller holds the lock.
func (o *Office) rowsFrom(rows []Row, table Table, index, most int) ([]Row, error) {
	if code := C.rows(o.at(), C.uint32_t(table), C.size_t(index), C.size_t(most)); code != C.RBAC_DONE {
		return nil, errorOf(code)
	}
	return o.appendRows(rows, table), nil
}

// Range returns the places of the rows of a table with this first name, counted from 0: from start up to the one before end. These are
// also how many rows have a lesser first name, and how many have none that is greater. So the name may be any text.
func (o *Office) Range(table Table, first string) (start, end int, err error) {
	o.mu.Lock()
	defer o.mu.Unlock()
	from, to, err := o.rangeOf(table, first)
	return int(from), int(to), err
}

// rangeOf is Range. The caller holds the lock.
func (o *Office) rangeOf(table Table, first string) (start, end C.size_t, err error) {
	if o.room == nil {
		return 0, 0, ErrClosed
	}
	if code := C.range_of(o.at(), C.uint32_t(table), first, &start, &end); code != C.RBAC_DONE {
		return 0, 0, errorOf(code)
	}
	return start, end, nil
}

// RowsWith returns the rows of the table with this first name, in byte order.
func (o *Office) RowsWith(table Table, first string) ([]Row, error) {
	o.mu.Lock()
	defer o.mu.Unlock()
	index, end, err := o.rangeOf(table, first)
	if err != nil {
		return nil, err
	}
	rows := []Row{}
	for index < end {
		if code := C.rows(o.at(), C.uint32_t(table), index, mostRows); code != C.RBAC_DONE {
			return nil, errorOf(code)
		}
		if o.room.length > end-index {
			o.room.length = end - index
		}
		rows = o.appendRows(rows, table)
		index += o.room.length
	}
	return rows, nil
}

// appendRows appends the rows of a table that the library has just returned. The caller holds the lock.
func (o *Office) appendRows(rows []Row, table Table) []Row {
	made := o.room.rows[:o.room.length]
	length := C.size_t(0)
	for _, row := range made {
		length += row.first + row.second + row.third
	}
	text := string(o.out(0, length))
	for _, row := range made {
		names := [3]string{text[:row.first]}
		text = text[row.first:]
		names[1], text = text[:row.second], text[row.second:]
		names[2], text = text[:row.third], text[row.third:]
		rows = append(rows, Row{Table: table, Names: names, Number: uint32(row.number)})
	}
	return rows
}

// Load returns the office that has exactly these rows, in any order. Its revision counts on from the one that is given.
func Load(rows []Row, revision uint64) (*Office, error) {
	o, err := Open()
	if err != nil {
		return nil, err
	}
	if err := o.load(rows, revision); err != nil {
		o.Close()
		return nil, err
	}
	return o, nil
}

// load has the office start again with exactly these rows.
func (o *Office) load(rows []Row, revision uint64) error {
	o.mu.Lock()
	defer o.mu.Unlock()
	for _, row := range rows {
		code := C.add_row(o.at(), C.uint32_t(row.Table), row.Names[0], row.Names[1], row.Names[2], C.uint32_t(row.Number))
		if code != C.RBAC_DONE {
			return fmt.Errorf("the row %v: %w", row, errorOf(code))
		}
	}
	if code := C.rbac_load(&o.room.office, C.uint64_t(revision)); code != C.RBAC_DONE {
		return errorOf(code)
	}
	return nil
}
