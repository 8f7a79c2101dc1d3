/* The functions of librbac for Python. Each office has a read-write lock, and lines are answered without the interpreter's lock.
 * A fork waits until no thread is in a call of an office, so the child has each office whole, with its lock free. */
#define PY_SSIZE_T_CLEAN
#include <Python.h>
#include <pthread.h>
#include <sched.h>
#include "rbac.h"

/* Answers of this length need no allocation. */
#define ROOM 4096
/* So many rows are read at once, at most. */
#define ROWS 64

typedef struct library {
    PyObject_HEAD
    pthread_rwlock_t lock;
    rbac_office office;
    struct library *before, *after; /* the other offices of the process */
    int is_forking;                 /* whether the thread that forks has the lock */
} Library;

/* The first of the offices of the process. The interpreter's lock guards the list. */
static Library *first;

/* What is called with the code of a decision that was refused, and raises the exception. */
static PyObject *on_refusal;

/* Waits until this thread has the office alone, without the interpreter's lock if another thread has it. */
static void enter(Library *self)
{
    if (pthread_rwlock_trywrlock(&self->lock) == 0)
        return;
    Py_BEGIN_ALLOW_THREADS
    pthread_rwlock_wrlock(&self->lock);
    Py_END_ALLOW_THREADS
}

/* The same for a question, beside which other threads may ask others. */
static void enter_to_ask(Library *self)
{
    if (pthread_rwlock_tryrdlock(&self->lock) == 0)
        return;
    Py_BEGIN_ALLOW_THREADS
    pthread_rwlock_rdlock(&self->lock);
    Py_END_ALLOW_THREADS
}

static void leave(Library *self)
{
    pthread_rwlock_unlock(&self->lock);
}

/* Sets the exception for a code and returns NULL. */
static PyObject *raise(uint32_t code)
{
    if (code == RBAC_MEMORY)
        return PyErr_NoMemory();
    if (code == RBAC_CLOSED) {
        PyErr_SetString(PyExc_ValueError, "the office is closed");
        return NULL;
    }
    return PyErr_Format(PyExc_SystemError, "librbac returned %u", code);
}

static PyObject *library_new(PyTypeObject *type, PyObject *args, PyObject *keywords)
{
    Library *self;
    uint32_t code;

    if (PyTuple_GET_SIZE(args) != 0 || (keywords != NULL && PyDict_GET_SIZE(keywords) != 0)) {
        PyErr_SetString(PyExc_TypeError, "an office takes no arguments");
        return NULL;
    }
    self = (Library *)type->tp_alloc(type, 0);
    if (self == NULL)
        return NULL;
    pthread_rwlock_init(&self->lock, NULL);
    self->after = first;
    if (first != NULL)
        first->before = self;
    first = self;
    code = rbac_open(&self->office);
    if (code != RBAC_DONE) {
        Py_DECREF(self);
        return raise(code);
    }
    return (PyObject *)self;
}

static void library_dealloc(Library *self)
{
    if (self->before != NULL)
        self->before->after = self->after;
    else
        first = self->after;
    if (self->after != NULL)
        self->after->before = self->before;
    rbac_close(&self->office);
    pthread_rwlock_destroy(&self->lock);
    Py_TYPE(self)->tp_free((PyObject *)self);
}

static PyObject *library_close(Library *self, PyObject *Py_UNUSED(ignored))
{
    enter(self);
    rbac_close(&self->office);
    leave(self);
    Py_RETURN_NONE;
}

/* Returns the answer that the office keeps. The caller has the lock. */
static PyObject *kept_answer(Library *self, size_t length)
{
    PyObject *answer = PyBytes_FromStringAndSize(NULL, (Py_ssize_t)length);
    uint32_t code;

    if (answer == NULL)
        return NULL;
    code = rbac_kept_answer(&self->office, PyBytes_AS_STRING(answer), length, &length);
    if (code == RBAC_DONE)
        return answer;
    Py_DECREF(answer);
    return raise(code);
}

static PyObject *library_answer(Library *self, PyObject *line)
{
    char room[ROOM];
    size_t length = 0;
    uint32_t code;
    Py_buffer view;
    PyObject *answer;

    if (PyObject_GetBuffer(line, &view, PyBUF_SIMPLE) < 0)
        return NULL;
    Py_BEGIN_ALLOW_THREADS
    pthread_rwlock_wrlock(&self->lock);
    code = rbac_answer(&self->office, view.buf, (size_t)view.len, room, sizeof room, &length);
    Py_END_ALLOW_THREADS
    PyBuffer_Release(&view);
    if (code == RBAC_DONE)
        answer = PyBytes_FromStringAndSize(room, (Py_ssize_t)length);
    else if (code == RBAC_SHORT)
        answer = kept_answer(self, length);
    else
        answer = raise(code);
    leave(self);
    return answer;
}

/* Whether an argument is a text; its bytes are UTF-8. */
static int is_text(PyObject *argument, const char **text, size_t *length)
{
    Py_ssize_t size;

    *text = PyUnicode_AsUTF8AndSize(argument, &size);
    *length = *text != NULL ? (size_t)size : 0;
    return *text != NULL;
}

/* Returns NULL after an exception for the code of a question that was refused. */
static PyObject *refuse(uint32_t code)
{
    if (code == RBAC_MEMORY || code == RBAC_CLOSED || on_refusal == NULL)
        return raise(code);
    return PyObject_CallFunction(on_refusal, "i", (int)code);
}

typedef int32_t decision_of(const rbac_office *, const void *, size_t, const void *, size_t, const void *, size_t);

/* Returns what a function of the library decides about a holder, which is a session or a user. */
static PyObject *decide(Library *self, PyObject *const *args, Py_ssize_t count, decision_of *decision_about, const char *wanted)
{
    const char *holder, *operation, *object;
    size_t holder_length, operation_length, object_length;
    int32_t decision;

    if (count != 3) {
        PyErr_SetString(PyExc_TypeError, wanted);
        return NULL;
    }
    if (!is_text(args[0], &holder, &holder_length) || !is_text(args[1], &operation, &operation_length)
        || !is_text(args[2], &object, &object_length))
        return NULL;
    enter_to_ask(self);
    decision = decision_about(&self->office, holder, holder_length, operation, operation_length, object, object_length);
    leave(self);
    if (decision == 1)
        Py_RETURN_TRUE;
    if (decision == 0)
        Py_RETURN_FALSE;
    return refuse((uint32_t)-decision);
}

static PyObject *library_check(Library *self, PyObject *const *args, Py_ssize_t count)
{
    return decide(self, args, count, rbac_check, "check takes a session, an operation and an object");
}

static PyObject *library_check_user(Library *self, PyObject *const *args, Py_ssize_t count)
{
    return decide(self, args, count, rbac_check_user, "check_user takes a user, an operation and an object");
}

typedef uint32_t reason_of(rbac_office *, const void *, size_t, const void *, size_t, const void *, size_t, void *, size_t,
    rbac_row *);

/* Returns the number of the reason why a user or a session may do an operation on an object, or why not, and its two names. */
static PyObject *explain(Library *self, PyObject *const *args, Py_ssize_t count, reason_of *reason_about, const char *wanted)
{
    const char *holder, *operation, *object;
    size_t holder_length, operation_length, object_length;
    char names[RBAC_LONGEST_ROW];
    rbac_row reason;
    uint32_t code;

    if (count != 3) {
        PyErr_SetString(PyExc_TypeError, wanted);
        return NULL;
    }
    if (!is_text(args[0], &holder, &holder_length) || !is_text(args[1], &operation, &operation_length)
        || !is_text(args[2], &object, &object_length))
        return NULL;
    enter(self);
    code = reason_about(&self->office, holder, holder_length, operation, operation_length, object, object_length, names,
        sizeof names, &reason);
    leave(self);
    if (code != RBAC_DONE)
        return refuse(code);
    return Py_BuildValue("(Is#s#)", (unsigned int)reason.number, names, (Py_ssize_t)reason.first, names + reason.first,
        (Py_ssize_t)reason.second);
}

static PyObject *library_explain_user(Library *self, PyObject *const *args, Py_ssize_t count)
{
    return explain(self, args, count, rbac_explain_user, "explain_user takes a user, an operation and an object");
}

static PyObject *library_explain_session(Library *self, PyObject *const *args, Py_ssize_t count)
{
    return explain(self, args, count, rbac_explain_session, "explain_session takes a session, an operation and an object");
}

/* So many bytes are enough for the two names of a conflict. */
#define LONGEST 128

/* A question for the sets that a command would violate: up to three names, or for a new session a user and the roles with the lengths
 * of their names. */
typedef struct {
    const char *names[3];
    Py_ssize_t lengths[3];
    int of_sessions;
    const size_t *role_lengths;
    size_t role_count;
} Question;

/* Conflicts, and where they are: in the arrays, or if they are more, in what is allocated. */
typedef struct {
    char few_names[LONGEST * ROWS], *names;
    rbac_row few_rows[ROWS], *rows;
    size_t room, count, total;
} Conflicts;

typedef uint32_t conflicts_of(rbac_office *, const Question *, Conflicts *);

static uint32_t of_assignment(rbac_office *office, const Question *asked, Conflicts *found)
{
    return rbac_assignment_conflicts(office, asked->names[0], (size_t)asked->lengths[0], asked->names[1], (size_t)asked->lengths[1], 0,
        found->names, LONGEST * found->room, found->rows, found->room, &found->count, &found->total);
}

static uint32_t of_activation(rbac_office *office, const Question *asked, Conflicts *found)
{
    return rbac_activation_conflicts(office, asked->names[0], (size_t)asked->lengths[0], asked->names[1], (size_t)asked->lengths[1],
        asked->names[2], (size_t)asked->lengths[2], 0, found->names, LONGEST * found->room, found->rows, found->room, &found->count,
        &found->total);
}

static uint32_t of_inheritance(rbac_office *office, const Question *asked, Conflicts *found)
{
    return rbac_inheritance_conflicts(office, asked->of_sessions, asked->names[0], (size_t)asked->lengths[0], asked->names[1],
        (size_t)asked->lengths[1], 0, found->names, LONGEST * found->room, found->rows, found->room, &found->count, &found->total);
}

static uint32_t of_creation(rbac_office *office, const Question *asked, Conflicts *found)
{
    return rbac_creation_conflicts(office, asked->names[0], (size_t)asked->lengths[0], asked->names[1], asked->role_lengths,
        asked->role_count, 0, found->names, LONGEST * found->room, found->rows, found->room, &found->count, &found->total);
}

/* Finds all conflicts. The caller has the lock, so that nothing changes if it has to ask twice. */
static uint32_t find_all(rbac_office *office, const Question *asked, conflicts_of *find, Conflicts *found)
{
    uint32_t code;

    found->names = found->few_names;
    found->rows = found->few_rows;
    found->room = ROWS;
    code = find(office, asked, found);
    if (code != RBAC_DONE || found->count == found->total)
        return code;
    found->room = found->total;
    found->names = PyMem_RawMalloc(LONGEST * found->room);
    found->rows = PyMem_RawMalloc(sizeof *found->rows * found->room);
    return found->names != NULL && found->rows != NULL ? find(office, asked, found) : RBAC_MEMORY;
}

/* Returns a list of the sets that a command would violate, or of pairs of a set and who violates it or with what. */
static PyObject *conflicts(Library *self, const Question *asked, conflicts_of *find, int are_pairs)
{
    Conflicts found;
    PyObject *made = NULL;
    uint32_t code;

    enter(self);
    code = find_all(&self->office, asked, find, &found);
    leave(self);
    if (code == RBAC_DONE)
        made = PyList_New((Py_ssize_t)found.count);
    else
        refuse(code);
    const char *at = found.names;
    for (size_t number = 0; made != NULL && number < found.count; number++) {
        const rbac_row *row = &found.rows[number];
        PyObject *one = are_pairs ? Py_BuildValue("(s#s#)", at, (Py_ssize_t)row->first, at + row->first, (Py_ssize_t)row->second)
                                  : PyUnicode_FromStringAndSize(at, (Py_ssize_t)row->first);

        if (one == NULL)
            Py_CLEAR(made);
        else
            PyList_SET_ITEM(made, (Py_ssize_t)number, one);
        at += row->first + row->second;
    }
    if (found.names != found.few_names) {
        PyMem_RawFree(found.names);
        PyMem_RawFree(found.rows);
    }
    return made;
}

static PyObject *library_assignment_conflicts(Library *self, PyObject *args)
{
    Question asked = {0};

    if (!PyArg_ParseTuple(args, "s#s#:assignment_conflicts", &asked.names[0], &asked.lengths[0], &asked.names[1], &asked.lengths[1]))
        return NULL;
    return conflicts(self, &asked, of_assignment, 0);
}

static PyObject *library_activation_conflicts(Library *self, PyObject *args)
{
    Question asked = {0};

    if (!PyArg_ParseTuple(args, "s#s#s#:activation_conflicts", &asked.names[0], &asked.lengths[0], &asked.names[1], &asked.lengths[1],
            &asked.names[2], &asked.lengths[2]))
        return NULL;
    return conflicts(self, &asked, of_activation, 0);
}

static PyObject *library_inheritance_conflicts(Library *self, PyObject *args)
{
    Question asked = {0};

    if (!PyArg_ParseTuple(args, "ps#s#:inheritance_conflicts", &asked.of_sessions, &asked.names[0], &asked.lengths[0],
            &asked.names[1], &asked.lengths[1]))
        return NULL;
    return conflicts(self, &asked, of_inheritance, 1);
}

/* The names of the roles stand one directly after the other; their lengths are bytes, those of numbers of the type size_t. */
static PyObject *library_creation_conflicts(Library *self, PyObject *args)
{
    Question asked = {0};
    const char *lengths;
    Py_ssize_t size;

    if (!PyArg_ParseTuple(args, "s#y#y#:creation_conflicts", &asked.names[0], &asked.lengths[0], &asked.names[1], &asked.lengths[1],
            &lengths, &size))
        return NULL;
    asked.role_lengths = (const size_t *)(const void *)lengths;
    asked.role_count = (size_t)size / sizeof(size_t);
    return conflicts(self, &asked, of_creation, 1);
}

static PyObject *library_revision(Library *self, PyObject *Py_UNUSED(ignored))
{
    uint64_t revision = 0;
    uint32_t code;

    enter_to_ask(self);
    code = rbac_revision(&self->office, &revision);
    leave(self);
    return code == RBAC_DONE ? PyLong_FromUnsignedLongLong(revision) : raise(code);
}

/* Returns the names of a row, and its number. */
static PyObject *row_of(const char *names, const rbac_row *row)
{
    return Py_BuildValue("(s#s#s#I)", names, (Py_ssize_t)row->first, names + row->first, (Py_ssize_t)row->second,
        names + row->first + row->second, (Py_ssize_t)row->third, (unsigned int)row->number);
}

static PyObject *library_rows(Library *self, PyObject *args)
{
    unsigned int table;
    Py_ssize_t index;
    char names[ROOM];
    const char *at = names;
    rbac_row rows[ROWS];
    size_t count = 0;
    uint32_t code;
    PyObject *made;

    if (!PyArg_ParseTuple(args, "In:rows", &table, &index))
        return NULL;
    enter(self);
    code = rbac_rows(&self->office, table, (size_t)index, names, sizeof names, rows, ROWS, &count);
    leave(self);
    if (code != RBAC_DONE)
        return raise(code);
    made = PyList_New((Py_ssize_t)count);
    for (size_t number = 0; made != NULL && number < count; number++) {
        PyObject *row = row_of(at, &rows[number]);

        if (row == NULL) {
            Py_CLEAR(made);
            break;
        }
        PyList_SET_ITEM(made, (Py_ssize_t)number, row);
        at += rows[number].first + rows[number].second + rows[number].third;
    }
    return made;
}

/* Returns the places between which the rows of a table begin with a name. */
static PyObject *library_range(Library *self, PyObject *args)
{
    unsigned int table;
    const char *first;
    Py_ssize_t first_length;
    size_t start, end;
    uint32_t code;

    if (!PyArg_ParseTuple(args, "Is#:range", &table, &first, &first_length))
        return NULL;
    enter(self);
    code = rbac_range(&self->office, table, first, (size_t)first_length, &start, &end);
    leave(self);
    return code == RBAC_DONE ? Py_BuildValue("(nn)", (Py_ssize_t)start, (Py_ssize_t)end) : raise(code);
}

static PyObject *library_add_row(Library *self, PyObject *args)
{
    unsigned int table, number;
    const char *first, *second, *third;
    Py_ssize_t first_length, second_length, third_length;
    uint32_t code;

    if (!PyArg_ParseTuple(args, "Is#s#s#I:add_row", &table, &first, &first_length, &second, &second_length, &third,
            &third_length, &number))
        return NULL;
    enter(self);
    code = rbac_add_row(&self->office, table, first, (size_t)first_length, second, (size_t)second_length, third,
        (size_t)third_length, number);
    leave(self);
    if (code == RBAC_MEMORY || code == RBAC_CLOSED)
        return raise(code);
    return PyLong_FromUnsignedLong(code);
}

static PyObject *library_load(Library *self, PyObject *argument)
{
    unsigned long long revision = PyLong_AsUnsignedLongLong(argument);
    uint32_t code;

    if (revision == (unsigned long long)-1 && PyErr_Occurred())
        return NULL;
    Py_BEGIN_ALLOW_THREADS
    pthread_rwlock_wrlock(&self->lock);
    code = rbac_load(&self->office, revision);
    pthread_rwlock_unlock(&self->lock);
    Py_END_ALLOW_THREADS
    if (code == RBAC_MEMORY || code == RBAC_CLOSED)
        return raise(code);
    return PyLong_FromUnsignedLong(code);
}

/* Lets other threads call the offices that this one has since before_fork. */
static void let_call(void)
{
    for (Library *self = first; self != NULL; self = self->after)
        if (self->is_forking) {
            self->is_forking = 0;
            leave(self);
        }
}

/* Waits until no thread is in a call of an office, and keeps others from calling until one of the two functions below. */
static PyObject *before_fork(PyObject *Py_UNUSED(module), PyObject *Py_UNUSED(ignored))
{
    Library *self = first;

    while (self != NULL) {
        if (pthread_rwlock_trywrlock(&self->lock) == 0) {
            self->is_forking = 1;
            self = self->after;
            continue;
        }
        /* The call may need the interpreter's lock to end, and then the list may change. So begin again. */
        let_call();
        Py_BEGIN_ALLOW_THREADS
        sched_yield();
        Py_END_ALLOW_THREADS
        self = first;
    }
    Py_RETURN_NONE;
}

static PyObject *after_fork_in_parent(PyObject *Py_UNUSED(module), PyObject *Py_UNUSED(ignored))
{
    let_call();
    Py_RETURN_NONE;
}

/* A lock knows which thread has it by its number, and that is another one in the child. */
static PyObject *after_fork_in_child(PyObject *Py_UNUSED(module), PyObject *Py_UNUSED(ignored))
{
    for (Library *self = first; self != NULL; self = self->after) {
        self->is_forking = 0;
        pthread_rwlock_init(&self->lock, NULL);
    }
    Py_RETURN_NONE;
}

/* Sets what raises the exception for the code of a decision that was refused. */
static PyObject *set_on_refusal(PyObject *Py_UNUSED(module), PyObject *function)
{
    Py_INCREF(function);
    Py_XDECREF(on_refusal);
    on_refusal = function;
    Py_RETURN_NONE;
}

PyDoc_STRVAR(answer_doc, "answer($self, line, /)\n--\n\n"
    "The answer to a line of docs/reference/api.md, as `rbac replay` writes it, both as bytes without a line feed.\n\n"
    "Raises MemoryError if an allocation failed: the line was done, or nothing was, and `revision` shows which.");
PyDoc_STRVAR(check_doc, "check($self, session, operation, object, /)\n--\n\n"
    "Whether the session may do the operation on the object.");
PyDoc_STRVAR(check_user_doc, "check_user($self, user, operation, object, /)\n--\n\n"
    "Whether the user could do the operation on the object in some session: whether the user may create a session for which\n"
    "`check` returns True, as long as there may be one more.");
PyDoc_STRVAR(assignment_doc, "assignment_conflicts($self, user, role, /)\n--\n\n"
    "The static sets that would be violated if the user were assigned to the role, in byte order.\n\n"
    "If assignUser is refused with StaticSeparation, it names the first.");
PyDoc_STRVAR(activation_doc, "activation_conflicts($self, user, session, role, /)\n--\n\n"
    "The dynamic sets that would be violated if the role were activated in the user's session, in byte order.\n\n"
    "If addActiveRole is refused with DynamicSeparation, it names the first.");
PyDoc_STRVAR(close_doc, "close($self, /)\n--\n\nFrees the office. Its methods raise ValueError then.");

static PyMethodDef methods[] = {
    {"answer", (PyCFunction)library_answer, METH_O, answer_doc},
    {"check", (PyCFunction)(void (*)(void))library_check, METH_FASTCALL, check_doc},
    {"check_user", (PyCFunction)(void (*)(void))library_check_user, METH_FASTCALL, check_user_doc},
    {"close", (PyCFunction)library_close, METH_NOARGS, close_doc},
    {"_explain_user", (PyCFunction)(void (*)(void))library_explain_user, METH_FASTCALL, "The number of a reason, and its names."},
    {"_explain_session", (PyCFunction)(void (*)(void))library_explain_session, METH_FASTCALL,
        "The number of a reason, and its names."},
    {"assignment_conflicts", (PyCFunction)library_assignment_conflicts, METH_VARARGS, assignment_doc},
    {"activation_conflicts", (PyCFunction)library_activation_conflicts, METH_VARARGS, activation_doc},
    {"_inheritance_conflicts", (PyCFunction)library_inheritance_conflicts, METH_VARARGS,
        "The sets that an inheritance would violate, and who would."},
    {"_creation_conflicts", (PyCFunction)library_creation_conflicts, METH_VARARGS,
        "The sets that a new session would violate, with a pair for each of their roles."},
    {"_revision", (PyCFunction)library_revision, METH_NOARGS, "How many commands were accepted."},
    {"_rows", (PyCFunction)library_rows, METH_VARARGS, "Some rows of a table from a place on, or none if there is none."},
    {"_range", (PyCFunction)library_range, METH_VARARGS, "The places between which the rows of a table begin with a name."},
    {"_add_row", (PyCFunction)library_add_row, METH_VARARGS, "Adds a row for the next load. 0, or the code of the refusal."},
    {"_load", (PyCFunction)library_load, METH_O, "Starts again with the added rows. 0, or the code of the refusal."},
    {NULL, NULL, 0, NULL},
};

static PyMethodDef functions[] = {
    {"before_fork", before_fork, METH_NOARGS, "Waits until no thread is in a call of an office, and keeps others from calling."},
    {"after_fork_in_parent", after_fork_in_parent, METH_NOARGS, "Lets threads call again."},
    {"after_fork_in_child", after_fork_in_child, METH_NOARGS, "Lets the thread of the child call."},
    {"set_on_refusal", set_on_refusal, METH_O, "Sets what raises the exception for the code of a decision that was refused."},
    {NULL, NULL, 0, NULL},
};

static PyTypeObject library_type = {
    PyVarObject_HEAD_INIT(NULL, 0)
    .tp_name = "rbac_office._library.Library",
    .tp_doc = "An office of librbac.",
    .tp_basicsize = sizeof(Library),
    .tp_flags = Py_TPFLAGS_DEFAULT | Py_TPFLAGS_BASETYPE,
    .tp_new = library_new,
    .tp_dealloc = (destructor)library_dealloc,
    .tp_methods = methods,
};

static struct PyModuleDef module = {
    PyModuleDef_HEAD_INIT,
    .m_name = "_library",
    .m_doc = "The functions of librbac.",
    .m_size = -1,
    .m_methods = functions,
};

PyMODINIT_FUNC PyInit__library(void)
{
    PyObject *made;

    if (PyType_Ready(&library_type) < 0)
        return NULL;
    made = PyModule_Create(&module);
    if (made == NULL || PyModule_AddObjectRef(made, "Library", (PyObject *)&library_type) < 0) {
        Py_XDECREF(made);
        return NULL;
    }
    return made;
}
