/* An office of roles in this process: the library librbac.
 *
 * An office holds users, roles, permissions and sessions, as ANSI INCITS 359-2012 defines them. It lies in memory, and
 * no other process sees it. It answers the lines of docs/reference/api.md as `rbac replay --memory` does, but for two sorts: each line is
 * answered, also one without anything but blanks, which a replay skips, and one of more than 65,536 bytes, which ends a replay.
 * Both are refused with 34 BadRequest. rbac_check decides about access without a line. docs/howto/embed.md says when to use it,
 * and what is proved about it.
 *
 * What a caller has to guarantee, since nothing checks it:
 *
 * - A handle is RBAC_OFFICE_NONE, or what the library has left in it. It isn't copied, and only the library writes it.
 * - Any number of threads may give the same handle to the questions rbac_check, rbac_check_user and rbac_revision at once. Each
 *   other call has the handle alone: while it runs, no other call is given it. A read-write lock does this, with the read lock
 *   for these questions and the write lock for the rest. A process with one thread needs no lock.
 * - A pointer and its length are those of one array. Arrays of one call don't overlap, unless both are only read.
 * - No call comes from a signal handler. One comes from the forked child of a process with several threads only if no thread
 *   was in a call at the fork, and if malloc may be used in the child, as that of glibc may.
 * - malloc, realloc and free are of one allocator, and align blocks as C demands, to 16 bytes at most.
 * - The thread has 128 KiB of stack left.
 *
 * A text is bytes with a length: it needs no zero at its end, and gets none. A pointer to a text may be null if its length
 * is 0. Any other null pointer is refused with RBAC_NULL, and nothing is done. Behind what a call writes, the array `out` and the
 * rows stay as they were; they stay altogether if the call is refused.
 */
#ifndef RBAC_H
#define RBAC_H

#include <stddef.h>
#include <stdint.h>

#ifdef __cplusplus
extern "C" {
#endif

/* The handle of an office. At the end, rbac_close has to be called for it. */
typedef struct rbac_office {
    void *at;
} rbac_office;

/* The handle of no office, with which each handle begins. */
#define RBAC_OFFICE_NONE { 0 }

/* What the functions below return. Further codes are those of docs/reference/api.md, "Refusals". */
enum {
    RBAC_DONE = 0,
    RBAC_BAD_NAME = 1,  /* a name is empty, longer than 64 bytes, isn't UTF-8, or has a control character */
    RBAC_MEMORY = 40,   /* an allocation failed */
    RBAC_CLOSED = 42,   /* the handle has no office */
    RBAC_SHORT = 60,    /* the text is longer than the buffer */
    RBAC_ABSENT = 61,   /* there is no such table, or no such row in it */
    RBAC_NULL = 62      /* a pointer is null that may not be */
};

/* Makes a new and empty office. If the handle has an office already, that one is freed. Names are hashed by a secret of 16 bytes, for
 * which it asks the kernel.
 *
 * RBAC_DONE: the handle has the new office. Its revision is 0.
 * RBAC_MEMORY: the handle is as before. */
uint32_t rbac_open(rbac_office *office);

/* Frees the office, if there is one. The handle has none then. */
void rbac_close(rbac_office *office);

/* Does what a line asks for, or answers its question. A line is a JSON object as in docs/reference/api.md, without a line feed.
 *
 * Whatever it returns, `*length` is the length of the answer, or 0 if there is none.
 *
 * RBAC_DONE: the answer stands in `out`. It is an answer also if it reports a refusal.
 * RBAC_SHORT: the line was answered, and the answer is longer than `out_length`. rbac_kept_answer returns it.
 * RBAC_MEMORY: an allocation failed. Either the line was done, or nothing was: the revision shows which.
 * RBAC_CLOSED: the handle has no office. */
uint32_t rbac_answer(rbac_office *office, const void *line, size_t line_length, void *out, size_t out_length, size_t *length);

/* Returns the answer to the last line once more, as rbac_answer does. The office stays the same.
 *
 * `*length` is 0 if there was no line yet, if rbac_answer returned RBAC_MEMORY, or if the office was loaded since.
 * The results are those of rbac_answer, without RBAC_MEMORY. */
uint32_t rbac_kept_answer(rbac_office *office, void *out, size_t out_length, size_t *length);

/* Decides whether the session may do the operation on the object. The office stays the same.
 *
 * 1: it may. 0: it may not. Otherwise there is no decision, and the result is minus the code of the first of these reasons
 * that applies: -RBAC_NULL, -RBAC_CLOSED, -RBAC_BAD_NAME (one of the three isn't a name), -26 (there is no such session),
 * -6 (no such object), -33 (no such operation). Only 1 allows the access. It doesn't allocate. */
int32_t rbac_check(const rbac_office *office, const void *session, size_t session_length, const void *operation,
    size_t operation_length, const void *object, size_t object_length);

/* Decides whether the user could do the operation on the object in some session. The office stays the same.
 *
 * 1: with some roles and any new name the user may create a session for which rbac_check returns 1, as long as there may be
 * one more session. 0: the user may create none, and has none, for which it returns 1. So it is for a locked user. Otherwise
 * there is no decision, and the result is minus the code of the first of these reasons that applies: -RBAC_NULL, -RBAC_CLOSED,
 * -RBAC_BAD_NAME (one of the three isn't a name), -2 (there is no such user), -6 (no such object), -33 (no such operation).
 * Only 1 allows the access. It doesn't allocate. An index makes it take less than a microsecond at the limits too, whatever
 * grants and dynamic sets there are: section 8 of docs/howto/embed.md has the times. */
int32_t rbac_check_user(const rbac_office *office, const void *user, size_t user_length, const void *operation,
    size_t operation_length, const void *object, size_t object_length);

/* The lengths of the names of a row or of a reason, and its number. A name that it doesn't have has length 0. */
typedef struct rbac_row {
    size_t first;
    size_t second;
    size_t third;
    uint32_t number;
} rbac_row;

/* The numbers of the reasons why a user may do an operation on an object in some session, or why not, and why a session may,
 * or why not. A reason about a session is the first, the third or the last of them. */
enum {
    RBAC_WHY_ALLOWED = 1,       /* assigned or activated role, granted role: access; the permission is granted to the second */
    RBAC_WHY_LOCKED = 2,        /* the user is locked */
    RBAC_WHY_NOT_GRANTED = 3,   /* the permission is granted to no role */
    RBAC_WHY_NOT_AUTHORIZED = 4,/* the user is authorized for no role to which it is granted */
    RBAC_WHY_SEPARATED = 5,     /* role, dynamic set: no session may have such a role; this one violates this set alone */
    RBAC_WHY_NOT_ACTIVE = 6     /* the session has no role to which it is granted */
};

/* Says why rbac_check_user decides as it does. The office stays the same.
 *
 * RBAC_DONE: the number of the reason and the lengths of its two names are in `*reason`, and the names stand in `out`, one
 * directly after the other. RBAC_WHY_ALLOWED comes exactly if rbac_check_user returns 1. It names the first role in byte order
 * that is granted the permission, for which the user is authorized and which a session may have alone, and the first assigned
 * role that is this role or a senior of it. Otherwise the reason is the first that applies in the order of their numbers, and
 * RBAC_WHY_SEPARATED names the first role that is granted the permission and for which the user is authorized, and the first
 * set that this role violates alone.
 * RBAC_SHORT: `*reason` is written, but the names are longer than `out_length`. 128 bytes are enough.
 * Otherwise there is no decision, and the result is the code of the first of these reasons that applies: RBAC_NULL,
 * RBAC_CLOSED, RBAC_BAD_NAME, 2, 6, 33, as for rbac_check_user. */
uint32_t rbac_explain_user(rbac_office *office, const void *user, size_t user_length, const void *operation,
    size_t operation_length, const void *object, size_t object_length, void *out, size_t out_length, rbac_row *reason);

/* Says why rbac_check decides as it does. The office stays the same.
 *
 * RBAC_DONE: the number of the reason, and its two names, as from rbac_explain_user. RBAC_WHY_ALLOWED comes exactly if
 * rbac_check returns 1. It names the first role of the session in byte order that is granted the permission, and the first role activated in
 * the session that is this role or a senior of it. Otherwise the reason is RBAC_WHY_NOT_GRANTED if that applies, and
 * RBAC_WHY_NOT_ACTIVE if not. No session is denied since its user is locked: locking ends the user's sessions.
 * RBAC_SHORT as above.
 * Otherwise there is no decision, and the result is the code of the first of these reasons that applies: RBAC_NULL,
 * RBAC_CLOSED, RBAC_BAD_NAME, 26, 6, 33, as for rbac_check. */
uint32_t rbac_explain_session(rbac_office *office, const void *session, size_t session_length, const void *operation,
    size_t operation_length, const void *object, size_t object_length, void *out, size_t out_length, rbac_row *reason);

/* Returns the static separation of duty sets that would be violated if the user were assigned to the role: of all of them in byte
 * order those from the place `index` on, as many as there is room for in `sets` and in `out`. If assignUser is refused with 24
 * StaticSeparation, it names the first of all. The office stays the same.
 *
 * RBAC_DONE: `*count` sets were returned, of `*total`. Their names stand in `out`, one directly after the other, and their
 * lengths in `first` of `sets`. With room in `sets` for one, and RBAC_LONGEST_ROW bytes in `out`, 0 in `*count` says that there
 * is none at this place. With 0 in `*total` assignUser isn't refused with 24 StaticSeparation.
 * Otherwise 0 is in both, and the result is the code of the first of these reasons that applies: RBAC_NULL (which writes
 * neither), RBAC_CLOSED, RBAC_BAD_NAME, 2 (no such user), 4 (no such role). It may also be RBAC_MEMORY. */
uint32_t rbac_assignment_conflicts(rbac_office *office, const void *user, size_t user_length, const void *role, size_t role_length,
    size_t index, void *out, size_t out_length, rbac_row *sets, size_t set_count, size_t *count, size_t *total);

/* Returns the dynamic separation of duty sets that would be violated if the role were activated in the user's session, as
 * rbac_assignment_conflicts does. If addActiveRole is refused with 25 DynamicSeparation, it names the first of all.
 *
 * The reasons are RBAC_NULL, RBAC_CLOSED, RBAC_BAD_NAME, 2 (no such user), 26 (no such session), 4 (no such role), 28 (the session
 * isn't the user's), 29 (the user isn't authorized for the role). */
uint32_t rbac_activation_conflicts(rbac_office *office, const void *user, size_t user_length, const void *session,
    size_t session_length, const void *role, size_t role_length, size_t index, void *out, size_t out_length, rbac_row *sets,
    size_t set_count, size_t *count, size_t *total);

/* Returns the separation of duty sets that would be violated if `asc` became an immediate ascendant of `desc`, as
 * rbac_assignment_conflicts does, and after the name of each who would violate it, whose length is `second`. With 0 in
 * `of_sessions` they are the static sets, each with the first user in byte order who would be authorized for too many of its
 * roles; otherwise the dynamic sets, each with the first session in byte order that would have too many. If addInheritance is
 * refused with 24 StaticSeparation or 25 DynamicSeparation, it names the first of these sets.
 *
 * The reasons are RBAC_NULL, RBAC_CLOSED, RBAC_BAD_NAME, 4 (no such role), 16 (`asc` is `desc` or a junior of it). Each call looks
 * at all sets, and for each at users or sessions until one violates it. So a call with room for all is the quickest. */
uint32_t rbac_inheritance_conflicts(rbac_office *office, int of_sessions, const void *asc, size_t asc_length, const void *desc,
    size_t desc_length, size_t index, void *out, size_t out_length, rbac_row *sets, size_t set_count, size_t *count, size_t *total);

/* Returns the dynamic separation of duty sets that a new session of the user with these roles would violate, as
 * rbac_assignment_conflicts does, but with a row for each role of such a set that the session would have: the name of the set, and
 * after it that of the role, whose length is `second`. The rows are in byte order. If createSession is refused with 25
 * DynamicSeparation, it names the first of the sets. The names of the roles stand in `roles`, one directly after the other, and
 * `role_lengths` has their lengths; a role may come twice.
 *
 * The reasons are RBAC_NULL, RBAC_CLOSED, RBAC_BAD_NAME, 2 (no such user), 4 (one of the roles doesn't exist), 29 (the user isn't
 * authorized for one of them), 37 (the user is locked). */
uint32_t rbac_creation_conflicts(rbac_office *office, const void *user, size_t user_length, const void *roles,
    const size_t *role_lengths, size_t role_count, size_t index, void *out, size_t out_length, rbac_row *sets, size_t set_count,
    size_t *count, size_t *total);

/* Writes to `*revision` how many commands the office has accepted. A decision that was made at a revision holds as long as
 * the revision stays the same.
 *
 * RBAC_DONE, or RBAC_CLOSED with 0 in `*revision`. */
uint32_t rbac_revision(const rbac_office *office, uint64_t *revision);

/* ---- saving and loading
 *
 * An office is saved by reading the rows of its 15 tables, and loaded by adding these rows to an office in any order. It is loaded
 * fastest in the order in which they were read: in the reverse order the time grows with the square of their number. */

/* The tables, and what the names of a row are. */
enum {
    RBAC_USERS = 0,                 /* user */
    RBAC_ROLES = 1,                 /* role */
    RBAC_OBJECTS = 2,               /* object */
    RBAC_PERMISSIONS = 3,           /* object, operation */
    RBAC_ASSIGNMENTS = 4,           /* user, role */
    RBAC_INHERITANCES = 5,          /* ascendant, descendant */
    RBAC_CLOSURE_PAIRS = 6,         /* a role, and another one that it inherits from, directly or through others */
    RBAC_STATIC_MEMBERS = 7,        /* static separation of duty set, role */
    RBAC_DYNAMIC_MEMBERS = 8,       /* dynamic separation of duty set, role */
    RBAC_SESSIONS = 9,              /* session, user */
    RBAC_ACTIVATED_ROLES = 10,      /* session, role */
    RBAC_GRANTS = 11,               /* object, operation, role */
    RBAC_STATIC_CARDINALITIES = 12, /* static separation of duty set; the number is its cardinality */
    RBAC_DYNAMIC_CARDINALITIES = 13,/* dynamic separation of duty set; the number is its cardinality */
    RBAC_LOCKS = 14,                /* locked user */
    RBAC_TABLES = 15                /* how many tables there are */
};

/* So many bytes are enough for the names of a row. */
#define RBAC_LONGEST_ROW 192

/* Returns the row at the place `index` of a table, from 0. The rows of a table are in the byte order of their names.
 * The office stays the same.
 *
 * RBAC_DONE: the names stand in `out`, one directly after the other, and their lengths in `*row`.
 * RBAC_ABSENT: the table has no such row, or there is no such table.
 * RBAC_SHORT, RBAC_CLOSED as above. */
uint32_t rbac_row_at(rbac_office *office, uint32_t table, size_t index, void *out, size_t out_length, rbac_row *row);

/* Returns the rows of a table from the place `index` on: as many as there are, and as there is room for in `rows` and in
 * `out`. The office stays the same.
 *
 * RBAC_DONE: `*count` rows were returned. Their names stand in `out`, one directly after the other, row after row, and their
 * lengths in `rows`. With room in `rows` for one, and RBAC_LONGEST_ROW bytes in `out`, 0 says that the table has no row there.
 * RBAC_ABSENT: there is no such table, and `*count` is 0. RBAC_CLOSED as above, with 0 in `*count`. */
uint32_t rbac_rows(rbac_office *office, uint32_t table, size_t index, void *out, size_t out_length, rbac_row *rows,
    size_t row_count, size_t *count);

/* Finds the rows of a table whose first name is this one: they are those from the place `*start` on, up to the one before `*end`.
 * These are the number of rows with a lesser first name, and of those whose first name isn't greater. So `*start` is also the
 * place from which on the first name is this one or a greater one. `first` may be any bytes, also those of no name: with no bytes
 * `*start` is 0. The office stays the same, and the places hold as long as its revision does.
 *
 * RBAC_DONE, or RBAC_ABSENT (there is no such table) or RBAC_CLOSED with 0 in both. */
uint32_t rbac_range(rbac_office *office, uint32_t table, const void *first, size_t first_length, size_t *start, size_t *end);

/* Adds a row to those of the next rbac_load. Names that the table doesn't have are ignored, and so is such a number.
 * Decisions and answers don't depend on it.
 *
 * RBAC_DONE: it was added. Otherwise nothing was: RBAC_BAD_NAME, RBAC_ABSENT (there is no such table), RBAC_MEMORY,
 * RBAC_CLOSED. */
uint32_t rbac_add_row(rbac_office *office, uint32_t table, const void *first, size_t first_length, const void *second,
    size_t second_length, const void *third, size_t third_length, uint32_t number);

/* Has the office start again: its state is the one that has exactly the added rows, and its revision is `revision`.
 *
 * RBAC_DONE: it does, and no line is answered yet. Otherwise its state and its revision are as before: 32 (a limit is
 * exceeded), 52 (the rows aren't those of an office, as docs/reference/api.md says at 52 Damaged), RBAC_MEMORY, RBAC_CLOSED. Either
 * way the added rows are used up. */
uint32_t rbac_load(rbac_office *office, uint64_t revision);

#ifdef __cplusplus
}
#endif

#endif
