/* Refuses null pointers, and calls the proved functions of crates/rbac_c. Those that read an office in its place get the pointer
 * that the handle has. This file is tested, and nothing proves it. */
#include "rbac.h"
#include <stdbool.h>
#include <sys/random.h>
#include <time.h>

uint32_t rbac_office_open(rbac_office *, uint64_t, uint64_t);
void rbac_office_close(rbac_office *);
uint32_t rbac_office_answer(rbac_office *, const void *, size_t, void *, size_t, size_t *);
uint32_t rbac_office_kept_answer(rbac_office *, void *, size_t, size_t *);
int32_t rbac_office_check(const void *, bool, const void *, size_t, const void *, size_t, const void *, size_t);
uint64_t rbac_office_revision(const void *);
uint32_t rbac_office_explain_user(rbac_office *, const void *, size_t, const void *, size_t, const void *, size_t, void *, size_t,
    rbac_row *);
uint32_t rbac_office_explain_session(rbac_office *, const void *, size_t, const void *, size_t, const void *, size_t, void *,
    size_t, rbac_row *);
uint32_t rbac_office_assignment_conflicts(rbac_office *, const void *, size_t, const void *, size_t, size_t, void *, size_t, rbac_row *,
    size_t, size_t *, size_t *);
uint32_t rbac_office_activation_conflicts(rbac_office *, const void *, size_t, const void *, size_t, const void *, size_t, size_t,
    void *, size_t, rbac_row *, size_t, size_t *, size_t *);
uint32_t rbac_office_inheritance_conflicts(rbac_office *, bool, const void *, size_t, const void *, size_t, size_t, void *, size_t,
    rbac_row *, size_t, size_t *, size_t *);
uint32_t rbac_office_creation_conflicts(rbac_office *, const void *, size_t, const void *, size_t, const size_t *, size_t, size_t,
    void *, size_t, rbac_row *, size_t, size_t *, size_t *);
uint32_t rbac_office_range(rbac_office *, uint32_t, const void *, size_t, size_t *, size_t *);
uint32_t rbac_office_row(rbac_office *, uint32_t, size_t, void *, size_t, rbac_row *);
uint32_t rbac_office_rows(rbac_office *, uint32_t, size_t, void *, size_t, rbac_row *, size_t, size_t *);
uint32_t rbac_office_add_row(rbac_office *, uint32_t, const void *, size_t, const void *, size_t, const void *, size_t, uint32_t);
uint32_t rbac_office_load(rbac_office *, uint64_t);

/* Whether a text has no pointer, but a length. */
static int lacks(const void *text, size_t length)
{
    return text == NULL && length != 0;
}

/* The text's pointer, or one that isn't null if the text is empty. */
static const void *at(const void *text)
{
    return text != NULL ? text : "";
}

uint32_t rbac_open(rbac_office *office)
{
    uint64_t secret[2];

    if (office == NULL)
        return RBAC_NULL;
    /* A kernel without random bytes leaves what is hard to know elsewhere. */
    if (getrandom(secret, sizeof secret, 0) != sizeof secret) {
        secret[0] = (uintptr_t)secret;
        secret[1] = (uint64_t)time(NULL) << 32 ^ (uint64_t)clock();
    }
    return rbac_office_open(office, secret[0], secret[1]);
}

void rbac_close(rbac_office *office)
{
    if (office != NULL)
        rbac_office_close(office);
}

uint32_t rbac_answer(rbac_office *office, const void *line, size_t line_length, void *out, size_t out_length, size_t *length)
{
    char empty;

    if (office == NULL || length == NULL || lacks(line, line_length) || lacks(out, out_length))
        return RBAC_NULL;
    return rbac_office_answer(office, at(line), line_length, out != NULL ? out : &empty, out_length, length);
}

uint32_t rbac_kept_answer(rbac_office *office, void *out, size_t out_length, size_t *length)
{
    char empty;

    if (office == NULL || length == NULL || lacks(out, out_length))
        return RBAC_NULL;
    return rbac_office_kept_answer(office, out != NULL ? out : &empty, out_length, length);
}

/* Decides about a holder, which is a user or a session. */
static int32_t decide(const rbac_office *office, bool of_user, const void *holder, size_t holder_length, const void *operation,
    size_t operation_length, const void *object, size_t object_length)
{
    if (office == NULL || lacks(holder, holder_length) || lacks(operation, operation_length) || lacks(object, object_length))
        return -RBAC_NULL;
    if (office->at == NULL)
        return -RBAC_CLOSED;
    return rbac_office_check(office->at, of_user, at(holder), holder_length, at(operation), operation_length, at(object),
        object_length);
}

int32_t rbac_check(const rbac_office *office, const void *session, size_t session_length, const void *operation,
    size_t operation_length, const void *object, size_t object_length)
{
    return decide(office, false, session, session_length, operation, operation_length, object, object_length);
}

int32_t rbac_check_user(const rbac_office *office, const void *user, size_t user_length, const void *operation,
    size_t operation_length, const void *object, size_t object_length)
{
    return decide(office, true, user, user_length, operation, operation_length, object, object_length);
}

uint32_t rbac_explain_user(rbac_office *office, const void *user, size_t user_length, const void *operation,
    size_t operation_length, const void *object, size_t object_length, void *out, size_t out_length, rbac_row *reason)
{
    char empty;

    if (office == NULL || reason == NULL || lacks(user, user_length) || lacks(operation, operation_length)
        || lacks(object, object_length) || lacks(out, out_length))
        return RBAC_NULL;
    return rbac_office_explain_user(office, at(user), user_length, at(operation), operation_length, at(object), object_length,
        out != NULL ? out : &empty, out_length, reason);
}

uint32_t rbac_explain_session(rbac_office *office, const void *session, size_t session_length, const void *operation,
    size_t operation_length, const void *object, size_t object_length, void *out, size_t out_length, rbac_row *reason)
{
    char empty;

    if (office == NULL || reason == NULL || lacks(session, session_length) || lacks(operation, operation_length)
        || lacks(object, object_length) || lacks(out, out_length))
        return RBAC_NULL;
    return rbac_office_explain_session(office, at(session), session_length, at(operation), operation_length, at(object),
        object_length, out != NULL ? out : &empty, out_length, reason);
}

uint32_t rbac_assignment_conflicts(rbac_office *office, const void *user, size_t user_length, const void *role, size_t role_length,
    size_t index, void *out, size_t out_length, rbac_row *sets, size_t set_count, size_t *count, size_t *total)
{
    char empty;
    rbac_row none;

    if (office == NULL || count == NULL || total == NULL || lacks(user, user_length) || lacks(role, role_length)
        || lacks(out, out_length) || lacks(sets, set_count))
        return RBAC_NULL;
    return rbac_office_assignment_conflicts(office, at(user), user_length, at(role), role_length, index,
        out != NULL ? out : &empty, out_length, sets != NULL ? sets : &none, set_count, count, total);
}

uint32_t rbac_activation_conflicts(rbac_office *office, const void *user, size_t user_length, const void *session,
    size_t session_length, const void *role, size_t role_length, size_t index, void *out, size_t out_length, rbac_row *sets,
    size_t set_count, size_t *count, size_t *total)
{
    char empty;
    rbac_row none;

    if (office == NULL || count == NULL || total == NULL || lacks(user, user_length) || lacks(session, session_length)
        || lacks(role, role_length) || lacks(out, out_length) || lacks(sets, set_count))
        return RBAC_NULL;
    return rbac_office_activation_conflicts(office, at(user), user_length, at(session), session_length, at(role), role_length,
        index, out != NULL ? out : &empty, out_length, sets != NULL ? sets : &none, set_count, count, total);
}

uint32_t rbac_inheritance_conflicts(rbac_office *office, int of_sessions, const void *asc, size_t asc_length, const void *desc,
    size_t desc_length, size_t index, void *out, size_t out_length, rbac_row *sets, size_t set_count, size_t *count, size_t *total)
{
    char empty;
    rbac_row none;

    if (office == NULL || count == NULL || total == NULL || lacks(asc, asc_length) || lacks(desc, desc_length)
        || lacks(out, out_length) || lacks(sets, set_count))
        return RBAC_NULL;
    return rbac_office_inheritance_conflicts(office, of_sessions != 0, at(asc), asc_length, at(desc), desc_length, index,
        out != NULL ? out : &empty, out_length, sets != NULL ? sets : &none, set_count, count, total);
}

uint32_t rbac_creation_conflicts(rbac_office *office, const void *user, size_t user_length, const void *roles,
    const size_t *role_lengths, size_t role_count, size_t index, void *out, size_t out_length, rbac_row *sets, size_t set_count,
    size_t *count, size_t *total)
{
    char empty;
    rbac_row none;
    size_t roles_length = 0, no_length;

    if (office == NULL || count == NULL || total == NULL || lacks(user, user_length) || lacks(role_lengths, role_count)
        || lacks(out, out_length) || lacks(sets, set_count))
        return RBAC_NULL;
    for (size_t role = 0; role < role_count; role++)
        roles_length += role_lengths[role];
    if (lacks(roles, roles_length))
        return RBAC_NULL;
    return rbac_office_creation_conflicts(office, at(user), user_length, at(roles), roles_length,
        role_lengths != NULL ? role_lengths : &no_length, role_count, index, out != NULL ? out : &empty, out_length,
        sets != NULL ? sets : &none, set_count, count, total);
}

uint32_t rbac_revision(const rbac_office *office, uint64_t *revision)
{
    if (office == NULL || revision == NULL)
        return RBAC_NULL;
    *revision = office->at != NULL ? rbac_office_revision(office->at) : 0;
    return office->at != NULL ? RBAC_DONE : RBAC_CLOSED;
}

uint32_t rbac_row_at(rbac_office *office, uint32_t table, size_t index, void *out, size_t out_length, rbac_row *row)
{
    char empty;

    if (office == NULL || row == NULL || lacks(out, out_length))
        return RBAC_NULL;
    return rbac_office_row(office, table, index, out != NULL ? out : &empty, out_length, row);
}

uint32_t rbac_rows(rbac_office *office, uint32_t table, size_t index, void *out, size_t out_length, rbac_row *rows,
    size_t row_count, size_t *count)
{
    char empty;
    rbac_row none;

    if (office == NULL || count == NULL || lacks(out, out_length) || lacks(rows, row_count))
        return RBAC_NULL;
    return rbac_office_rows(office, table, index, out != NULL ? out : &empty, out_length, rows != NULL ? rows : &none, row_count,
        count);
}

uint32_t rbac_range(rbac_office *office, uint32_t table, const void *first, size_t first_length, size_t *start, size_t *end)
{
    if (office == NULL || start == NULL || end == NULL || lacks(first, first_length))
        return RBAC_NULL;
    return rbac_office_range(office, table, at(first), first_length, start, end);
}

uint32_t rbac_add_row(rbac_office *office, uint32_t table, const void *first, size_t first_length, const void *second,
    size_t second_length, const void *third, size_t third_length, uint32_t number)
{
    if (office == NULL || lacks(first, first_length) || lacks(second, second_length) || lacks(third, third_length))
        return RBAC_NULL;
    return rbac_office_add_row(office, table, at(first), first_length, at(second), second_length, at(third), third_length, number);
}

uint32_t rbac_load(rbac_office *office, uint64_t revision)
{
    return office != NULL ? rbac_office_load(office, revision) : RBAC_NULL;
}
