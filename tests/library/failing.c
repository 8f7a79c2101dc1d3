/* Lets each allocation of each call fail in turn: the call says so, the office is as before or as after it, and its revision
 * shows which; or the index for decisions was given up, and nothing else. In the end no block is left. For
 * tests/library/memory.py, in place of library/heap.c. */
#include "rbac.h"
#include <inttypes.h>
#include <stdbool.h>
#include <stdio.h>
#include <stdlib.h>
#include <string.h>

struct rattle_block {
    bool ok;
    void *at;
};

static char none;
/* How many allocations are left before one fails, or -1 if none is to fail; and how many blocks there are. */
static long left = -1, blocks;

static bool fails(void)
{
    return left >= 0 && left-- == 0;
}

struct rattle_block rattle_alloc(size_t size, size_t align)
{
    void *at = fails() ? NULL : malloc(size != 0 ? size : align);

    blocks += at != NULL;
    return (struct rattle_block){at != NULL, at != NULL ? at : &none};
}

struct rattle_block rattle_realloc(void *old, size_t old_size, size_t size, size_t align)
{
    void *at = fails() ? NULL : realloc(old, size != 0 ? size : align);

    (void)old_size;
    return (struct rattle_block){at != NULL, at != NULL ? at : &none};
}

void rattle_dealloc(void *at)
{
    blocks--;
    free(at);
}

#define CHECK(holds) \
    do { \
        if (!(holds)) { \
            printf("line %d: %s\n", __LINE__, #holds); \
            exit(1); \
        } \
    } while (0)

static rbac_office office = RBAC_OFFICE_NONE;
static char out[1 << 16];
static size_t length;

static const char *const lines[] = {
    "{\"fn\":\"addUser\",\"user\":\"ann\"}",
    "{\"fn\":\"addRole\",\"role\":\"r0\"}",
    "{\"fn\":\"addRole\",\"role\":\"r1\"}",
    "{\"fn\":\"addRole\",\"role\":\"r2\"}",
    "{\"fn\":\"addInheritance\",\"asc\":\"r0\",\"desc\":\"r1\"}",
    "{\"fn\":\"assignUser\",\"user\":\"ann\",\"role\":\"r0\"}",
    "{\"fn\":\"addPermObj\",\"object\":\"o\"}",
    "{\"fn\":\"addPermission\",\"object\":\"o\",\"operation\":\"p\"}",
    "{\"fn\":\"grantPermission\",\"object\":\"o\",\"operation\":\"p\",\"role\":\"r1\"}",
    "{\"fn\":\"createSession\",\"user\":\"ann\",\"session\":\"s\",\"roles\":[\"r0\",\"r1\"]}",
    "{\"fn\":\"authorizedUsers\",\"role\":\"r1\"}",
    "{\"fn\":\"createSsdSet\",\"set\":\"x\",\"roles\":[\"r1\",\"r2\"],\"cardinality\":2}",
    "{\"fn\":\"importAssignments\",\"csv\":\"user,role\\r\\nann,r1\\r\\nann,r2\\r\\nbob,r1\\r\\n\"}",
    "{\"fn\":\"deleteRole\",\"role\":\"r0\"}",
    "{\"fn\":\"lockUserAccount\",\"user\":\"ann\"}",
    "{\"fn\":\"nothing\"}",
    "{",
};
enum { LINES = sizeof lines / sizeof *lines };

/* All rows of the office, as a text that the caller frees. No allocation fails in it. */
static char *rows(void)
{
    char *all = calloc(1, 1 << 16), *end = all, names[RBAC_LONGEST_ROW];
    long kept = left;
    rbac_row row;

    left = -1;
    for (uint32_t table = 0; table < RBAC_TABLES; table++)
        for (size_t index = 0; rbac_row_at(&office, table, index, names, sizeof names, &row) == RBAC_DONE; index++)
            end += sprintf(end, "%" PRIu32 " %zu %zu %zu %.*s %" PRIu32 "\n", table, row.first, row.second, row.third,
                (int)(row.first + row.second + row.third), names, row.number);
    left = kept;
    return all;
}

static uint64_t revision(void)
{
    uint64_t now;

    CHECK(rbac_revision(&office, &now) == RBAC_DONE);
    return now;
}

/* Answers a line with each allocation failing in turn, until it is done. Returns how many tries it took. */
static long try_line(const char *line)
{
    for (long tries = 1;; tries++) {
        char *before = rows(), *after;
        uint64_t counted = revision();
        uint32_t code;
        bool is_same, failed;

        left = tries - 1;
        code = rbac_answer(&office, line, strlen(line), out, sizeof out, &length);
        failed = left < 0;
        left = -1;
        after = rows();
        is_same = strcmp(before, after) == 0;
        free(before);
        free(after);
        if (!failed) {
            CHECK(code == RBAC_DONE && length > 0);
            return tries;
        }
        CHECK(is_same == (revision() == counted));
        if (code == RBAC_DONE && length > 0)
            return tries; /* The index did without the block. */
        CHECK(code == RBAC_MEMORY && length == 0);
        CHECK(rbac_kept_answer(&office, out, sizeof out, &length) == RBAC_DONE && length == 0);
        if (!is_same)
            return tries;
    }
}

/* Decides while the next allocation would fail. A decision doesn't allocate, so it is made. */
static long try_check(int32_t wanted, int32_t wanted_of_user)
{
    left = 0;
    CHECK(rbac_check(&office, "s", 1, "p", 1, "o", 1) == wanted && left == 0);
    CHECK(rbac_check_user(&office, "ann", 3, "p", 1, "o", 1) == wanted_of_user && left == 0);
    left = -1;
    return 1;
}

/* Asks which sets an inheritance and a new session would violate with each allocation failing in turn: either nothing is returned, or
 * the answer did without the block. */
static long try_conflicts(void)
{
    static const size_t lengths[] = {2, 2};
    static const size_t wanted[] = {1, 0};
    uint32_t code;
    size_t count, total;
    rbac_row sets[2];
    bool failed = true;
    long tries;

    for (tries = 0; failed; tries++) {
        failed = false;
        for (int of_session = 0; of_session < 2; of_session++) {
            left = tries;
            code = of_session ? rbac_creation_conflicts(&office, "ann", 3, "r0r1", lengths, 2, 0, out, sizeof out, sets, 2, &count, &total)
                              : rbac_inheritance_conflicts(&office, 0, "r1", 2, "r2", 2, 0, out, sizeof out, sets, 2, &count, &total);
            if (code == RBAC_MEMORY)
                CHECK(left < 0 && count == 0 && total == 0);
            else
                CHECK(code == RBAC_DONE && count == wanted[of_session] && total == wanted[of_session]);
            failed |= left < 0;
        }
    }
    left = -1;
    return 2 * (tries - 1);
}

/* Does all lines in a new office with one of all their allocations failing, each in turn. A line that wasn't done is repeated. The
 * rows in the end, and decisions on the way, are those without a failure, whether or not there is still an index. */
static long try_all(void)
{
    char *wanted = rows();
    long tries = 0;
    bool failed;

    do {
        char *found;

        rbac_close(&office);
        CHECK(rbac_open(&office) == RBAC_DONE);
        left = tries++;
        for (size_t at = 0; at < LINES; at++) {
            uint64_t counted = revision();
            uint32_t code = rbac_answer(&office, lines[at], strlen(lines[at]), out, sizeof out, &length);

            if (code == RBAC_MEMORY && revision() == counted)
                code = rbac_answer(&office, lines[at], strlen(lines[at]), out, sizeof out, &length);
            CHECK(code == RBAC_DONE || (code == RBAC_MEMORY && revision() != counted));
            if (at == 9) {
                CHECK(rbac_check(&office, "s", 1, "p", 1, "o", 1) == 1);
                CHECK(rbac_check_user(&office, "ann", 3, "p", 1, "o", 1) == 1);
            }
        }
        failed = left < 0;
        left = -1;
        found = rows();
        CHECK(strcmp(wanted, found) == 0);
        CHECK(rbac_check(&office, "s", 1, "p", 1, "o", 1) == -26);
        free(found);
    } while (failed);
    free(wanted);
    return tries;
}

/* Saves and loads with each allocation failing in turn. */
static long try_load(void)
{
    char *before = rows(), *after, names[RBAC_LONGEST_ROW];
    rbac_office other = RBAC_OFFICE_NONE;
    rbac_row row;
    uint32_t code;
    long tries;

    for (tries = 1; (left = tries - 1, code = rbac_open(&other), left < 0); tries++)
        CHECK(code == RBAC_MEMORY && other.at == NULL);
    for (long more = 0;; more++, tries++) {
        left = -1;
        for (uint32_t table = 0; table < RBAC_TABLES; table++)
            for (size_t index = 0;; index++) {
                size_t count;

                left = 0;
                code = rbac_row_at(&office, table, index, names, sizeof names, &row);
                CHECK(rbac_rows(&office, table, index, names, sizeof names, &row, 1, &count) == RBAC_DONE && left == 0);
                CHECK(code == (count == 1 ? RBAC_DONE : RBAC_ABSENT));
                if (code == RBAC_ABSENT)
                    break;
                code = rbac_add_row(&other, table, names, row.first, names + row.first, row.second,
                    names + row.first + row.second, row.third, row.number);
                /* A row of short names needs a block only if its set has no room. */
                CHECK(code == RBAC_MEMORY || (code == RBAC_DONE && left == 0));
                left = -1;
                CHECK(code == RBAC_DONE || rbac_add_row(&other, table, names, row.first, names + row.first, row.second,
                          names + row.first + row.second, row.third, row.number) == RBAC_DONE);
            }
        left = more;
        code = rbac_load(&other, 9);
        if (left >= 0)
            break;
        /* The load is done if it can do without the block. */
        CHECK(code == RBAC_MEMORY || code == RBAC_DONE);
    }
    left = -1;
    CHECK(code == RBAC_DONE);
    rbac_close(&office);
    office = other;
    after = rows();
    CHECK(strcmp(before, after) == 0 && revision() == 9);
    free(before);
    free(after);
    return tries;
}

int main(void)
{
    long tries = 0;

    left = 0;
    CHECK(rbac_open(&office) == RBAC_MEMORY && office.at == NULL);
    left = -1;
    CHECK(rbac_open(&office) == RBAC_DONE);
    for (size_t at = 0; at < LINES; at++) {
        tries += try_line(lines[at]);
        if (at == 9)
            tries += try_check(1, 1) + try_load();
        if (at == 11)
            tries += try_conflicts();
    }
    tries += try_check(-26, 0) + try_load() + try_all();
    rbac_close(&office);
    printf("%ld tries, %ld blocks left\n", tries, blocks);
    return blocks != 0;
}
