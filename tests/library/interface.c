/* What rbac.h promises about codes: for tests/library/interface.py. Prints a line for each promise that isn't kept. */
#include "rbac.h"
#include <inttypes.h>
#include <stdio.h>
#include <string.h>

#define TEXT(text) text, sizeof text - 1
#define LINE(text) TEXT("{\"fn\":" text "}")

static int broken;
static char out[256];
static size_t length;

static void want(const char *what, int64_t given, int64_t wanted)
{
    if (given != wanted) {
        printf("%s: %" PRId64 " and not %" PRId64 "\n", what, given, wanted);
        broken = 1;
    }
}

static void nulls(rbac_office *office)
{
    uint64_t revision;
    rbac_row row;

    want("open null", rbac_open(NULL), RBAC_NULL);
    rbac_close(NULL);
    want("answer by null", rbac_answer(NULL, TEXT("{}"), out, sizeof out, &length), RBAC_NULL);
    want("answer of null", rbac_answer(office, NULL, 1, out, sizeof out, &length), RBAC_NULL);
    want("answer to null", rbac_answer(office, TEXT("{}"), NULL, 1, &length), RBAC_NULL);
    want("answer without a length", rbac_answer(office, TEXT("{}"), out, sizeof out, NULL), RBAC_NULL);
    want("kept by null", rbac_kept_answer(NULL, out, sizeof out, &length), RBAC_NULL);
    want("kept to null", rbac_kept_answer(office, NULL, 1, &length), RBAC_NULL);
    want("kept without a length", rbac_kept_answer(office, out, sizeof out, NULL), RBAC_NULL);
    want("check by null", rbac_check(NULL, TEXT("s"), TEXT("p"), TEXT("o")), -RBAC_NULL);
    want("check of no session", rbac_check(office, NULL, 1, TEXT("p"), TEXT("o")), -RBAC_NULL);
    want("check of no operation", rbac_check(office, TEXT("s"), NULL, 1, TEXT("o")), -RBAC_NULL);
    want("check of no object", rbac_check(office, TEXT("s"), TEXT("p"), NULL, 1), -RBAC_NULL);
    want("user by null", rbac_check_user(NULL, TEXT("u"), TEXT("p"), TEXT("o")), -RBAC_NULL);
    want("no user", rbac_check_user(office, NULL, 1, TEXT("p"), TEXT("o")), -RBAC_NULL);
    want("no operation of a user", rbac_check_user(office, TEXT("u"), NULL, 1, TEXT("o")), -RBAC_NULL);
    want("no object of a user", rbac_check_user(office, TEXT("u"), TEXT("p"), NULL, 1), -RBAC_NULL);
    want("revision of null", rbac_revision(NULL, &revision), RBAC_NULL);
    want("revision to null", rbac_revision(office, NULL), RBAC_NULL);
    want("row of null", rbac_row_at(NULL, 0, 0, out, sizeof out, &row), RBAC_NULL);
    want("row to null", rbac_row_at(office, 0, 0, NULL, 1, &row), RBAC_NULL);
    want("row without lengths", rbac_row_at(office, 0, 0, out, sizeof out, NULL), RBAC_NULL);
    want("rows of null", rbac_rows(NULL, 0, 0, out, sizeof out, &row, 1, &length), RBAC_NULL);
    want("rows to null", rbac_rows(office, 0, 0, NULL, 1, &row, 1, &length), RBAC_NULL);
    want("rows without lengths", rbac_rows(office, 0, 0, out, sizeof out, NULL, 1, &length), RBAC_NULL);
    want("rows without a count", rbac_rows(office, 0, 0, out, sizeof out, &row, 1, NULL), RBAC_NULL);
    want("add to null", rbac_add_row(NULL, 0, TEXT("u"), NULL, 0, NULL, 0, 0), RBAC_NULL);
    want("add null", rbac_add_row(office, 0, NULL, 1, NULL, 0, NULL, 0, 0), RBAC_NULL);
    want("add a second null", rbac_add_row(office, 4, TEXT("u"), NULL, 1, NULL, 0, 0), RBAC_NULL);
    want("add a third null", rbac_add_row(office, 11, TEXT("u"), TEXT("u"), NULL, 1, 0), RBAC_NULL);
    want("load null", rbac_load(NULL, 0), RBAC_NULL);
}

static void closed(rbac_office *office)
{
    uint64_t revision = 7;
    size_t start = 7, end = 7;
    rbac_row row;

    length = 7;
    want("answer when closed", rbac_answer(office, TEXT("{}"), out, sizeof out, &length), RBAC_CLOSED);
    want("its length", length, 0);
    length = 7;
    want("kept when closed", rbac_kept_answer(office, out, sizeof out, &length), RBAC_CLOSED);
    want("its length", length, 0);
    want("check when closed", rbac_check(office, TEXT("s"), TEXT("p"), TEXT("o")), -RBAC_CLOSED);
    want("user when closed", rbac_check_user(office, TEXT("u"), TEXT("p"), TEXT("o")), -RBAC_CLOSED);
    want("a null user when closed", rbac_check_user(office, NULL, 1, TEXT("p"), TEXT("o")), -RBAC_NULL);
    want("revision when closed", rbac_revision(office, &revision), RBAC_CLOSED);
    want("the revision", revision, 0);
    want("row when closed", rbac_row_at(office, 0, 0, out, sizeof out, &row), RBAC_CLOSED);
    length = 7;
    want("rows when closed", rbac_rows(office, 0, 0, out, sizeof out, &row, 1, &length), RBAC_CLOSED);
    want("their count", length, 0);
    want("range when closed", rbac_range(office, RBAC_ROLES, TEXT("c"), &start, &end), RBAC_CLOSED);
    want("its places", start == 0 && end == 0, 1);
    want("a session's reason when closed", rbac_explain_session(office, TEXT("s"), TEXT("p"), TEXT("o"), out, 9, &row), RBAC_CLOSED);
    want("add when closed", rbac_add_row(office, 0, TEXT("u"), NULL, 0, NULL, 0, 0), RBAC_CLOSED);
    want("load when closed", rbac_load(office, 0), RBAC_CLOSED);
    rbac_close(office);
    want("the handle", office->at != NULL, 0);
}

static void short_buffers(rbac_office *office)
{
    static const char done[] = "{\"ok\":true}";
    rbac_row row;

    memset(out, '-', sizeof out);
    want("too short", rbac_answer(office, LINE("\"addUser\",\"user\":\"ann\""), out, sizeof done - 2, &length), RBAC_SHORT);
    want("its length", length, sizeof done - 1);
    want("nothing beyond", out[sizeof done - 2], '-');
    want("kept, too short", rbac_kept_answer(office, out, 0, &length), RBAC_SHORT);
    want("kept", rbac_kept_answer(office, out, sizeof done - 1, &length), RBAC_DONE);
    want("its bytes", memcmp(out, done, sizeof done - 1), 0);
    want("nothing beyond", out[sizeof done - 1], '-');
    want("done once", rbac_answer(office, LINE("\"addUser\",\"user\":\"ann\""), out, sizeof out, &length), RBAC_DONE);
    want("no buffer", rbac_answer(office, LINE("\"addUser\",\"user\":\"bob\""), NULL, 0, &length), RBAC_SHORT);
    want("an empty line", rbac_answer(office, NULL, 0, out, sizeof out, &length), RBAC_DONE);
    want("a row, too short", rbac_row_at(office, RBAC_USERS, 1, out, 2, &row), RBAC_SHORT);
    want("its length", row.first, 3);
    want("a row", rbac_row_at(office, RBAC_USERS, 1, out, 3, &row), RBAC_DONE);
    want("its name", memcmp(out, "bob", 3), 0);
    want("no row", rbac_row_at(office, RBAC_USERS, 2, out, sizeof out, &row), RBAC_ABSENT);
    want("no table", rbac_row_at(office, RBAC_TABLES, 0, out, sizeof out, &row), RBAC_ABSENT);
    want("the last row", rbac_row_at(office, RBAC_USERS, SIZE_MAX, out, sizeof out, &row), RBAC_ABSENT);
}

/* Reads two users and an assignment at once, with more and with less room than they need. */
static void many_rows(rbac_office *office)
{
    rbac_row rows[4];

    memset(rows, 0, sizeof rows);
    memset(out, '-', sizeof out);
    want("all users", rbac_rows(office, RBAC_USERS, 0, out, sizeof out, rows, 4, &length), RBAC_DONE);
    want("their count", length, 2);
    want("their names", memcmp(out, "annbob-", 7), 0);
    want("the first length", rows[0].first, 3);
    want("the second name", rows[1].second, 0);
    want("nothing beyond", rows[2].first, 0);
    want("the second user", rbac_rows(office, RBAC_USERS, 1, out, 3, rows, 4, &length), RBAC_DONE);
    want("it", length == 1 && memcmp(out, "bob", 3) == 0, 1);
    want("room for one and a half", rbac_rows(office, RBAC_USERS, 0, out, 5, rows, 4, &length), RBAC_DONE);
    want("one", length == 1 && memcmp(out, "ann", 3) == 0, 1);
    want("room for none", rbac_rows(office, RBAC_USERS, 0, out, 2, rows, 4, &length), RBAC_DONE);
    want("none", length, 0);
    want("lengths of one", rbac_rows(office, RBAC_USERS, 0, out, sizeof out, rows, 1, &length), RBAC_DONE);
    want("one", length, 1);
    want("no room at all", rbac_rows(office, RBAC_USERS, 0, NULL, 0, NULL, 0, &length), RBAC_DONE);
    want("none", length, 0);
    want("behind the last", rbac_rows(office, RBAC_USERS, 2, out, sizeof out, rows, 4, &length), RBAC_DONE);
    want("none", length, 0);
    want("the last place", rbac_rows(office, RBAC_USERS, SIZE_MAX, out, sizeof out, rows, 4, &length), RBAC_DONE);
    want("none", length, 0);
    want("no table", rbac_rows(office, RBAC_TABLES, 0, out, sizeof out, rows, 4, &length), RBAC_ABSENT);
    want("none", length, 0);
}

static void names(rbac_office *office)
{
    char longest[65];

    memset(longest, 'x', sizeof longest);
    want("no session", rbac_check(office, TEXT("s"), TEXT("p"), TEXT("o")), -26);
    want("an empty name", rbac_check(office, TEXT(""), TEXT("p"), TEXT("o")), -RBAC_BAD_NAME);
    want("null as an empty name", rbac_check(office, NULL, 0, TEXT("p"), TEXT("o")), -RBAC_BAD_NAME);
    want("not UTF-8", rbac_check(office, TEXT("\xff"), TEXT("p"), TEXT("o")), -RBAC_BAD_NAME);
    want("a surrogate", rbac_check(office, TEXT("s"), TEXT("\xed\xa0\x80"), TEXT("o")), -RBAC_BAD_NAME);
    want("a zero", rbac_check(office, TEXT("s"), TEXT("p"), TEXT("o\0")), -RBAC_BAD_NAME);
    want("64 bytes", rbac_check(office, longest, 64, TEXT("p"), TEXT("o")), -26);
    want("65 bytes", rbac_check(office, longest, 65, TEXT("p"), TEXT("o")), -RBAC_BAD_NAME);
    want("no such user", rbac_check_user(office, TEXT("u"), TEXT("p"), TEXT("o")), -2);
    want("a user without a name", rbac_check_user(office, NULL, 0, TEXT("p"), TEXT("o")), -RBAC_BAD_NAME);
    want("a user and an operation that is no name", rbac_check_user(office, TEXT("ann"), TEXT("\n"), TEXT("o")), -RBAC_BAD_NAME);
    want("a user and an object that is no name", rbac_check_user(office, TEXT("u"), TEXT("p"), longest, 65), -RBAC_BAD_NAME);
    want("a user and no such object", rbac_check_user(office, TEXT("ann"), TEXT("p"), TEXT("o")), -6);
    want("a row that isn't UTF-8", rbac_add_row(office, RBAC_USERS, TEXT("\xff"), NULL, 0, NULL, 0, 0), RBAC_BAD_NAME);
    want("a row without its second name", rbac_add_row(office, RBAC_ASSIGNMENTS, TEXT("u"), NULL, 0, NULL, 0, 0), RBAC_BAD_NAME);
    want("a row without its third name", rbac_add_row(office, RBAC_GRANTS, TEXT("u"), TEXT("u"), NULL, 0, 0), RBAC_BAD_NAME);
    want("a row of no table", rbac_add_row(office, RBAC_TABLES, TEXT("u"), NULL, 0, NULL, 0, 0), RBAC_ABSENT);
}

/* Explains decisions about a session of ann, and what would be activated in it. */
static void sessions(rbac_office *office)
{
    rbac_row reason;
    size_t count = 7, total = 7;

    want("a session", rbac_answer(office, LINE("\"createSession\",\"user\":\"ann\",\"session\":\"s\",\"roles\":[\"boss\"]"), out,
        sizeof out, &length), RBAC_DONE);
    memset(out, '-', sizeof out);
    want("why a session", rbac_explain_session(office, TEXT("s"), TEXT("open"), TEXT("safe"), out, 10, &reason), RBAC_DONE);
    want("its number", reason.number, RBAC_WHY_ALLOWED);
    want("its names", memcmp(out, "bossteller-", 11), 0);
    want("why of no session", rbac_explain_session(office, TEXT("t"), TEXT("open"), TEXT("safe"), out, 9, &reason), 26);
    want("why of null", rbac_explain_session(office, NULL, 1, TEXT("p"), TEXT("o"), out, 9, &reason), RBAC_NULL);
    want("why to null", rbac_explain_session(office, TEXT("s"), TEXT("p"), TEXT("o"), NULL, 1, &reason), RBAC_NULL);
    want("why without lengths", rbac_explain_session(office, TEXT("s"), TEXT("p"), TEXT("o"), out, 9, NULL), RBAC_NULL);
    want("why by null", rbac_explain_session(NULL, TEXT("s"), TEXT("p"), TEXT("o"), out, 9, &reason), RBAC_NULL);
    want("no conflict of a session", rbac_activation_conflicts(office, TEXT("ann"), TEXT("s"), TEXT("teller"), 0, out, 9, &reason, 1,
        &count, &total), RBAC_DONE);
    want("none of it", count == 0 && total == 0, 1);
    want("one of no session", rbac_activation_conflicts(office, TEXT("ann"), TEXT("t"), TEXT("teller"), 0, out, 9, &reason, 1, &count,
        &total), 26);
    want("one of null", rbac_activation_conflicts(office, TEXT("ann"), NULL, 1, TEXT("r"), 0, out, 9, &reason, 1, &count, &total),
        RBAC_NULL);
    want("one to null", rbac_activation_conflicts(office, TEXT("ann"), TEXT("s"), TEXT("r"), 0, NULL, 1, &reason, 1, &count, &total),
        RBAC_NULL);
    want("one without lengths", rbac_activation_conflicts(office, TEXT("ann"), TEXT("s"), TEXT("r"), 0, out, 9, NULL, 1, &count,
        &total), RBAC_NULL);
    want("one by null", rbac_activation_conflicts(NULL, TEXT("ann"), TEXT("s"), TEXT("r"), 0, out, 9, &reason, 1, &count, &total),
        RBAC_NULL);
}

/* Finds the set that the session would violate. */
static void inheritances(rbac_office *office)
{
    rbac_row set;
    size_t count = 7, total = 7;

    want("a role", rbac_answer(office, LINE("\"addRole\",\"role\":\"payer\""), out, sizeof out, &length), RBAC_DONE);
    want("a set", rbac_answer(office, LINE("\"createDsdSet\",\"set\":\"pay\",\"roles\":[\"payer\",\"teller\"],\"cardinality\":2"),
        out, sizeof out, &length), RBAC_DONE);
    memset(out, '-', sizeof out);
    want("a conflict", rbac_inheritance_conflicts(office, 2, TEXT("boss"), TEXT("payer"), 0, out, 4, &set, 1, &count, &total),
        RBAC_DONE);
    want("its lengths", count == 1 && set.first == 3 && set.second == 1 && set.third == 0, 1);
    want("its names", memcmp(out, "pays-", 5), 0);
    want("too short", rbac_inheritance_conflicts(office, 1, TEXT("boss"), TEXT("payer"), 0, out, 3, &set, 1, &count, &total), RBAC_DONE);
    want("one that is too long", count == 0 && total == 1, 1);
    want("no more", rbac_inheritance_conflicts(office, 1, TEXT("boss"), TEXT("payer"), 1, out, 9, &set, 1, &count, &total), RBAC_DONE);
    want("one before", count == 0 && total == 1, 1);
    want("none of users", rbac_inheritance_conflicts(office, 0, TEXT("boss"), TEXT("payer"), 0, out, 9, &set, 1, &count, &total),
        RBAC_DONE);
    want("none of either", count == 0 && total == 0, 1);
    want("a cycle", rbac_inheritance_conflicts(office, 1, TEXT("teller"), TEXT("boss"), 0, out, 9, &set, 1, &count, &total), 16);
}

/* Reads the sets that the session, or a new one, would violate at once, with more and with less room than they need. */
static void many_conflicts(rbac_office *office)
{
    static const size_t lengths[] = {4, 5, 4}, one[] = {4}, none[] = {0};
    rbac_row sets[4];
    size_t count = 7, total = 7;

    want("a second set", rbac_answer(office, LINE("\"createDsdSet\",\"set\":\"any\",\"roles\":[\"payer\",\"boss\"],\"cardinality\":2"),
        out, sizeof out, &length), RBAC_DONE);
    want("a second role", rbac_answer(office, LINE("\"assignUser\",\"user\":\"ann\",\"role\":\"payer\""), out, sizeof out, &length),
        RBAC_DONE);
    want("a second user", rbac_answer(office, LINE("\"addUser\",\"user\":\"bob\""), out, sizeof out, &length), RBAC_DONE);
    memset(out, '-', sizeof out);
    memset(sets, 0, sizeof sets);
    want("both", rbac_inheritance_conflicts(office, 2, TEXT("boss"), TEXT("payer"), 0, out, 8, sets, 4, &count, &total), RBAC_DONE);
    want("their count", count == 2 && total == 2, 1);
    want("their names", memcmp(out, "anyspays-", 9), 0);
    want("their lengths", sets[0].first == 3 && sets[0].second == 1 && sets[1].first == 3 && sets[1].third == 0, 1);
    want("nothing beyond", sets[2].first, 0);
    want("room for one and a half", rbac_inheritance_conflicts(office, 1, TEXT("boss"), TEXT("payer"), 0, out, 7, sets, 4, &count,
        &total), RBAC_DONE);
    want("one of both", count == 1 && total == 2, 1);
    want("lengths of one", rbac_inheritance_conflicts(office, 1, TEXT("boss"), TEXT("payer"), 1, out, 8, sets, 1, &count, &total),
        RBAC_DONE);
    want("the second", count == 1 && total == 2 && memcmp(out, "pays", 4) == 0, 1);
    want("no room", rbac_inheritance_conflicts(office, 1, TEXT("boss"), TEXT("payer"), 0, NULL, 0, NULL, 0, &count, &total), RBAC_DONE);
    want("none of both", count == 0 && total == 2, 1);
    want("the last place", rbac_inheritance_conflicts(office, 1, TEXT("boss"), TEXT("payer"), SIZE_MAX, out, 8, sets, 4, &count,
        &total), RBAC_DONE);
    want("none there", count == 0 && total == 2, 1);
    want("a cycle", rbac_inheritance_conflicts(office, 1, TEXT("teller"), TEXT("boss"), 0, out, 8, sets, 4, &count, &total), 16);
    want("none of a cycle", count == 0 && total == 0, 1);
    want("an activation", rbac_activation_conflicts(office, TEXT("ann"), TEXT("s"), TEXT("payer"), 0, out, 8, sets, 4, &count, &total),
        RBAC_DONE);
    want("its sets", count == 2 && total == 2 && memcmp(out, "anypay", 6) == 0 && sets[1].second == 0, 1);
    want("an assignment", rbac_assignment_conflicts(office, TEXT("bob"), TEXT("boss"), 0, out, 8, sets, 4, &count, &total), RBAC_DONE);
    want("no sets", count == 0 && total == 0, 1);

    want("a session", rbac_creation_conflicts(office, TEXT("ann"), "bosspayerboss", lengths, 3, 0, out, 64, sets, 4, &count, &total),
        RBAC_DONE);
    want("its sets with roles", count == 4 && total == 4 && memcmp(out, "anybossanypayerpaypayerpayteller", 32) == 0, 1);
    want("of its roles", sets[0].second == 4 && sets[1].second == 5 && sets[2].second == 5 && sets[3].second == 6, 1);
    want("from the third", rbac_creation_conflicts(office, TEXT("ann"), "bosspayer", lengths, 2, 2, out, 8, sets, 4, &count, &total),
        RBAC_DONE);
    want("the third", count == 1 && total == 4 && memcmp(out, "paypayer", 8) == 0, 1);
    want("of no role", rbac_creation_conflicts(office, TEXT("ann"), NULL, NULL, 0, 0, out, 64, sets, 4, &count, &total), RBAC_DONE);
    want("none", count == 0 && total == 0, 1);
    want("of nobody", rbac_creation_conflicts(office, TEXT("eve"), "none", one, 1, 0, out, 64, sets, 4, &count, &total), 2);
    want("of another role", rbac_creation_conflicts(office, TEXT("bob"), "none", one, 1, 0, out, 64, sets, 4, &count, &total), 4);
    want("of another's role", rbac_creation_conflicts(office, TEXT("bob"), "boss", one, 1, 0, out, 64, sets, 4, &count, &total), 29);
    want("of no name", rbac_creation_conflicts(office, TEXT("ann"), NULL, none, 1, 0, out, 64, sets, 4, &count, &total), RBAC_BAD_NAME);
    want("of bytes", rbac_creation_conflicts(office, TEXT("ann"), "\xff...", one, 1, 0, out, 64, sets, 4, &count, &total), RBAC_BAD_NAME);
    want("none", count == 0 && total == 0, 1);
}

/* Passes null pointers to the functions that return several sets. */
static void null_conflicts(rbac_office *office)
{
    static const size_t one[] = {4};
    rbac_row sets[4];
    size_t count = 7, total = 7;

    want("by null", rbac_inheritance_conflicts(NULL, 0, TEXT("a"), TEXT("b"), 0, out, 8, sets, 4, &count, &total), RBAC_NULL);
    want("of null", rbac_inheritance_conflicts(office, 0, NULL, 1, TEXT("b"), 0, out, 8, sets, 4, &count, &total), RBAC_NULL);
    want("to null", rbac_inheritance_conflicts(office, 0, TEXT("a"), TEXT("b"), 0, NULL, 8, sets, 4, &count, &total), RBAC_NULL);
    want("without lengths", rbac_inheritance_conflicts(office, 0, TEXT("a"), TEXT("b"), 0, out, 8, NULL, 4, &count, &total), RBAC_NULL);
    want("without a count", rbac_inheritance_conflicts(office, 0, TEXT("a"), TEXT("b"), 0, out, 8, sets, 4, NULL, &total), RBAC_NULL);
    want("without a total", rbac_inheritance_conflicts(office, 0, TEXT("a"), TEXT("b"), 0, out, 8, sets, 4, &count, NULL), RBAC_NULL);
    want("no assignment", rbac_assignment_conflicts(office, TEXT("a"), NULL, 1, 0, out, 8, sets, 4, &count, &total), RBAC_NULL);
    want("no activation", rbac_activation_conflicts(office, TEXT("a"), NULL, 1, TEXT("r"), 0, out, 8, sets, 4, &count, &total), RBAC_NULL);
    want("a session of null", rbac_creation_conflicts(office, NULL, 1, "boss", one, 1, 0, out, 8, sets, 4, &count, &total), RBAC_NULL);
    want("null roles", rbac_creation_conflicts(office, TEXT("ann"), NULL, one, 1, 0, out, 8, sets, 4, &count, &total), RBAC_NULL);
    want("roles without lengths", rbac_creation_conflicts(office, TEXT("ann"), "boss", NULL, 1, 0, out, 8, sets, 4, &count, &total),
        RBAC_NULL);
    want("neither is written", count == 7 && total == 7, 1);
}

/* Finds the three roles: boss, payer and teller. */
static void ranges(rbac_office *office)
{
    size_t start, end;

    want("a range", rbac_range(office, RBAC_ROLES, TEXT("payer"), &start, &end), RBAC_DONE);
    want("its places", start == 1 && end == 2, 1);
    want("a range between", rbac_range(office, RBAC_ROLES, TEXT("c"), &start, &end), RBAC_DONE);
    want("its places", start == 1 && end == 1, 1);
    want("a range of nothing", rbac_range(office, RBAC_ROLES, NULL, 0, &start, &end), RBAC_DONE);
    want("its places", start == 0 && end == 0, 1);
    want("a range of no table", rbac_range(office, RBAC_TABLES, TEXT("c"), &start, &end), RBAC_ABSENT);
    want("a range of null", rbac_range(office, RBAC_ROLES, NULL, 1, &start, &end), RBAC_NULL);
    want("a range to null", rbac_range(office, RBAC_ROLES, TEXT("c"), NULL, &end), RBAC_NULL);
    want("a range to null", rbac_range(office, RBAC_ROLES, TEXT("c"), &start, NULL), RBAC_NULL);
    want("a range by null", rbac_range(NULL, RBAC_ROLES, TEXT("c"), &start, &end), RBAC_NULL);
}

/* Explains decisions about ann, who is locked at the end. */
static void reasons(void)
{
    static const char *const lines[] = {
        "{\"fn\":\"addUser\",\"user\":\"ann\"}",
        "{\"fn\":\"addRole\",\"role\":\"teller\"}",
        "{\"fn\":\"addAscendant\",\"asc\":\"boss\",\"desc\":\"teller\"}",
        "{\"fn\":\"assignUser\",\"user\":\"ann\",\"role\":\"boss\"}",
        "{\"fn\":\"addPermObj\",\"object\":\"safe\"}",
        "{\"fn\":\"addPermission\",\"object\":\"safe\",\"operation\":\"open\"}",
        "{\"fn\":\"grantPermission\",\"object\":\"safe\",\"operation\":\"open\",\"role\":\"teller\"}",
    };
    rbac_office office = RBAC_OFFICE_NONE;
    rbac_row reason;
    size_t count = 7, total = 7;

    want("why by null", rbac_explain_user(NULL, TEXT("u"), TEXT("p"), TEXT("o"), out, sizeof out, &reason), RBAC_NULL);
    want("why when closed", rbac_explain_user(&office, TEXT("u"), TEXT("p"), TEXT("o"), out, sizeof out, &reason), RBAC_CLOSED);
    want("a conflict when closed", rbac_assignment_conflicts(&office, TEXT("u"), TEXT("r"), 0, out, 9, &reason, 1, &count, &total),
        RBAC_CLOSED);
    want("conflicts when closed", rbac_creation_conflicts(&office, TEXT("u"), NULL, NULL, 0, 0, out, 9, &reason, 1, &count, &total),
        RBAC_CLOSED);
    want("their count", count == 0 && total == 0, 1);
    want("open", rbac_open(&office), RBAC_DONE);
    want("why of no user", rbac_explain_user(&office, NULL, 1, TEXT("p"), TEXT("o"), out, sizeof out, &reason), RBAC_NULL);
    want("why to null", rbac_explain_user(&office, TEXT("u"), TEXT("p"), TEXT("o"), NULL, 1, &reason), RBAC_NULL);
    want("why without lengths", rbac_explain_user(&office, TEXT("u"), TEXT("p"), TEXT("o"), out, sizeof out, NULL), RBAC_NULL);
    want("why of no name", rbac_explain_user(&office, TEXT("u"), TEXT("\n"), TEXT("o"), out, sizeof out, &reason), RBAC_BAD_NAME);
    want("why of nobody", rbac_explain_user(&office, TEXT("u"), TEXT("p"), TEXT("o"), out, sizeof out, &reason), 2);
    for (size_t at = 0; at < sizeof lines / sizeof *lines; at++)
        want(lines[at], rbac_answer(&office, lines[at], strlen(lines[at]), out, sizeof out, &length), RBAC_DONE);
    memset(out, '-', sizeof out);
    want("why", rbac_explain_user(&office, TEXT("ann"), TEXT("open"), TEXT("safe"), out, 10, &reason), RBAC_DONE);
    want("its number", reason.number, RBAC_WHY_ALLOWED);
    want("its lengths", reason.first == 4 && reason.second == 6 && reason.third == 0, 1);
    want("its names", memcmp(out, "bossteller-", 11), 0);
    want("no conflict", rbac_assignment_conflicts(&office, TEXT("ann"), TEXT("boss"), 0, out, sizeof out, &reason, 1, &count, &total),
        RBAC_DONE);
    want("none of ann", count == 0 && total == 0, 1);
    want("a conflict of nobody", rbac_assignment_conflicts(&office, TEXT("u"), TEXT("r"), 0, out, 9, &reason, 1, &count, &total),
        2);
    want("a conflict of no role", rbac_assignment_conflicts(&office, TEXT("ann"), TEXT("r"), 0, out, 9, &reason, 1, &count, &total),
        4);
    want("a conflict of no name", rbac_assignment_conflicts(&office, TEXT("ann"), NULL, 0, 0, out, 9, &reason, 1, &count, &total),
        RBAC_BAD_NAME);
    want("a conflict of null", rbac_assignment_conflicts(&office, NULL, 1, TEXT("r"), 0, out, 9, &reason, 1, &count, &total),
        RBAC_NULL);
    want("a conflict to null", rbac_assignment_conflicts(&office, TEXT("ann"), TEXT("r"), 0, NULL, 1, &reason, 1, &count, &total),
        RBAC_NULL);
    want("a conflict without lengths", rbac_assignment_conflicts(&office, TEXT("ann"), TEXT("r"), 0, out, 9, NULL, 1, &count, &total),
        RBAC_NULL);
    want("a conflict by null", rbac_assignment_conflicts(NULL, TEXT("ann"), TEXT("r"), 0, out, 9, &reason, 1, &count, &total),
        RBAC_NULL);
    sessions(&office);
    inheritances(&office);
    many_conflicts(&office);
    null_conflicts(&office);
    ranges(&office);
    want("why, too short", rbac_explain_user(&office, TEXT("ann"), TEXT("open"), TEXT("safe"), out, 9, &reason), RBAC_SHORT);
    want("its number", reason.number, RBAC_WHY_ALLOWED);
    want("a lock", rbac_answer(&office, LINE("\"lockUserAccount\",\"user\":\"ann\""), out, sizeof out, &length), RBAC_DONE);
    want("why not", rbac_explain_user(&office, TEXT("ann"), TEXT("open"), TEXT("safe"), NULL, 0, &reason), RBAC_DONE);
    want("its number", reason.number, RBAC_WHY_LOCKED);
    want("a session of a locked user", rbac_creation_conflicts(&office, TEXT("ann"), NULL, NULL, 0, 0, out, 9, &reason, 1, &count,
        &total), 37);
    rbac_close(&office);
}

static void loads(rbac_office *office)
{
    uint64_t revision;

    want("an assignment of nobody", rbac_add_row(office, RBAC_ASSIGNMENTS, TEXT("u"), TEXT("r"), NULL, 0, 0), RBAC_DONE);
    want("it is damaged", rbac_load(office, 5), 52);
    want("the revision stays", rbac_revision(office, &revision), RBAC_DONE);
    want("it", revision, 2);
    want("the answer stays", rbac_kept_answer(office, out, sizeof out, &length), RBAC_DONE);
    want("its length", length > 0, 1);
    want("a user", rbac_add_row(office, RBAC_USERS, TEXT("eve"), NULL, 0, NULL, 0, 0), RBAC_DONE);
    want("the rows before are used up", rbac_load(office, UINT64_MAX), RBAC_DONE);
    want("the revision", rbac_revision(office, &revision), RBAC_DONE);
    want("it", revision == UINT64_MAX, 1);
    want("no answer is kept", rbac_kept_answer(office, out, sizeof out, &length), RBAC_DONE);
    want("its length", length, 0);
    want("a command", rbac_answer(office, LINE("\"addUser\",\"user\":\"ann\""), out, sizeof out, &length), RBAC_DONE);
    want("the greatest revision stays", rbac_revision(office, &revision), RBAC_DONE);
    want("it", revision == UINT64_MAX, 1);
}

int main(void)
{
    rbac_office office = RBAC_OFFICE_NONE;

    closed(&office);
    want("open", rbac_open(&office), RBAC_DONE);
    want("open again", rbac_open(&office), RBAC_DONE);
    nulls(&office);
    short_buffers(&office);
    many_rows(&office);
    names(&office);
    loads(&office);
    rbac_close(&office);
    closed(&office);
    reasons();
    return broken;
}
