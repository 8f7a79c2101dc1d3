/* Times decisions and commands of SQLite in this process and in memory, as quick.c does: a script that makes the tables is on
 * standard input. Each statement is prepared once. */
#define _POSIX_C_SOURCE 200809L
#include "timing.h"
#include <sqlite3.h>

enum { ROUNDS = 50, MOST = 1 << 24 };

static sqlite3 *base;
static sqlite3_stmt *question, *change[2];
static char session[DECISIONS][24], object[DECISIONS][24];
static long granted;

static void need(int code, int wanted)
{
    if (code != wanted)
        fail("SQLite", sqlite3_errmsg(base));
}

static void decide(int at)
{
    need(sqlite3_bind_text(question, 1, session[at], -1, SQLITE_STATIC), SQLITE_OK);
    need(sqlite3_bind_text(question, 2, "read", -1, SQLITE_STATIC), SQLITE_OK);
    need(sqlite3_bind_text(question, 3, object[at], -1, SQLITE_STATIC), SQLITE_OK);
    need(sqlite3_step(question), SQLITE_ROW);
    granted += sqlite3_column_int(question, 0);
    need(sqlite3_reset(question), SQLITE_OK);
}

static void command(int at)
{
    need(sqlite3_bind_text(change[at % 2], 1, "extra", -1, SQLITE_STATIC), SQLITE_OK);
    need(sqlite3_step(change[at % 2]), SQLITE_DONE);
    need(sqlite3_reset(change[at % 2]), SQLITE_OK);
}

static sqlite3_stmt *prepare(const char *text)
{
    sqlite3_stmt *made;

    need(sqlite3_prepare_v3(base, text, -1, SQLITE_PREPARE_PERSISTENT, &made, NULL), SQLITE_OK);
    return made;
}

int main(int count, char **words)
{
    static char script[MOST];
    double decision;

    if (count != 2)
        return 2;
    script[fread(script, 1, MOST - 1, stdin)] = '\0';
    need(sqlite3_open(":memory:", &base), SQLITE_OK);
    need(sqlite3_exec(base, script, NULL, NULL, NULL), SQLITE_OK);
    question = prepare(words[1]);
    change[0] = prepare("INSERT INTO person VALUES (?)");
    change[1] = prepare("DELETE FROM person WHERE name = ?");
    for (int at = 0; at < DECISIONS; at++) {
        sprintf(session[at], "s%d", at * 37 % 1000);
        sprintf(object[at], "o%d", at * 91 % 1000);
    }
    decision = per_call(ROUNDS, DECISIONS, decide);
    printf("%.0f %.0f %ld\n", decision, per_call(ROUNDS, COMMANDS, command), granted / ROUNDS);
    return 0;
}
