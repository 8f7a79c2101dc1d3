/* Times decisions and commands of a PostgreSQL server, as quick.c does: postgres CONNECTION QUESTION. Each statement is prepared
 * once, and sent by libpq. */
#define _POSIX_C_SOURCE 200809L
#include "timing.h"
#include <libpq-fe.h>

enum { ROUNDS = 20, COMMAND_ROUNDS = 3 };

static PGconn *base;
static char session[DECISIONS][24], object[DECISIONS][24];
static long granted;

static void need(PGresult *result, ExecStatusType wanted)
{
    if (PQresultStatus(result) != wanted)
        fail("PostgreSQL", PQerrorMessage(base));
}

static void decide(int at)
{
    const char *values[] = {session[at], "read", object[at]};
    PGresult *result = PQexecPrepared(base, "question", 3, values, NULL, NULL, 0);

    need(result, PGRES_TUPLES_OK);
    granted += PQgetvalue(result, 0, 0)[0] == 't';
    PQclear(result);
}

static void command(int at)
{
    const char *values[] = {"extra"};
    PGresult *result = PQexecPrepared(base, at % 2 == 0 ? "add" : "remove", 1, values, NULL, NULL, 0);

    need(result, PGRES_COMMAND_OK);
    PQclear(result);
}

static void prepare(const char *name, const char *text)
{
    PGresult *result = PQprepare(base, name, text, 0, NULL);

    need(result, PGRES_COMMAND_OK);
    PQclear(result);
}

int main(int count, char **words)
{
    double decision;

    if (count != 3)
        return 2;
    base = PQconnectdb(words[1]);
    if (PQstatus(base) != CONNECTION_OK)
        fail("PostgreSQL", PQerrorMessage(base));
    prepare("question", words[2]);
    prepare("add", "INSERT INTO person VALUES ($1)");
    prepare("remove", "DELETE FROM person WHERE name = $1");
    for (int at = 0; at < DECISIONS; at++) {
        sprintf(session[at], "s%d", at * 37 % 1000);
        sprintf(object[at], "o%d", at * 91 % 1000);
    }
    decision = per_call(ROUNDS, DECISIONS, decide);
    printf("%.0f %.0f %ld\n", decision, per_call(COMMAND_ROUNDS, COMMANDS, command), granted / ROUNDS);
    PQfinish(base);
    return 0;
}
