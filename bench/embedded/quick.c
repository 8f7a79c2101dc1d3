/* Times decisions and commands of the library: quick USERS OBJECTS PREFIX, with the lines of the office on standard input.
 *
 * The names of the sessions begin with PREFIX. It prints the nanoseconds of a decision and of a command, and how many of the
 * questions were granted, as the other programs here do. */
#define _POSIX_C_SOURCE 200809L
#include "rbac.h"
#include "timing.h"
#include <string.h>

enum { ROUNDS = 200 };

static rbac_office office = RBAC_OFFICE_NONE;
static struct { char session[64], object[24]; size_t session_length, object_length; } asked[DECISIONS];
static long granted;

static void answer(const char *line, size_t length)
{
    char out[512];
    size_t count;

    if (rbac_answer(&office, line, length, out, sizeof out, &count) != RBAC_DONE || count != strlen("{\"ok\":true}"))
        fail("a line was refused", line);
}

static void decide(int at)
{
    granted += rbac_check(&office, asked[at].session, asked[at].session_length, "read", 4, asked[at].object,
                   asked[at].object_length) == 1;
}

static void command(int at)
{
    static const char *const lines[] = {"{\"fn\":\"addUser\",\"user\":\"extra\"}", "{\"fn\":\"deleteUser\",\"user\":\"extra\"}"};

    answer(lines[at % 2], strlen(lines[at % 2]));
}

int main(int count, char **words)
{
    char *line = NULL;
    size_t room = 0;
    ssize_t length;
    double decision;

    if (count != 4 || rbac_open(&office) != RBAC_DONE)
        return 2;
    while ((length = getline(&line, &room, stdin)) > 0)
        answer(line, (size_t)(line[length - 1] == '\n' ? length - 1 : length));
    for (int at = 0; at < DECISIONS; at++) {
        asked[at].session_length = (size_t)sprintf(asked[at].session, "%.32s%d", words[3], at * 37 % atoi(words[1]));
        asked[at].object_length = (size_t)sprintf(asked[at].object, "o%d", at * 91 % atoi(words[2]));
    }
    decision = per_call(ROUNDS, DECISIONS, decide);
    printf("%.0f %.0f %ld\n", decision, per_call(ROUNDS, COMMANDS, command), granted / ROUNDS);
    rbac_close(&office);
    free(line);
    return 0;
}
