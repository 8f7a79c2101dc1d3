/* The time of one decision about a user: user USER OPERATION OBJECT, with the lines of the office on standard input.
 *
 * It prints the nanoseconds of a processor that the decision takes, the median of some, and the decision. */
#define _POSIX_C_SOURCE 200809L
#include "rbac.h"
#include "timing.h"
#include <string.h>

enum { ROUNDS = 21 };

static rbac_office office = RBAC_OFFICE_NONE;
static char **words;
static int32_t decision;

static void decide(int at)
{
    (void)at;
    decision = rbac_check_user(&office, words[1], strlen(words[1]), words[2], strlen(words[2]), words[3], strlen(words[3]));
}

int main(int count, char **given)
{
    char *line = NULL;
    static char out[1 << 16];
    size_t room = 0, answered;
    ssize_t length;

    words = given;
    if (count != 4 || rbac_open(&office) != RBAC_DONE)
        return 2;
    while ((length = getline(&line, &room, stdin)) > 0)
        if (rbac_answer(&office, line, (size_t)length - 1, out, sizeof out, &answered) != RBAC_DONE
            || strncmp(out, "{\"ok\":true", 10) != 0)
            fail("a line was refused", line);
    printf("%.0f", per_call(ROUNDS, 1, decide));
    printf(" %d\n", decision);
    rbac_close(&office);
    free(line);
    return 0;
}
