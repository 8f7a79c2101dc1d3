/* The times of two commands that undo each other: changes COMMAND UNDOING, with the lines of the office on standard input.
 *
 * It prints the nanoseconds that each takes, the medians of some. */
#define _POSIX_C_SOURCE 200809L
#include "rbac.h"
#include "timing.h"
#include <string.h>

enum { ROUNDS = 101 };

static rbac_office office = RBAC_OFFICE_NONE;

static void answer(const char *line, size_t length)
{
    static char out[1 << 16];
    size_t answered;

    if (rbac_answer(&office, line, length, out, sizeof out, &answered) != RBAC_DONE || strncmp(out, "{\"ok\":true", 10) != 0)
        fail("a line was refused", line);
}

int main(int count, char **given)
{
    char *line = NULL;
    double took[2][ROUNDS];
    size_t room = 0;
    ssize_t length;

    if (count != 3 || rbac_open(&office) != RBAC_DONE)
        return 2;
    while ((length = getline(&line, &room, stdin)) > 0)
        answer(line, (size_t)length - 1);
    for (int round = 0; round < ROUNDS; round++)
        for (int at = 0; at < 2; at++) {
            double start = now();

            answer(given[at + 1], strlen(given[at + 1]));
            took[at][round] = now() - start;
        }
    for (int at = 0; at < 2; at++)
        qsort(took[at], ROUNDS, sizeof **took, order);
    printf("%.0f %.0f\n", took[0][ROUNDS / 2], took[1][ROUNDS / 2]);
    rbac_close(&office);
    free(line);
    return 0;
}
