/* What the programs in C here share: a clock, and the median time of a call. */
#ifndef TIMING_H
#define TIMING_H

#include <stdio.h>
#include <stdlib.h>
#include <time.h>

/* How many decisions are asked, and how many commands are done, before the clock is read again. The questions are those of
 * policy.py: the session at * 37, the object at * 91. */
enum { DECISIONS = 2048, COMMANDS = 256, MOST_ROUNDS = 200 };

static inline double now(void)
{
    struct timespec at;

    clock_gettime(CLOCK_MONOTONIC, &at);
    return at.tv_sec * 1e9 + at.tv_nsec;
}

static inline int order(const void *a, const void *b)
{
    double x = *(const double *)a, y = *(const double *)b;

    return (x > y) - (x < y);
}

/* The median time of a call, in nanoseconds, over some rounds of this many calls. */
static inline double per_call(int rounds, int calls, void (*call)(int))
{
    double took[MOST_ROUNDS];

    for (int round = 0; round < rounds; round++) {
        double start = now();

        for (int at = 0; at < calls; at++)
            call(at);
        took[round] = (now() - start) / calls;
    }
    qsort(took, (size_t)rounds, sizeof *took, order);
    return took[rounds / 2];
}

/* Ends the program with a message. */
static inline void fail(const char *what, const char *said)
{
    fprintf(stderr, "%s: %s\n", what, said);
    exit(1);
}

#endif
