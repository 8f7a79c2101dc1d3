/* How many decisions threads make in a second: threads USERS OBJECTS, with the lines of the office on standard input.
 *
 * For 1, 2 and 4 threads it prints a line: the millions of decisions in a second under a mutex, under a read-write lock for each
 * decision, under one that is held for 64 decisions, and decisions about users under the last. Of each it is the median of some
 * rounds, in which all of these take turns. */
#define _GNU_SOURCE
#include "rbac.h"
#include "timing.h"
#include <pthread.h>
#include <string.h>

enum { MOST_THREADS = 4, KINDS = 4, ROUNDS = 31, BATCH = 64, MICROSECONDS = 20000 };

static rbac_office office = RBAC_OFFICE_NONE;
static struct { char session[24], user[24], object[24]; size_t session_length, user_length, object_length; } asked[DECISIONS];
static pthread_mutex_t mutex = PTHREAD_MUTEX_INITIALIZER;
static pthread_rwlock_t lock = PTHREAD_RWLOCK_INITIALIZER;
static int kind;
static volatile int begin, end;
/* What each thread counted; no two of them are in one line of a cache. */
static struct { long made, granted; char apart[112]; } counted[MOST_THREADS];

static int decide(int at)
{
    return rbac_check(&office, asked[at].session, asked[at].session_length, "read", 4, asked[at].object,
               asked[at].object_length) == 1;
}

static int decide_user(int at)
{
    return rbac_check_user(&office, asked[at].user, asked[at].user_length, "read", 4, asked[at].object,
               asked[at].object_length) == 1;
}

/* Asks some questions, from one place on, and returns how many were granted. */
static long ask(int from)
{
    long granted = 0;

    if (kind >= 2)
        pthread_rwlock_rdlock(&lock);
    for (int at = from; at < from + BATCH; at++)
        if (kind == 0) {
            pthread_mutex_lock(&mutex);
            granted += decide(at);
            pthread_mutex_unlock(&mutex);
        } else if (kind == 1) {
            pthread_rwlock_rdlock(&lock);
            granted += decide(at);
            pthread_rwlock_unlock(&lock);
        } else
            granted += kind == 2 ? decide(at) : decide_user(at);
    if (kind >= 2)
        pthread_rwlock_unlock(&lock);
    return granted;
}

static void *work(void *number)
{
    long id = (long)number, made = 0, granted = 0;

    while (!begin)
        ;
    for (int at = (int)(id * DECISIONS / MOST_THREADS); !end; at = (at + BATCH) % DECISIONS, made += BATCH)
        granted += ask(at);
    counted[id].made = made;
    counted[id].granted = granted;
    return NULL;
}

/* The millions of decisions in a second that so many threads make. */
static double rate(int threads)
{
    pthread_t running[MOST_THREADS];
    struct timespec wait = {0, MICROSECONDS * 1000L};
    long made = 0, granted = 0;
    double start;

    begin = end = 0;
    for (long at = 0; at < threads; at++)
        pthread_create(&running[at], NULL, work, (void *)at);
    start = now();
    begin = 1;
    nanosleep(&wait, NULL);
    end = 1;
    for (int at = 0; at < threads; at++) {
        pthread_join(running[at], NULL);
        made += counted[at].made;
        granted += counted[at].granted;
    }
    if (granted == 0 || granted == made)
        fail("threads", "all decisions are the same");
    return made / (now() - start) * 1e3;
}

static double rates[MOST_THREADS + 1][KINDS][ROUNDS];

static void ask_all(void)
{
    static const int threads[] = {1, 2, 4};

    for (int round = 0; round < ROUNDS; round++)
        for (int at = 0; at < 3; at++)
            for (kind = 0; kind < KINDS; kind++)
                rates[threads[at]][kind][round] = rate(threads[at]);
    for (int at = 0; at < 3; at++) {
        printf("%d", threads[at]);
        for (kind = 0; kind < KINDS; kind++) {
            qsort(rates[threads[at]][kind], ROUNDS, sizeof(double), order);
            printf(" %.2f", rates[threads[at]][kind][ROUNDS / 2]);
        }
        putchar('\n');
    }
}

int main(int count, char **words)
{
    char *line = NULL, out[512];
    size_t room = 0, answered;
    ssize_t length;

    if (count != 3 || rbac_open(&office) != RBAC_DONE)
        return 2;
    while ((length = getline(&line, &room, stdin)) > 0)
        if (rbac_answer(&office, line, (size_t)length - 1, out, sizeof out, &answered) != RBAC_DONE || answered != 11)
            fail("a line was refused", line);
    for (int at = 0; at < DECISIONS; at++) {
        asked[at].session_length = (size_t)sprintf(asked[at].session, "s%d", at * 37 % atoi(words[1]));
        asked[at].user_length = (size_t)sprintf(asked[at].user, "u%d", at * 37 % atoi(words[1]));
        asked[at].object_length = (size_t)sprintf(asked[at].object, "o%d", at * 91 % atoi(words[2]));
    }
    ask_all();
    rbac_close(&office);
    free(line);
    return 0;
}
