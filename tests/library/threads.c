/* Four threads share an office under a read-write lock: for tests/library/memory.py. */
#include "rbac.h"
#include <pthread.h>
#include <stdio.h>
#include <stdlib.h>
#include <string.h>

enum { THREADS = 4, LINES = 250, QUESTIONS = 20 };

static rbac_office office = RBAC_OFFICE_NONE;
static pthread_rwlock_t lock = PTHREAD_RWLOCK_INITIALIZER;

static void need(int holds)
{
    if (!holds)
        exit(1);
}

/* Asks about a user who was added when the office had accepted `least` commands. */
static void ask(const char *user, uint64_t least)
{
    uint64_t revision;

    pthread_rwlock_rdlock(&lock);
    need(rbac_check(&office, "s", 1, "p", 1, "o", 1) == -26);
    need(rbac_check_user(&office, user, strlen(user), "p", 1, "o", 1) == -6);
    need(rbac_check_user(&office, "nobody", 6, "p", 1, "o", 1) == -2);
    need(rbac_revision(&office, &revision) == RBAC_DONE && revision >= least);
    pthread_rwlock_unlock(&lock);
}

static void *work(void *number)
{
    char user[32], line[128], out[64];
    size_t length;

    for (int at = 0; at < LINES; at++) {
        uint64_t revision;

        snprintf(user, sizeof user, "t%ld-%d", (long)number, at);
        snprintf(line, sizeof line, "{\"fn\":\"addUser\",\"user\":\"%s\"}", user);
        pthread_rwlock_wrlock(&lock);
        need(rbac_answer(&office, line, strlen(line), out, sizeof out, &length) == RBAC_DONE && length == 11);
        need(rbac_revision(&office, &revision) == RBAC_DONE);
        pthread_rwlock_unlock(&lock);
        for (int asked = 0; asked < QUESTIONS; asked++)
            ask(user, revision);
    }
    return NULL;
}

int main(void)
{
    pthread_t threads[THREADS];
    uint64_t revision;

    need(rbac_open(&office) == RBAC_DONE);
    for (long at = 0; at < THREADS; at++)
        pthread_create(&threads[at], NULL, work, (void *)at);
    for (int at = 0; at < THREADS; at++)
        pthread_join(threads[at], NULL);
    need(rbac_revision(&office, &revision) == RBAC_DONE && revision == THREADS * LINES);
    rbac_close(&office);
    return 0;
}
