/* compare URL DN ATTRIBUTE VALUE CLIENTS SECONDS: asks an LDAP server again and again whether an entry has a value, with some clients
 * that each keep a connection, and prints the rate and the latencies at the 50th, 99th and 99.9th percentile in milliseconds. */
#include <ldap.h>
#include <pthread.h>
#include <stdio.h>
#include <stdlib.h>
#include <string.h>
#include <time.h>

enum { MOST = 4000000 };

static char **words;
static double end_at;
static double *taken;
static long used;
static pthread_mutex_t lock = PTHREAD_MUTEX_INITIALIZER;

static double now(void)
{
    struct timespec time;
    clock_gettime(CLOCK_MONOTONIC, &time);
    return (double)time.tv_sec + (double)time.tv_nsec / 1e9;
}

static void check(int code, int wanted, const char *what)
{
    if (code != wanted) {
        fprintf(stderr, "%s: %s\n", what, ldap_err2string(code));
        exit(1);
    }
}

/* Asks until the time is over, and keeps how long each question took. */
static void *ask(void *unused)
{
    LDAP *server;
    int version = LDAP_VERSION3;
    struct berval value = {strlen(words[4]), words[4]}, none = {0, NULL};
    double *own = malloc(MOST / 8 * sizeof *own);
    long count = 0;

    if (own == NULL)
        exit(1);
    check(ldap_initialize(&server, words[1]), LDAP_SUCCESS, "initialize");
    ldap_set_option(server, LDAP_OPT_PROTOCOL_VERSION, &version);
    check(ldap_sasl_bind_s(server, NULL, LDAP_SASL_SIMPLE, &none, NULL, NULL, NULL), LDAP_SUCCESS, "bind");
    for (double start = now(); start < end_at && count < MOST / 8; start = now()) {
        check(ldap_compare_ext_s(server, words[2], words[3], &value, NULL, NULL), LDAP_COMPARE_TRUE, "compare");
        own[count++] = now() - start;
    }
    ldap_unbind_ext_s(server, NULL, NULL);
    pthread_mutex_lock(&lock);
    for (long i = 0; i < count && used < MOST; i++)
        taken[used++] = own[i];
    pthread_mutex_unlock(&lock);
    free(own);
    return unused;
}

static int order(const void *one, const void *other)
{
    double a = *(const double *)one, b = *(const double *)other;
    return (a > b) - (a < b);
}

static double at(double part) { return taken[(long)(part * (double)(used - 1))] * 1000; }

int main(int count, char **given)
{
    if (count != 7) {
        fputs("usage: compare URL DN ATTRIBUTE VALUE CLIENTS SECONDS\n", stderr);
        return 2;
    }
    words = given;
    int clients = atoi(words[5]);
    double seconds = atof(words[6]), start = now();
    pthread_t threads[1024];

    taken = malloc(MOST * sizeof *taken);
    if (taken == NULL || clients < 1 || clients > 1024)
        return 1;
    end_at = start + seconds;
    for (int i = 0; i < clients; i++)
        if (pthread_create(&threads[i], NULL, ask, NULL) != 0)
            return 1;
    for (int i = 0; i < clients; i++)
        pthread_join(threads[i], NULL);
    double took = now() - start;
    qsort(taken, (size_t)used, sizeof *taken, order);
    printf("%.0f a second, %.2f %.2f %.2f ms at 50, 99, 99.9 of 100, %d clients\n", (double)used / took, at(0.5), at(0.99), at(0.999),
           clients);
    return 0;
}
