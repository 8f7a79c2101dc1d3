/* Calls each function in C that the program for arm64 is linked with: functions FILE "" b cc. FILE can be written. */
#define _GNU_SOURCE
#include <arpa/inet.h>
#include <errno.h>
#include <fcntl.h>
#include <netdb.h>
#include <netinet/in.h>
#include <stdbool.h>
#include <stdint.h>
#include <stdio.h>
#include <stdlib.h>
#include <string.h>
#include <sys/types.h>
#include <unistd.h>

struct rattle_block { bool ok; void *at; };
struct rattle_address { uint8_t bytes[128]; uint32_t length; };

struct rattle_block rattle_alloc(size_t, size_t);
struct rattle_block rattle_realloc(void *, size_t, size_t, size_t);
void rattle_dealloc(void *);
size_t rattle_arg_count(void);
ssize_t rattle_arg(size_t, char *, size_t);
int rattle_errno(void);
void rattle_set_errno(int);
int rattle_lock_range(int, int16_t, int64_t, int64_t);
ssize_t rattle_lookup_host(const char *, struct rattle_address *, size_t);

#define CHECK(holds) \
    do { \
        if (!(holds)) { \
            printf("line %d: %s\n", __LINE__, #holds); \
            exit(1); \
        } \
    } while (0)

static void check_heap(void)
{
    struct rattle_block some = rattle_alloc(100, 16), none, more;

    CHECK(some.ok && (uintptr_t)some.at % 16 == 0);
    memset(some.at, 7, 100);
    more = rattle_realloc(some.at, 100, 100000, 16);
    CHECK(more.ok && ((char *)more.at)[0] == 7 && ((char *)more.at)[99] == 7);
    none = rattle_realloc(more.at, 100000, SIZE_MAX / 2, 16);
    CHECK(!none.ok && none.at != NULL && ((char *)more.at)[99] == 7);
    rattle_dealloc(more.at);
    none = rattle_alloc(SIZE_MAX / 2, 1);
    CHECK(!none.ok && none.at != NULL);
    some = rattle_alloc(0, 8);
    CHECK(some.ok && some.at != NULL);
    rattle_dealloc(some.at);
}

static void check_arguments(void)
{
    char buffer[4] = "zzz";

    CHECK(rattle_arg_count() == 5);
    CHECK(rattle_arg(2, buffer, 0) == 0 && strcmp(buffer, "zzz") == 0);
    CHECK(rattle_arg(3, buffer, 1) == 1 && strcmp(buffer, "bzz") == 0);
    CHECK(rattle_arg(4, buffer, 3) == 2 && strcmp(buffer, "ccz") == 0);
    CHECK(rattle_arg(3, buffer, 0) == -2 && strcmp(buffer, "ccz") == 0);
    CHECK(rattle_arg(4, buffer + 2, 1) == -2 && strcmp(buffer, "ccc") == 0);
    CHECK(rattle_arg(5, buffer, 3) == -1);
    CHECK(rattle_arg(SIZE_MAX, buffer, 3) == -1);
}

static void check_errno(void)
{
    rattle_set_errno(ENOSPC);
    CHECK(errno == ENOSPC && rattle_errno() == ENOSPC);
    CHECK(close(-1) == -1 && rattle_errno() == EBADF);
}

/* The locks belong to the open file, not to the process: the second opening is refused here too. */
static void check_locks(const char *path)
{
    int one = open(path, O_RDWR), other = open(path, O_RDWR);

    CHECK(one >= 0 && other >= 0);
    CHECK(rattle_lock_range(one, F_WRLCK, 10, 5) == 0);
    CHECK(rattle_lock_range(other, F_WRLCK, 15, 1) == 0);
    CHECK(rattle_lock_range(other, F_RDLCK, 14, 1) == -1 && (rattle_errno() == EAGAIN || rattle_errno() == EACCES));
    CHECK(rattle_lock_range(one, F_UNLCK, 10, 5) == 0);
    CHECK(rattle_lock_range(other, F_RDLCK, 14, 1) == 0);
    CHECK(rattle_lock_range(one, F_RDLCK, INT64_C(1) << 40, 1) == 0);
    close(one);
    CHECK(rattle_lock_range(other, F_WRLCK, INT64_C(1) << 40, 0) == 0);
    close(other);
    CHECK(rattle_lock_range(other, F_RDLCK, 0, 1) == -1 && rattle_errno() == EBADF);
}

static void check_names(void)
{
    struct rattle_address found[2];
    struct sockaddr_in four;
    struct sockaddr_in6 six;

    memset(found, 0xff, sizeof found);
    CHECK(rattle_lookup_host("127.0.0.1", found, 2) == 1 && found[0].length == sizeof four);
    memcpy(&four, found[0].bytes, sizeof four);
    CHECK(four.sin_family == AF_INET && four.sin_port == 0 && four.sin_addr.s_addr == htonl(INADDR_LOOPBACK));
    CHECK(found[1].length == UINT32_MAX);
    CHECK(rattle_lookup_host("::1", found, 1) == 1 && found[0].length == sizeof six);
    memcpy(&six, found[0].bytes, sizeof six);
    CHECK(six.sin6_family == AF_INET6 && IN6_IS_ADDR_LOOPBACK(&six.sin6_addr));
    CHECK(rattle_lookup_host("127.0.0.1", found, 0) == 0);
    CHECK(rattle_lookup_host("no name", found, 2) == EAI_NONAME || rattle_lookup_host("no name", found, 2) == EAI_AGAIN);
}

int main(int count, char **words)
{
    if (count != 5)
        return 2;
    check_heap();
    check_arguments();
    check_errno();
    check_locks(words[1]);
    check_names();
    return 0;
}
