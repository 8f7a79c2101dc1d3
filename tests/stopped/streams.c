/*
 * Lets calls of the program on its standard streams and sockets fail. It is loaded by LD_PRELOAD.
 *
 * FAIL=CALLS     which calls: words with commas between them. `read` is one of standard input; the others are `socket`,
 *                `bind`, `listen`, `accept`, `recv` and `send`.
 * FAIL_LIKE=N    they fail with the number N as their cause.
 * FAIL_BEHIND=N  the first N calls of each kind are made.
 * FAIL_TIMES=N   each further call fails N times before it is made.
 * FAILED=F       at the end the file F has how many times calls failed.
 *
 * The C library is called through `syscall` here, so that nothing else is taken for a call of the program.
 */
#define _GNU_SOURCE
#include <errno.h>
#include <fcntl.h>
#include <stdio.h>
#include <stdlib.h>
#include <string.h>
#include <sys/socket.h>
#include <sys/syscall.h>
#include <unistd.h>

/* The status of a process whose count can't be written. */
#define UNTOLD 100

static const char *calls = "";
static long cause = EINTR;
static long behind = 0;
static long times = 1;
static long failed = 0;

/* How many calls of one kind were made, and how often the next one has failed. */
struct kind {
    long made;
    long tried;
};

__attribute__((constructor)) static void start(void)
{
    const char *text;

    if ((text = getenv("FAIL")) != NULL)
        calls = text;
    if ((text = getenv("FAIL_LIKE")) != NULL)
        cause = atol(text);
    if ((text = getenv("FAIL_BEHIND")) != NULL)
        behind = atol(text);
    if ((text = getenv("FAIL_TIMES")) != NULL)
        times = atol(text);
}

__attribute__((destructor)) static void end(void)
{
    const char *file = getenv("FAILED");
    char line[32];
    int fd, size;

    if (file == NULL)
        return;
    fd = (int)syscall(SYS_openat, AT_FDCWD, file, O_CREAT | O_WRONLY | O_TRUNC, 0600);
    size = snprintf(line, sizeof line, "%ld\n", failed);
    if (fd < 0 || syscall(SYS_write, fd, line, size) != size)
        _exit(UNTOLD);
}

/* Whether a call fails, and not only now: its cause stands in errno then. */
static int fails(const char *call, struct kind *kind)
{
    if (strstr(calls, call) == NULL)
        return 0;
    if (kind->made < behind || kind->tried == times) {
        kind->made++;
        kind->tried = 0;
        return 0;
    }
    kind->tried++;
    failed++;
    errno = (int)cause;
    return 1;
}

ssize_t read(int fd, void *bytes, size_t length)
{
    static struct kind kind;

    return fd == 0 && fails("read", &kind) ? -1 : syscall(SYS_read, fd, bytes, length);
}

int socket(int domain, int type, int protocol)
{
    static struct kind kind;

    return fails("socket", &kind) ? -1 : (int)syscall(SYS_socket, domain, type, protocol);
}

int bind(int fd, const struct sockaddr *address, socklen_t length)
{
    static struct kind kind;

    return fails("bind", &kind) ? -1 : (int)syscall(SYS_bind, fd, address, length);
}

int listen(int fd, int backlog)
{
    static struct kind kind;

    return fails("listen", &kind) ? -1 : (int)syscall(SYS_listen, fd, backlog);
}

int accept4(int fd, struct sockaddr *restrict address, socklen_t *restrict length, int flags)
{
    static struct kind kind;

    return fails("accept", &kind) ? -1 : (int)syscall(SYS_accept4, fd, address, length, flags);
}

ssize_t recv(int fd, void *bytes, size_t length, int flags)
{
    static struct kind kind;

    return fails("recv", &kind) ? -1 : syscall(SYS_recvfrom, fd, bytes, length, flags, NULL, NULL);
}

ssize_t send(int fd, const void *bytes, size_t length, int flags)
{
    static struct kind kind;

    return fails("send", &kind) ? -1 : syscall(SYS_sendto, fd, bytes, length, flags, NULL, 0);
}
