/* What the program calls of the kit's archive for x86-64, for Linux with glibc on another processor: bin/arm64 links it. With
 * library/heap.c it is all of the program's code in C. Nothing proves it: the proved code takes it to do what is said here. */
#define _GNU_SOURCE
#include <errno.h>
#include <fcntl.h>
#include <netdb.h>
#include <stdint.h>
#include <string.h>
#include <sys/socket.h>
#include <sys/types.h>

/* An address: a sockaddr_in or a sockaddr_in6, of this length. */
struct rattle_address {
    uint8_t bytes[128];
    uint32_t length;
};

static size_t count;
static char **arguments;

/* glibc passes the arguments of main to each constructor. */
__attribute__((constructor)) static void keep_arguments(int argc, char **argv)
{
    count = argc > 0 ? (size_t)argc : 0;
    arguments = argv;
}

/* Returns how many arguments there are, with the name of the program. */
size_t rattle_arg_count(void)
{
    return count;
}

/* Puts an argument at the start of the buffer, and returns its length: -1 if there is no such argument, or -2 if it is longer
 * than the buffer, which is full then. */
ssize_t rattle_arg(size_t index, char *buffer, size_t room)
{
    size_t length;

    if (index >= count)
        return -1;
    length = strlen(arguments[index]);
    memcpy(buffer, arguments[index], length < room ? length : room);
    return length <= room ? (ssize_t)length : -2;
}

int rattle_errno(void)
{
    return errno;
}

void rattle_set_errno(int error)
{
    errno = error;
}

/* Sets or removes a lock of the open file on a range, without waiting. Returns 0, or -1 with errno. */
int rattle_lock_range(int file, int16_t kind, int64_t start, int64_t length)
{
    struct flock lock = {.l_type = kind, .l_whence = SEEK_SET, .l_start = start, .l_len = length};

    return fcntl(file, F_OFD_SETLK, &lock);
}

/* Whether an address is of IPv4 or IPv6, and fits. */
static int is_kept(const struct addrinfo *address)
{
    return (address->ai_family == AF_INET || address->ai_family == AF_INET6)
        && address->ai_addrlen <= sizeof ((struct rattle_address *)0)->bytes;
}

/* Looks up a name, puts its first addresses at the start of the array, and returns how many, or the error of getaddrinfo, which
 * is negative. */
ssize_t rattle_lookup_host(const char *name, struct rattle_address *found, size_t room)
{
    struct addrinfo hints = {.ai_socktype = SOCK_STREAM}, *all;
    int error = getaddrinfo(name, NULL, &hints, &all);
    size_t kept = 0;

    if (error != 0)
        return error;
    for (const struct addrinfo *it = all; it != NULL && kept < room; it = it->ai_next) {
        if (!is_kept(it))
            continue;
        memcpy(found[kept].bytes, it->ai_addr, it->ai_addrlen);
        found[kept++].length = it->ai_addrlen;
    }
    freeaddrinfo(all);
    return (ssize_t)kept;
}
