/*
 * Disturbs one call of SQLite on the files in a folder. It is loaded into the front by LD_PRELOAD: Go's own calls don't come here.
 *
 * DISTURB_UNDER=FOLDER  the calls that count are writes, syncs and changes of a length of files in this folder.
 * DISTURB_COUNT=FILE    the number in the file is how many calls are left until the one that is disturbed; each call that counts
 *                       lowers it. There is no file, or the number is 0: none is.
 * DISTURB_LIKE=HOW      a number: the call isn't made, and fails with it as its cause; `exit`: the process ends in its place.
 * DISTURB_TIMES=N       this many calls fail, from that one on.
 */
#define _GNU_SOURCE
#include <errno.h>
#include <fcntl.h>
#include <limits.h>
#include <pthread.h>
#include <stdio.h>
#include <stdlib.h>
#include <string.h>
#include <sys/syscall.h>
#include <sys/types.h>
#include <unistd.h>

static pthread_mutex_t mutex = PTHREAD_MUTEX_INITIALIZER;
static long failing = 0;

/* Whether an open file is in the folder. */
static int counts(int fd)
{
    char link[64], path[PATH_MAX + 1];
    const char *folder = getenv("DISTURB_UNDER");
    long length;

    if (folder == NULL)
        return 0;
    snprintf(link, sizeof link, "/proc/self/fd/%d", fd);
    length = syscall(SYS_readlink, link, path, PATH_MAX);
    if (length < 0)
        return 0;
    path[length] = '\0';
    return strncmp(path, folder, strlen(folder)) == 0 && path[strlen(folder)] == '/';
}

/* Lowers the number in the file, and returns whether it was 1. */
static int is_next(void)
{
    const char *file = getenv("DISTURB_COUNT");
    char text[32] = "";
    long left;
    int fd, size;

    if (file == NULL || (fd = (int)syscall(SYS_openat, AT_FDCWD, file, O_RDWR | O_CLOEXEC, 0)) < 0)
        return 0;
    if (syscall(SYS_read, fd, text, sizeof text - 1) < 0)
        _exit(98);
    left = atol(text);
    if (left > 0) {
        size = snprintf(text, sizeof text, "%ld\n", left - 1);
        if (syscall(SYS_ftruncate, fd, 0) != 0 || syscall(SYS_pwrite64, fd, text, size, 0) != size)
            _exit(98);
    }
    syscall(SYS_close, fd);
    return left == 1;
}

static int is_disturbed(int fd)
{
    const char *how = getenv("DISTURB_LIKE"), *times = getenv("DISTURB_TIMES");
    int found;

    if (!counts(fd))
        return 0;
    pthread_mutex_lock(&mutex);
    if (is_next())
        failing = times == NULL ? 1 : atol(times);
    found = failing > 0;
    failing -= found;
    pthread_mutex_unlock(&mutex);
    if (!found)
        return 0;
    if (how == NULL || strcmp(how, "exit") == 0)
        syscall(SYS_exit_group, 99);
    errno = atoi(how);
    return 1;
}

ssize_t write(int fd, const void *bytes, size_t length)
{
    return is_disturbed(fd) ? -1 : syscall(SYS_write, fd, bytes, length);
}

ssize_t pwrite64(int fd, const void *bytes, size_t length, off64_t from)
{
    return is_disturbed(fd) ? -1 : syscall(SYS_pwrite64, fd, bytes, length, from);
}

ssize_t pwrite(int fd, const void *bytes, size_t length, off_t from)
{
    return pwrite64(fd, bytes, length, from);
}

int fsync(int fd)
{
    return is_disturbed(fd) ? -1 : (int)syscall(SYS_fsync, fd);
}

int fdatasync(int fd)
{
    return is_disturbed(fd) ? -1 : (int)syscall(SYS_fdatasync, fd);
}

int ftruncate64(int fd, off64_t length)
{
    return is_disturbed(fd) ? -1 : (int)syscall(SYS_ftruncate, fd, length);
}

int ftruncate(int fd, off_t length)
{
    return ftruncate64(fd, length);
}
