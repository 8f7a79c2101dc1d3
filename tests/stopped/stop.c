/*
 * Stops one call of the program on the files of an office. It is loaded by LD_PRELOAD.
 *
 * STOP_UNDER=FOLDER  the calls that count are those on files in this folder, and on the folder itself.
 * STOP_CALLS=KIND    `changes` (writes, syncs and changes of a length) or `others` (all other calls) count.
 * STOP_AT=N          the Nth of these calls, counted from 1, is stopped.
 * STOP_LIKE=HOW      a number: the call isn't made, and fails with this number as its cause;
 *                    `exit`: the process ends in its place; `half`: a write puts the first half of its bytes before that.
 * STOP_EVER=1        all calls that count from the Nth on fail.
 * STOPPED=F          in the file F stand the name of the call and how many lines had been written to standard output by
 *                    then. Its absence says that there were fewer calls.
 * STOP_SHORT=N       a write on a file of the office takes N bytes at most.
 * STOP_TRACE=F       each change, each file that goes and each answer is written to the file F, with the bytes of writes.
 *
 * The C library is called through `syscall` here, so that nothing else is taken for a call of the program.
 */
#define _GNU_SOURCE
#include <errno.h>
#include <fcntl.h>
#include <limits.h>
#include <stdarg.h>
#include <stdio.h>
#include <stdlib.h>
#include <string.h>
#include <sys/stat.h>
#include <sys/syscall.h>
#include <sys/types.h>
#include <unistd.h>

/* The status of a process that ends in place of a call. */
#define ENDED 99

static const char *folder = NULL;
static size_t folder_length = 0;
static const char *how = "5";
static int others = 0;
static int ever = 0;
static long at = 0;
static long most = 0;
static int trace = -1;

static long calls = 0;
static long answers = 0;

__attribute__((constructor)) static void start(void)
{
    const char *text;

    folder = getenv("STOP_UNDER");
    folder_length = folder == NULL ? 0 : strlen(folder);
    if ((text = getenv("STOP_AT")) != NULL)
        at = atol(text);
    if ((text = getenv("STOP_LIKE")) != NULL)
        how = text;
    if ((text = getenv("STOP_SHORT")) != NULL)
        most = atol(text);
    if ((text = getenv("STOP_CALLS")) != NULL)
        others = strcmp(text, "others") == 0;
    ever = getenv("STOP_EVER") != NULL;
    if ((text = getenv("STOP_TRACE")) != NULL)
        trace = (int)syscall(SYS_openat, AT_FDCWD, text, O_CREAT | O_WRONLY | O_APPEND | O_CLOEXEC, 0600);
}

/* What is named in the folder: "" for the folder itself, NULL for what lies elsewhere. */
static const char *name_of(const char *path)
{
    if (folder == NULL || path == NULL || strncmp(path, folder, folder_length) != 0)
        return NULL;
    if (path[folder_length] == '\0')
        return "";
    return path[folder_length] == '/' ? path + folder_length + 1 : NULL;
}

/* The same of an open file. */
static const char *name_of_open(int fd)
{
    static char path[PATH_MAX + 1];
    char link[64];
    long length;

    snprintf(link, sizeof link, "/proc/self/fd/%d", fd);
    length = syscall(SYS_readlink, link, path, PATH_MAX);
    if (length < 0)
        return NULL;
    path[length] = '\0';
    return name_of(path);
}

static void note(const char *event, const char *name, long from, size_t length, const void *bytes)
{
    char line[PATH_MAX + 64];
    int size;

    if (trace < 0)
        return;
    size = snprintf(line, sizeof line, "%s %ld %zu %s\n", event, from, length, name);
    if (syscall(SYS_write, trace, line, size) != size)
        _exit(ENDED + 1);
    if (bytes != NULL && syscall(SYS_write, trace, bytes, length) != (long)length)
        _exit(ENDED + 1);
}

/* Says in the file of STOPPED which call it is. */
static void say_stopped(const char *call, const char *name)
{
    char line[PATH_MAX + 64];
    const char *file = getenv("STOPPED");
    int size, fd;

    if (file == NULL)
        return;
    fd = (int)syscall(SYS_openat, AT_FDCWD, file, O_CREAT | O_WRONLY | O_EXCL, 0600);
    if (fd < 0)
        return;
    size = snprintf(line, sizeof line, "%ld %s %s\n", answers, call, name);
    if (syscall(SYS_write, fd, line, size) != size)
        _exit(ENDED + 1);
    syscall(SYS_close, fd);
}

/* Whether a call is stopped by an error, which stands in errno then. Where the process is to end, it ends here. */
static int is_stopped(int is_change, const char *call, const char *name, int fd, const void *bytes, size_t length, off_t from)
{
    if (name == NULL || is_change == others || at == 0)
        return 0;
    calls++;
    if (calls < at || (calls > at && !ever))
        return 0;
    say_stopped(call, name);
    if (strcmp(how, "half") == 0 && bytes != NULL && length > 1)
        syscall(SYS_pwrite64, fd, bytes, length / 2, from);
    if (strcmp(how, "half") == 0 || strcmp(how, "exit") == 0)
        _exit(ENDED);
    errno = atoi(how);
    return 1;
}

ssize_t write(int fd, const void *bytes, size_t length)
{
    const char *name = name_of_open(fd);
    long done;

    if (is_stopped(1, "write", name, fd, NULL, length, 0))
        return -1;
    if (name != NULL)
        note("unknown", name, 0, 0, NULL);
    done = syscall(SYS_write, fd, bytes, length);
    if (fd == 1 && done > 0) {
        for (long one = 0; one < done; one++)
            answers += ((const char *)bytes)[one] == '\n';
        note("answers", "", answers, 0, NULL);
    }
    return done;
}

ssize_t pwrite(int fd, const void *bytes, size_t length, off_t from)
{
    const char *name = name_of_open(fd);
    long done;

    if (is_stopped(1, "pwrite", name, fd, bytes, length, from))
        return -1;
    if (name != NULL && most > 0 && length > (size_t)most)
        length = (size_t)most;
    done = syscall(SYS_pwrite64, fd, bytes, length, from);
    if (name != NULL && done > 0)
        note("write", name, from, (size_t)done, bytes);
    return done;
}

static int sync_by(long number, const char *call, int fd)
{
    const char *name = name_of_open(fd);
    int done;

    if (is_stopped(1, call, name, fd, NULL, 0, 0))
        return -1;
    done = (int)syscall(number, fd);
    if (name != NULL && done == 0)
        note("sync", name, 0, 0, NULL);
    return done;
}

int fsync(int fd)
{
    return sync_by(SYS_fsync, "fsync", fd);
}

int fdatasync(int fd)
{
    return sync_by(SYS_fdatasync, "fdatasync", fd);
}

int ftruncate(int fd, off_t length)
{
    const char *name = name_of_open(fd);
    int done;

    if (is_stopped(1, "ftruncate", name, fd, NULL, 0, 0))
        return -1;
    done = (int)syscall(SYS_ftruncate, fd, length);
    if (name != NULL && done == 0)
        note("cut", name, length, 0, NULL);
    return done;
}

/* The other calls. */

ssize_t read(int fd, void *bytes, size_t length)
{
    if (is_stopped(0, "read", name_of_open(fd), fd, NULL, 0, 0))
        return -1;
    return syscall(SYS_read, fd, bytes, length);
}

ssize_t pread(int fd, void *bytes, size_t length, off_t from)
{
    if (is_stopped(0, "pread", name_of_open(fd), fd, NULL, 0, 0))
        return -1;
    return syscall(SYS_pread64, fd, bytes, length, from);
}

int open(const char *path, int flags, ...)
{
    mode_t mode = 0;
    va_list rest;

    if (flags & (O_CREAT | O_TMPFILE)) {
        va_start(rest, flags);
        mode = va_arg(rest, mode_t);
        va_end(rest);
    }
    if (is_stopped(0, "open", name_of(path), -1, NULL, 0, 0))
        return -1;
    return (int)syscall(SYS_openat, AT_FDCWD, path, flags, mode);
}

int flock(int fd, int operation)
{
    if (is_stopped(0, "flock", name_of_open(fd), fd, NULL, 0, 0))
        return -1;
    return (int)syscall(SYS_flock, fd, operation);
}

int unlink(const char *path)
{
    const char *name = name_of(path);
    int done;

    if (is_stopped(0, "unlink", name, -1, NULL, 0, 0))
        return -1;
    done = (int)syscall(SYS_unlink, path);
    if (name != NULL && done == 0)
        note("gone", name, 0, 0, NULL);
    return done;
}

int statx(int in, const char *restrict path, int flags, unsigned int mask, struct statx *restrict found)
{
    const char *name = path[0] == '\0' ? name_of_open(in) : name_of(path);

    if (is_stopped(0, "statx", name, -1, NULL, 0, 0))
        return -1;
    return (int)syscall(SYS_statx, in, path, flags, mask, found);
}

int fcntl(int fd, int command, ...)
{
    va_list rest;
    long word;

    va_start(rest, command);
    word = va_arg(rest, long);
    va_end(rest);
    if (is_stopped(0, "fcntl", name_of_open(fd), fd, NULL, 0, 0))
        return -1;
    return (int)syscall(SYS_fcntl, fd, command, word);
}

int fchown(int fd, uid_t owner, gid_t group)
{
    if (is_stopped(0, "fchown", name_of_open(fd), fd, NULL, 0, 0))
        return -1;
    return (int)syscall(SYS_fchown, fd, owner, group);
}

int fchmod(int fd, mode_t mode)
{
    if (is_stopped(0, "fchmod", name_of_open(fd), fd, NULL, 0, 0))
        return -1;
    return (int)syscall(SYS_fchmod, fd, mode);
}

int posix_fadvise(int fd, off_t from, off_t length, int advice)
{
    if (is_stopped(0, "posix_fadvise", name_of_open(fd), fd, NULL, 0, 0))
        return errno;
    return syscall(SYS_fadvise64, fd, from, length, advice) < 0 ? errno : 0;
}

char *realpath(const char *restrict path, char *restrict found)
{
    char link[64];
    long length;
    int fd;

    if (is_stopped(0, "realpath", name_of(path), -1, NULL, 0, 0))
        return NULL;
    fd = (int)syscall(SYS_openat, AT_FDCWD, path, O_PATH | O_CLOEXEC);
    if (fd < 0)
        return NULL;
    snprintf(link, sizeof link, "/proc/self/fd/%d", fd);
    length = syscall(SYS_readlink, link, found, PATH_MAX - 1);
    syscall(SYS_close, fd);
    if (length < 0)
        return NULL;
    found[length] = '\0';
    return found;
}
