/*
 * Counts the allocations of the program into which it is loaded by LD_PRELOAD, and refuses one of them.
 *
 * REFUSE=N   the Nth allocation that the program asks for, counted from 1, is refused.
 * REFUSED=F  the file F is made at that moment, so that its absence shows that there were fewer.
 * COUNTED=F  the file F has the number of allocations when the program has ended.
 *
 * An allocation is a call of malloc, calloc, realloc, aligned_alloc or posix_memalign. Those of the
 * loader are not counted. The C library is glibc, by whose own names its allocator is called.
 */
#include <errno.h>
#include <fcntl.h>
#include <stddef.h>
#include <stdio.h>
#include <stdlib.h>
#include <unistd.h>

extern void *__libc_malloc(size_t size);
extern void *__libc_calloc(size_t count, size_t size);
extern void *__libc_realloc(void *block, size_t size);
extern void *__libc_memalign(size_t alignment, size_t size);

/* How many allocations there were, and the number of the one that is refused; 0 if none is to be refused. */
static long count = 0, refused = 0;

__attribute__((constructor)) static void start(void)
{
    const char *number = getenv("REFUSE");

    if (number != NULL)
        refused = atol(number);
    count = 0;
}

__attribute__((destructor)) static void end(void)
{
    const char *path = getenv("COUNTED");
    long counted = count;
    FILE *file = path != NULL ? fopen(path, "w") : NULL;

    if (file != NULL) {
        fprintf(file, "%ld", counted);
        fclose(file);
    }
}

static int is_refused(void)
{
    const char *file;

    if (++count != refused)
        return 0;
    file = getenv("REFUSED");
    if (file != NULL)
        close(open(file, O_CREAT | O_WRONLY, 0600));
    errno = ENOMEM;
    return 1;
}

void *malloc(size_t size)
{
    return is_refused() ? NULL : __libc_malloc(size);
}

void *calloc(size_t count, size_t size)
{
    return is_refused() ? NULL : __libc_calloc(count, size);
}

void *realloc(void *block, size_t size)
{
    return is_refused() ? NULL : __libc_realloc(block, size);
}

void *aligned_alloc(size_t alignment, size_t size)
{
    return is_refused() ? NULL : __libc_memalign(alignment, size);
}

int posix_memalign(void **block, size_t alignment, size_t size)
{
    if (is_refused())
        return ENOMEM;
    *block = __libc_memalign(alignment, size);
    return *block == NULL ? ENOMEM : 0;
}
