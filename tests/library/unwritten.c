/* Asks questions while all memory of the office, and its handle, may only be read: for tests/library/memory.py, in place of
 * library/heap.c. Whatever a question wrote there would end this program by a signal. Prints how many questions were asked. */
#include "rbac.h"
#include <stdbool.h>
#include <stdio.h>
#include <stdlib.h>
#include <string.h>
#include <sys/mman.h>

enum { SIZE = 1 << 26, ALIGNED = 16 };

struct rattle_block {
    bool ok;
    void *at;
};

/* The memory, of which nothing is used twice: the handle, and then the blocks, before each of which its size stands. */
static char *memory;
static size_t used = ALIGNED;
static rbac_office *office;

static void need(bool holds, const char *what)
{
    if (!holds) {
        printf("%s\n", what);
        exit(1);
    }
}

struct rattle_block rattle_alloc(size_t size, size_t align)
{
    char *at = memory + used + ALIGNED;

    (void)align;
    used += ALIGNED + (size + ALIGNED - 1) / ALIGNED * ALIGNED;
    need(used <= SIZE, "too little memory");
    return (struct rattle_block){true, at};
}

struct rattle_block rattle_realloc(void *old, size_t old_size, size_t size, size_t align)
{
    struct rattle_block new = rattle_alloc(size, align);

    memcpy(new.at, old, old_size < size ? old_size : size);
    return new;
}

void rattle_dealloc(void *at)
{
    (void)at;
}

static const char *const lines[] = {
    "{\"fn\":\"addUser\",\"user\":\"ann\"}",
    "{\"fn\":\"addUser\",\"user\":\"bob\"}",
    "{\"fn\":\"addRole\",\"role\":\"boss\"}",
    "{\"fn\":\"addRole\",\"role\":\"clerk\"}",
    "{\"fn\":\"addRole\",\"role\":\"auditor\"}",
    "{\"fn\":\"addInheritance\",\"asc\":\"boss\",\"desc\":\"clerk\"}",
    "{\"fn\":\"assignUser\",\"user\":\"ann\",\"role\":\"boss\"}",
    "{\"fn\":\"assignUser\",\"user\":\"bob\",\"role\":\"auditor\"}",
    "{\"fn\":\"addPermObj\",\"object\":\"safe\"}",
    "{\"fn\":\"addPermission\",\"object\":\"safe\",\"operation\":\"open\"}",
    "{\"fn\":\"grantPermission\",\"object\":\"safe\",\"operation\":\"open\",\"role\":\"clerk\"}",
    "{\"fn\":\"grantPermission\",\"object\":\"safe\",\"operation\":\"open\",\"role\":\"auditor\"}",
    "{\"fn\":\"createSession\",\"user\":\"ann\",\"session\":\"s1\",\"roles\":[\"boss\"]}",
    "{\"fn\":\"createSession\",\"user\":\"bob\",\"session\":\"s2\",\"roles\":[]}",
    "{\"fn\":\"createDsdSet\",\"set\":\"d\",\"roles\":[\"clerk\",\"auditor\"],\"cardinality\":2}",
    "{\"fn\":\"addRole\",\"role\":\"chief\"}",
    "{\"fn\":\"addInheritance\",\"asc\":\"chief\",\"desc\":\"clerk\"}",
    "{\"fn\":\"addInheritance\",\"asc\":\"chief\",\"desc\":\"auditor\"}",
    "{\"fn\":\"assignUser\",\"user\":\"ann\",\"role\":\"chief\"}",
    "{\"fn\":\"lockUserAccount\",\"user\":\"bob\"}",
};
enum { LINES = sizeof lines / sizeof *lines };

static const char *const names[] = {"", "\xff", "nobody", "ann", "bob", "s1", "s2", "open", "close", "safe"};
enum { NAMES = sizeof names / sizeof *names };

/* Asks all questions about all names, and returns how many. */
static long ask_all(uint64_t revision)
{
    uint64_t now;
    long asked = 0;

    for (int holder = 0; holder < NAMES; holder++)
        for (int operation = 0; operation < NAMES; operation++)
            for (int object = 0; object < NAMES; object++, asked += 2) {
                const char *a = names[holder], *b = names[operation], *c = names[object];
                int32_t session = rbac_check(office, a, strlen(a), b, strlen(b), c, strlen(c));
                int32_t user = rbac_check_user(office, a, strlen(a), b, strlen(b), c, strlen(c));

                need(session <= 1 && user <= 1 && session != -RBAC_NULL && user != -RBAC_NULL, "a decision is none");
            }
    need(rbac_revision(office, &now) == RBAC_DONE && now == revision, "the revision is another");
    return asked + 1;
}

int main(void)
{
    char out[64];
    size_t length;
    long asked = 0;

    memory = mmap(NULL, SIZE, PROT_READ | PROT_WRITE, MAP_PRIVATE | MAP_ANONYMOUS, -1, 0);
    need(memory != MAP_FAILED, "no memory");
    office = (rbac_office *)memory;
    need(rbac_open(office) == RBAC_DONE, "no office");
    for (int at = 0; at < LINES; at++) {
        need(rbac_answer(office, lines[at], strlen(lines[at]), out, sizeof out, &length) == RBAC_DONE, "no answer");
        need(length == 11 && memcmp(out, "{\"ok\":true}", 11) == 0, lines[at]);
        need(mprotect(memory, SIZE, PROT_READ) == 0, "the memory can't be protected");
        asked += ask_all((uint64_t)at + 1);
        need(mprotect(memory, SIZE, PROT_READ | PROT_WRITE) == 0, "the memory stays protected");
    }
    printf("%ld\n", asked);
    return 0;
}
