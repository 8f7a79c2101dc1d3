/* The three functions by which the proved code allocates, over malloc. Nothing proves them. Blocks are aligned as those of
 * malloc are, and no caller needs more. */
#include <stdbool.h>
#include <stdlib.h>

/* A block, or with `ok` false none. The pointer is never null. */
struct rattle_block {
    bool ok;
    void *at;
};

static char none;

static struct rattle_block block_of(void *at)
{
    return (struct rattle_block){at != NULL, at != NULL ? at : &none};
}

struct rattle_block rattle_alloc(size_t size, size_t align)
{
    return block_of(malloc(size != 0 ? size : align));
}

struct rattle_block rattle_realloc(void *at, size_t old_size, size_t size, size_t align)
{
    (void)old_size;
    return block_of(realloc(at, size != 0 ? size : align));
}

void rattle_dealloc(void *at)
{
    free(at);
}
