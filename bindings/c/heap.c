/* The library's memory: malloc, realloc and free. libtebaldi.a has this file too; a program that defines the three functions itself
 * replaces it. */
#include <stdbool.h>
#include <stddef.h>
#include <stdlib.h>

/* A block. If there is none, `at` is not null either. */
struct block {
    bool is_some;
    void *at;
};

static char none;

static struct block block_at(void *at)
{
    struct block block = { at != NULL, at != NULL ? at : &none };
    return block;
}

struct block rattle_alloc(size_t size, size_t align)
{
    return block_at(malloc(size != 0 ? size : align));
}

struct block rattle_realloc(void *at, size_t old_size, size_t size, size_t align)
{
    (void)old_size;
    return block_at(realloc(at, size != 0 ? size : align));
}

void rattle_dealloc(void *at, size_t size, size_t align)
{
    (void)size;
    (void)align;
    free(at);
}
