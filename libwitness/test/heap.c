/*
 * A heap of the program's own, over malloc: it counts, refuses one growth of those that are counted, and tells the most
 * bytes that were out at once.
 */
#include <malloc.h>
#include <stdlib.h>

#include "test.h"

long blocks_out, bytes_out, most_bytes, growths, refused_growth;
bool growths_count;

static bool is_refused(void)
{
    return growths_count && ++growths == refused_growth;
}

static struct rattle_memory refuse(void)
{
    static _Alignas(16) char nothing[16];

    return (struct rattle_memory){0, nothing};
}

/* So many bytes more are out. */
static void count(long bytes)
{
    bytes_out += bytes;
    if (bytes_out > most_bytes)
        most_bytes = bytes_out;
}

struct rattle_memory rattle_alloc(size_t size, size_t align)
{
    void *at;

    if (is_refused() || (at = malloc(size ? size : align)) == NULL)
        return refuse();
    blocks_out++;
    count((long)malloc_usable_size(at));
    return (struct rattle_memory){1, at};
}

struct rattle_memory rattle_realloc(void *at, size_t old_size, size_t size, size_t align)
{
    long before = (long)malloc_usable_size(at);
    void *moved;

    (void)old_size;
    if (is_refused() || (moved = realloc(at, size ? size : align)) == NULL)
        return refuse();
    count((long)malloc_usable_size(moved) - before);
    return (struct rattle_memory){1, moved};
}

void rattle_dealloc(void *at)
{
    count(-(long)malloc_usable_size(at));
    free(at);
    blocks_out--;
}
