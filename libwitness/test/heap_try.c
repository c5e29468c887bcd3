/*
 * The verifier's heap by itself: blocks of all sizes are made, grown, shrunk and freed at random. Each keeps what is in
 * it, none overlaps another, all are aligned to 16. The last line is 'heap: N passed, M failed'.
 */
#include "../verifier.h"

#include <stdio.h>
#include <stdlib.h>
#include <string.h>
#include <sys/resource.h>

enum { BLOCKS = 200, STEPS = 60000 };

static struct {
    unsigned char *at;
    size_t size;
    unsigned char filled;
} blocks[BLOCKS];
static unsigned passed, failed;

static void is(int holds)
{
    if (holds)
        passed++;
    else
        failed++;
}

static size_t size_drawn(void)
{
    size_t size = (size_t)rand() % 300;
    if (rand() % 8 == 0)
        size = (size_t)rand() % 5000;
    if (rand() % 64 == 0)
        size = (size_t)rand() % 500000;
    return size;
}

static int is_filled(int number, size_t size)
{
    for (size_t i = 0; i < size; i++)
        if (blocks[number].at[i] != blocks[number].filled)
            return 0;
    return 1;
}

static void fill(int number, size_t size, int step)
{
    blocks[number].size = size;
    blocks[number].filled = (unsigned char)(step * 31 + number);
    memset(blocks[number].at, blocks[number].filled, size);
}

static void step_with(int number, int step)
{
    size_t size = size_drawn(), before = blocks[number].size;
    struct rattle_memory memory;
    if (!blocks[number].at) {
        memory = rattle_alloc(size, 16);
    } else if (rand() % 3 != 0) {
        memory = rattle_realloc(blocks[number].at, before, size, 16);
    } else {
        is(is_filled(number, before));
        rattle_dealloc(blocks[number].at);
        blocks[number].at = NULL;
        return;
    }
    is(memory.ok == 1 && (size_t)memory.at % 16 == 0);
    int had = blocks[number].at != NULL;
    blocks[number].at = memory.at;
    if (had)
        is(is_filled(number, before < size ? before : size));
    fill(number, size, step);
}

/* Where the system gives nothing more, what is there stays. */
static void try_refusals(void)
{
    struct rlimit limit;
    struct rattle_memory memory = rattle_alloc(100000, 16), more;
    getrlimit(RLIMIT_AS, &limit);
    limit.rlim_cur = 1 << 20;
    setrlimit(RLIMIT_AS, &limit);
    memset(memory.at, 7, 100000);
    is(rattle_alloc((size_t)1 << 40, 16).ok == 0 && rattle_alloc((size_t)-20, 16).ok == 0);
    more = rattle_realloc(memory.at, 100000, (size_t)1 << 40, 16);
    is(more.ok == 0 && more.at != NULL && ((unsigned char *)memory.at)[99999] == 7);
    is(rattle_realloc(memory.at, 100000, (size_t)-20, 16).ok == 0);
    limit.rlim_cur = limit.rlim_max;
    setrlimit(RLIMIT_AS, &limit);
    rattle_dealloc(memory.at);
}

int main(void)
{
    srand(1);
    for (int step = 0; step < STEPS; step++)
        step_with(rand() % BLOCKS, step);
    for (int i = 0; i < BLOCKS; i++)
        if (blocks[i].at)
            is(is_filled(i, blocks[i].size));
    try_refusals();
    printf("heap: %u passed, %u failed\n", passed, failed);
    return failed != 0;
}
