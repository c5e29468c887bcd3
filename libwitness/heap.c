/*
 * The verifier's heap. It is the library's own, made by mmap: the program's malloc may take a lock, and be judged for
 * it while it is inside itself. Every call is under the recorder's mutex.
 *
 * Before a block stand 16 bytes that say how much was taken for it. A small block is of a power of two, and goes to the
 * freed ones of its size. A large one is a mapping of its own, which grows without a copy.
 */
#include "verifier.h"

#include <string.h>
#include <sys/mman.h>

enum { HEAD = 16, LEAST = 5, LARGEST = 16, PIECE = 1 << 20, PAGE = 4096 };

/* A block that is free has the next one of its size where it else says how much was taken. */
union block {
    size_t taken;
    union block *next;
    char head[HEAD];
};

static union block *freed[LARGEST + 1];
static char *piece, *piece_end;

static void *mapped(size_t bytes)
{
    void *memory = mmap(NULL, bytes, PROT_READ | PROT_WRITE, MAP_PRIVATE | MAP_ANONYMOUS, -1, 0);
    return memory == MAP_FAILED ? NULL : memory;
}

static union block *small(unsigned power)
{
    size_t size = (size_t)1 << power;
    union block *block = freed[power];
    if (block) {
        freed[power] = block->next;
    } else {
        if ((size_t)(piece_end - piece) < size) {
            char *more = mapped(PIECE);
            if (!more)
                return NULL;
            piece = more;
            piece_end = more + PIECE;
        }
        block = (union block *)(void *)piece;
        piece += size;
    }
    block->taken = size;
    return block;
}

static size_t in_pages(size_t bytes)
{
    return (bytes + PAGE - 1) / PAGE * PAGE;
}

static union block *large(size_t bytes)
{
    union block *block = mapped(in_pages(bytes));
    if (block)
        block->taken = in_pages(bytes);
    return block;
}

static struct rattle_memory given(union block *block)
{
    /* What is refused has an address all the same, which nobody follows. */
    return block ? (struct rattle_memory){1, block + 1} : (struct rattle_memory){0, (void *)HEAD};
}

struct rattle_memory rattle_alloc(size_t size, size_t align)
{
    size_t wanted = (size ? size : align) + HEAD;
    unsigned power = LEAST;
    if (size > SIZE_MAX / 2)
        return given(NULL);
    while (power <= LARGEST && (size_t)1 << power < wanted)
        power++;
    return given(power <= LARGEST ? small(power) : large(wanted));
}

void rattle_dealloc(void *at)
{
    union block *block = (union block *)at - 1;
    size_t taken = block->taken;
    unsigned power = LEAST;
    if (taken > (size_t)1 << LARGEST) {
        munmap(block, taken);
        return;
    }
    while ((size_t)1 << power < taken)
        power++;
    block->next = freed[power];
    freed[power] = block;
}

static struct rattle_memory moved(void *at, size_t kept, size_t size, size_t align)
{
    struct rattle_memory memory = rattle_alloc(size, align);
    if (memory.ok) {
        memcpy(memory.at, at, kept);
        rattle_dealloc(at);
    }
    return memory;
}

struct rattle_memory rattle_realloc(void *at, size_t old_size, size_t size, size_t align)
{
    union block *block = (union block *)at - 1;
    size_t taken = block->taken;
    if (size > SIZE_MAX / 2)
        return given(NULL);
    if (size + HEAD <= taken && size + HEAD > taken / 4)
        return given(block);
    if (taken <= (size_t)1 << LARGEST || size + HEAD <= (size_t)1 << LARGEST)
        return moved(at, old_size < size ? old_size : size, size, align);
    block = mremap(block, taken, in_pages(size + HEAD), MREMAP_MAYMOVE);
    if (block == MAP_FAILED)
        return given(NULL);
    block->taken = in_pages(size + HEAD);
    return given(block);
}
