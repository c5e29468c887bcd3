/*
 * The calls that take memory and give it back, for `record --blocks`: an object for LD_PRELOAD, which comes before the
 * recorder. It makes the real call, and tells the recorder (../blocks.c) of the block. Without the recorder it only makes
 * the real call.
 *
 * The real functions are looked for at the first call. The dynamic linker may take memory for that: it gets some of the
 * object's own, which never goes back.
 */
#include <dlfcn.h>
#include <errno.h>
#include <stdatomic.h>
#include <stdbool.h>
#include <stddef.h>
#include <stdint.h>
#include <string.h>

#define UNLIKELY(condition) __builtin_expect(!!(condition), 0)
#define EXPORT __attribute__((visibility("default")))
#define TELLS(function) extern function __attribute__((weak))

/* Where the call comes from: its return address, and the stack pointer and the frame pointer there. */
#define CALLER                                                                                                         \
    (uintptr_t) __builtin_return_address(0), (uintptr_t)__builtin_frame_address(0) + 16,                               \
        *(const uintptr_t *)__builtin_frame_address(0)

TELLS(void witness_block_comes(void *from, size_t size, uintptr_t pc, uintptr_t stack, uintptr_t base));
TELLS(void witness_block_goes(void *from));
TELLS(void *witness_block_moves(void *from, size_t size, uintptr_t pc, uintptr_t stack, uintptr_t base,
    void *(*move)(void *, size_t)));

static struct {
    void *(*malloc)(size_t);
    void *(*calloc)(size_t, size_t);
    void *(*realloc)(void *, size_t);
    void *(*memalign)(size_t, size_t);
    void *(*aligned_alloc)(size_t, size_t);
    int (*posix_memalign)(void **, size_t, size_t);
    void (*free)(void *);
} real;
static _Atomic bool is_found;

/* What the dynamic linker gets until the real functions are found. */
enum { OWN_BYTES = 1 << 14, ALIGNED = 16 };
static char own[OWN_BYTES] __attribute__((aligned(ALIGNED)));
static _Atomic size_t own_used;

static void *take_own(size_t size)
{
    if (size > OWN_BYTES)
        return NULL;
    size_t at = atomic_fetch_add(&own_used, (size + ALIGNED - 1) / ALIGNED * ALIGNED);
    return at + size <= OWN_BYTES ? own + at : NULL;
}

static bool is_own(const void *block)
{
    return (const char *)block >= own && (const char *)block < own + OWN_BYTES;
}

static void find_one(void *to, const char *name)
{
    void *found = dlsym(RTLD_NEXT, name);
    memcpy(to, &found, sizeof found);
}

/* False while the dynamic linker looks for them on behalf of this thread, or of another one. */
static __attribute__((cold, noinline)) bool find(void)
{
    static _Atomic bool looks;
    int before = errno;
    if (atomic_exchange(&looks, true))
        return atomic_load(&is_found);
    find_one(&real.free, "free");
    find_one(&real.calloc, "calloc");
    find_one(&real.realloc, "realloc");
    find_one(&real.memalign, "memalign");
    find_one(&real.aligned_alloc, "aligned_alloc");
    find_one(&real.posix_memalign, "posix_memalign");
    find_one(&real.malloc, "malloc");
    atomic_store_explicit(&is_found, true, memory_order_release);
    errno = before;
    return true;
}

static inline bool is_ready(void)
{
    return !UNLIKELY(!atomic_load_explicit(&is_found, memory_order_acquire)) || find();
}

static inline void *told(void *block, size_t size, uintptr_t pc, uintptr_t stack, uintptr_t base)
{
    if (block && witness_block_comes)
        witness_block_comes(block, size, pc, stack, base);
    return block;
}

EXPORT void *malloc(size_t size)
{
    return is_ready() ? told(real.malloc(size), size, CALLER) : take_own(size);
}

EXPORT void *calloc(size_t count, size_t size)
{
    size_t whole;
    if (__builtin_mul_overflow(count, size, &whole))
        whole = SIZE_MAX;
    return is_ready() ? told(real.calloc(count, size), whole, CALLER) : take_own(whole);
}

/* A block of the object's own is copied: so much of it as there may be. */
static __attribute__((cold, noinline)) void *move_own(const char *from, size_t size)
{
    void *to = is_ready() ? real.malloc(size) : take_own(size);
    size_t most = (size_t)(own + OWN_BYTES - from);
    if (to)
        memcpy(to, from, size < most ? size : most);
    return to;
}

EXPORT void *realloc(void *from, size_t size)
{
    if (UNLIKELY(is_own(from)))
        return move_own(from, size);
    if (!is_ready())
        return from ? NULL : take_own(size);
    if (!witness_block_moves)
        return real.realloc(from, size);
    return witness_block_moves(from, size, CALLER, real.realloc);
}

EXPORT void *memalign(size_t alignment, size_t size)
{
    return is_ready() ? told(real.memalign(alignment, size), size, CALLER) : NULL;
}

EXPORT void *aligned_alloc(size_t alignment, size_t size)
{
    return is_ready() ? told(real.aligned_alloc(alignment, size), size, CALLER) : NULL;
}

EXPORT int posix_memalign(void **block, size_t alignment, size_t size)
{
    if (!is_ready())
        return ENOMEM;
    int answer = real.posix_memalign(block, alignment, size);
    if (answer == 0)
        told(*block, size, CALLER);
    return answer;
}

EXPORT void free(void *block)
{
    if (!block || UNLIKELY(is_own(block)) || !is_ready())
        return;
    if (witness_block_goes)
        witness_block_goes(block);
    real.free(block);
}
