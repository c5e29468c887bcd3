/*
 * mlockall, which keeps a program's memory from being swapped. A user may lock so much alone, and the kernel counts all
 * addresses that a process has: also the recorder's tables, most of which are never used. So where it refuses, the program's
 * memory is locked piece by piece without the recorder's own, if the program by itself has no more than it may lock.
 *
 * For that it is kept which memory is the recorder's. What isn't noted for want of room counts as the program's.
 */
#include "recorder.h"

#include <errno.h>
#include <fcntl.h>
#include <string.h>
#include <sys/resource.h>

enum { RANGES = 1 << 12, LINE_BYTES = 1 << 12 };

static struct range {
    _Atomic uintptr_t from; /* 0 where there is none */
    _Atomic uintptr_t to;
} ranges[RANGES];

void own_memory(const void *from, size_t bytes)
{
    for (struct range *range = ranges; range < ranges + RANGES; range++) {
        uintptr_t none = 0;
        if (atomic_load_explicit(&range->from, memory_order_relaxed) != 0
            || !atomic_compare_exchange_strong(&range->from, &none, (uintptr_t)from))
            continue;
        atomic_store(&range->to, ((uintptr_t)from + bytes + PAGE_BYTES - 1) / PAGE_BYTES * PAGE_BYTES);
        return;
    }
}

void own_memory_goes(const void *from)
{
    for (struct range *range = ranges; range < ranges + RANGES; range++)
        if (atomic_load_explicit(&range->from, memory_order_relaxed) == (uintptr_t)from) {
            atomic_store(&range->to, 0);
            atomic_store(&range->from, 0);
            return;
        }
}

/* In libwitness the recorder's object may be the program's. */
void own_object(void)
{
#ifndef LIBWITNESS
    extern const char __ehdr_start[] __attribute__((visibility("hidden")));
    extern const char _end[] __attribute__((visibility("hidden")));
    own_memory(__ehdr_start, (size_t)(_end - __ehdr_start));
#endif
}

/* The recorder's memory that the address is in, or the next one's beginning: *to becomes where that changes. */
static bool is_own(uintptr_t at, uintptr_t *to)
{
    for (struct range *range = ranges; range < ranges + RANGES; range++) {
        uintptr_t from = atomic_load(&range->from), end = atomic_load(&range->to);
        if (from == 0 || end == 0)
            continue;
        if (at >= from && at < end) {
            *to = end;
            return true;
        }
        if (from > at && from < *to)
            *to = from;
    }
    return false;
}

/* What is done with each piece that isn't the recorder's, and how much there was. */
struct pieces {
    bool locks;
    unsigned flags;
    uint64_t bytes;
};

/* What has no memory, or can't have any, is passed over, as the kernel does. */
static void take_piece(struct pieces *pieces, uintptr_t from, uintptr_t to)
{
    uintptr_t next;
    for (uintptr_t at = from; at < to; at = next) {
        next = to;
        if (is_own(at, &next))
            continue;
        if (next > to)
            next = to;
        pieces->bytes += next - at;
        if (pieces->locks)
            mlock2((const void *)at, next - at, pieces->flags);
    }
}

static void take_line(struct pieces *pieces, const char *line)
{
    char *end;
    uintptr_t from = strtoull(line, &end, 16), to = *end == '-' ? strtoull(end + 1, NULL, 16) : 0;
    if (to > from && !strstr(line, "[vsyscall]"))
        take_piece(pieces, from, to);
}

/* All that is mapped, by the lines of the maps. False where they can't be read. */
static bool take_all(struct pieces *pieces)
{
    char line[LINE_BYTES], bytes[LINE_BYTES];
    size_t length = 0;
    ssize_t got;
    int file = open("/proc/self/maps", O_RDONLY | O_CLOEXEC);
    if (file < 0)
        return false;
    while ((got = read(file, bytes, sizeof bytes)) > 0)
        for (ssize_t i = 0; i < got; i++) {
            /* Of a long line the end is a path's. */
            if (bytes[i] != '\n') {
                if (length < sizeof line - 1)
                    line[length++] = bytes[i];
                continue;
            }
            line[length] = '\0';
            take_line(pieces, line);
            length = 0;
        }
    close(file);
    return got == 0;
}

struct locking {
    int flags, answer;
};

static void lock_pieces(void *argument)
{
    struct locking *it = argument;
    struct pieces counted = {0}, locked = {.locks = true, .flags = it->flags & MCL_ONFAULT ? MLOCK_ONFAULT : 0};
    struct rlimit limit;
    if (getrlimit(RLIMIT_MEMLOCK, &limit) != 0 || !take_all(&counted) || counted.bytes > limit.rlim_cur)
        return;
    it->answer = take_all(&locked) ? 0 : -1;
    if (it->answer == 0 && (it->flags & MCL_FUTURE))
        it->answer = real.mlockall(it->flags & ~MCL_CURRENT);
}

EXPORT int mlockall(int flags)
{
    struct locking it = {flags, -1};
    int before = errno;
    start();
    int answer = real.mlockall(flags);
    if (answer == 0 || errno != ENOMEM || !(flags & MCL_CURRENT) || is_asleep())
        return answer;
    aside(lock_pieces, &it);
    errno = it.answer == 0 ? before : ENOMEM;
    return it.answer;
}
