/*
 * Stands before the C library (LD_PRELOAD) and fails where it is told to, by variables that
 * number from 1:
 *   REFUSED=N        the Nth growth is refused
 *   READ_FAILS=N     the Nth read of the standard input fails
 *   WRITE_FAILS=N    the Nth write to the standard output fails
 *   WRITE_NOTHING=N  the Nth write to the standard output takes no byte
 *   ONE_BYTE=1       a read of the standard input gives one byte, and a write to the standard output takes one
 *   COUNTS=FILE      as the program ends, the file gets how many growths, reads and writes there were, the most bytes of memory
 *                    that were in use at once, how many threads were started, and how many growths these asked for
 * What is asked for before the program begins isn't counted.
 *
 * cc -O2 -shared -fPIC -o failing.so failing.c -ldl
 */
#define _GNU_SOURCE
#include <dlfcn.h>
#include <errno.h>
#include <fcntl.h>
#include <malloc.h>
#include <pthread.h>
#include <stdatomic.h>
#include <stddef.h>
#include <stdint.h>
#include <stdio.h>
#include <stdlib.h>
#include <string.h>
#include <sys/syscall.h>
#include <unistd.h>

static void *(*real_malloc)(size_t);
static void *(*real_calloc)(size_t, size_t);
static void *(*real_realloc)(void *, size_t);
static void *(*real_aligned)(size_t, size_t);
static ssize_t (*real_read)(int, void *, size_t);
static ssize_t (*real_write)(int, const void *, size_t);
static int (*real_thread)(pthread_t *, const pthread_attr_t *, void *(*)(void *), void *);
static atomic_ulong asked, reads, writes, threads, elsewhere;
static pthread_t first;
static atomic_long used, most;
static unsigned long refused, failing_read, failing_write, empty_write, one_byte;
static int counts;

/* dlsym may ask for memory before there is any: it gets this, which is never let go. */
static char early[4096];
static size_t early_used;

static void *take_early(size_t size)
{
    size_t at = (early_used + 15) & ~(size_t)15;
    if (at + size > sizeof early)
        return NULL;
    early_used = at + size;
    return early + at;
}

static int is_early(void *place)
{
    return (uintptr_t)place - (uintptr_t)early < sizeof early;
}

static void find(void)
{
    real_calloc = dlsym(RTLD_NEXT, "calloc");
    real_malloc = dlsym(RTLD_NEXT, "malloc");
    real_realloc = dlsym(RTLD_NEXT, "realloc");
    real_aligned = dlsym(RTLD_NEXT, "aligned_alloc");
    real_read = dlsym(RTLD_NEXT, "read");
    real_write = dlsym(RTLD_NEXT, "write");
    real_thread = dlsym(RTLD_NEXT, "pthread_create");
}

/* Whether this growth is the one to refuse. */
static int refuses(void)
{
    if (counts && !pthread_equal(pthread_self(), first))
        atomic_fetch_add(&elsewhere, 1);
    return counts && atomic_fetch_add(&asked, 1) + 1 == refused;
}

static unsigned long number(const char *name)
{
    const char *digits = getenv(name);
    return digits != NULL ? strtoul(digits, NULL, 10) : 0;
}

__attribute__((constructor)) static void begin(void)
{
    refused = number("REFUSED");
    failing_read = number("READ_FAILS");
    failing_write = number("WRITE_FAILS");
    empty_write = number("WRITE_NOTHING");
    one_byte = number("ONE_BYTE");
    if (real_malloc == NULL)
        find();
    first = pthread_self();
    counts = 1;
}

__attribute__((destructor)) static void end(void)
{
    const char *name = getenv("COUNTS");
    char text[120];
    int file;
    counts = 0;
    if (name == NULL || (file = open(name, O_WRONLY | O_CREAT | O_TRUNC, 0666)) < 0)
        return;
    int length = snprintf(text, sizeof text, "%lu %lu %lu %ld %lu %lu\n", (unsigned long)asked, (unsigned long)reads,
                          (unsigned long)writes, (long)most, (unsigned long)threads, (unsigned long)elsewhere);
    if (real_write(file, text, (size_t)length) != length)
        syscall(SYS_exit_group, 99);
    close(file);
}

/* A program that may have threads ends so, and no destructor is called. */
void _exit(int status)
{
    end();
    for (;;)
        syscall(SYS_exit_group, status);
}

int pthread_create(pthread_t *thread, const pthread_attr_t *how, void *(*begin)(void *), void *with)
{
    if (real_write == NULL)
        find();
    if (counts)
        atomic_fetch_add(&threads, 1);
    return real_thread(thread, how, begin, with);
}

ssize_t read(int file, void *to, size_t size)
{
    if (real_read == NULL)
        find();
    if (file == 0 && counts) {
        if (atomic_fetch_add(&reads, 1) + 1 == failing_read) {
            errno = EIO;
            return -1;
        }
        if (one_byte && size > 1)
            size = 1;
    }
    return real_read(file, to, size);
}

ssize_t write(int file, const void *from, size_t size)
{
    if (real_write == NULL)
        find();
    if (file == 1 && counts) {
        unsigned long this = atomic_fetch_add(&writes, 1) + 1;
        if (this == failing_write) {
            errno = EIO;
            return -1;
        }
        if (this == empty_write)
            return 0;
        if (one_byte && size > 1)
            size = 1;
    }
    return real_write(file, from, size);
}

/* Another name of it, which programs may be linked with. */
ssize_t __write(int file, const void *from, size_t size)
{
    return write(file, from, size);
}

/* Counts what is in use from here on. */
static void *taken(void *place)
{
    if (place != NULL && counts) {
        long now = atomic_fetch_add(&used, (long)malloc_usable_size(place)) + (long)malloc_usable_size(place);
        long seen = most;
        while (now > seen && !atomic_compare_exchange_weak(&most, &seen, now))
            ;
    }
    return place;
}

static void given_back(void *place)
{
    if (place != NULL && counts)
        atomic_fetch_sub(&used, (long)malloc_usable_size(place));
}

static void *refuse(void)
{
    errno = ENOMEM;
    return NULL;
}

void *malloc(size_t size)
{
    if (real_malloc == NULL) {
        static int finding;
        if (finding)
            return take_early(size);
        finding = 1;
        find();
    }
    return refuses() ? refuse() : taken(real_malloc(size));
}

void *calloc(size_t count, size_t size)
{
    if (real_calloc == NULL)
        return take_early(count * size);
    return refuses() ? refuse() : taken(real_calloc(count, size));
}

/* Whether a block gets smaller, which is no growth. A block may have some bytes more than were asked for. */
static int is_smaller(size_t size, size_t had)
{
    return size + 32 <= had;
}

void *realloc(void *place, size_t size)
{
    if (real_realloc == NULL)
        find();
    if (is_early(place)) {
        void *other = real_malloc(size);
        if (other != NULL)
            memcpy(other, place, size < 256 ? size : 256);
        return other;
    }
    size_t had = place != NULL ? malloc_usable_size(place) : 0;
    if (!is_smaller(size, had) && refuses())
        return refuse();
    long before = counts ? (long)had : 0;
    void *got = real_realloc(place, size);
    if (got != NULL) {
        atomic_fetch_sub(&used, before);
        taken(got);
    }
    return got;
}

void *aligned_alloc(size_t alignment, size_t size)
{
    if (real_aligned == NULL)
        find();
    return refuses() ? refuse() : taken(real_aligned(alignment, size));
}

int posix_memalign(void **place, size_t alignment, size_t size)
{
    if (real_aligned == NULL)
        find();
    void *got = refuses() ? NULL : real_aligned(alignment, size);
    if (got == NULL)
        return ENOMEM;
    *place = taken(got);
    return 0;
}

void free(void *place)
{
    static void (*real_free)(void *);
    if (is_early(place))
        return;
    if (real_free == NULL)
        real_free = dlsym(RTLD_NEXT, "free");
    given_back(place);
    real_free(place);
}
