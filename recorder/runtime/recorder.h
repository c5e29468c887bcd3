/*
 * The recorder: an object for LD_PRELOAD that writes what a program does with its locks, in lines from which
 * `record` makes a trace (../run/, ../symbols/). This file has what its parts share:
 *
 *   calls.c     the interposed calls of pthread, C11 and the C library; ways.h, what they share
 *   library_locks.c  those of GLib and OpenMP, where the program has them; rebind.c puts them there
 *   repeats.c   requests with a time limit that are made again and again
 *   single_pairs.c  the pairs of single locks; single_pairs.h, what is read of them without the mutex; single_lines.c, their
 *               lines; thread_lives.c, when threads began and were joined; errand.c, on which way a thread came to a
 *               request
 *   errors.c    errors in the use of locks that aren't orders
 *   annotations.c  what a program tells of its own locks by witness.h
 *   semaphores.c  the semaphores that are locks
 *   threads.c   who made each thread
 *   programs.c  the programs that a process starts; libraries.c, the libraries that it opens
 *   mutex_answer.c  which mutexes are held, where `record --show` asks
 *   steer.c     where a steered run pauses; steer.h, and plan.h, what is planned
 *   start.c     the real functions behind them, the start, fork
 *   chains.c    what each thread holds; quick.h, where nothing is to be written
 *   waiters.c   threads that wait for a condition while they hold locks
 *   locks.c     the locks at their addresses, and their types
 *   blocks.c    the blocks of memory that they are in, where that is asked for; malloc/, its interposed calls
 *   side_stacks.c  stacks of the recorder's own, since the program's may be small
 *   places.c    the callers of a call; objects.c finds their object, elf_symbols.c its symbols; named_places.c, places by
 *               name
 *   stacks.c    the callers of what is written
 *   seats.c     seats, and the numbers of types, locks and places in a stream
 *   condensed.h which requests a stream needs, by the pairs of types that it tells of
 *   write.c     the lines, and why they are a legal history
 *   words.c     words of others, which may have any bytes
 *   stream.c    the file that the lines stand in
 *   memory_lock.c  mlockall, and which memory is the recorder's
 *   reach.c     memory that may not be there
 *   status.c    which programs were started, what failed and which objects were loaded, where it outlives the process
 *   judge.h     who judges the lines, where these files are part of libwitness
 *
 * All that threads share is changed under the recorder's one mutex (recorder_enters, recorder_leaves), and nearly
 * all of it is read without. Nothing here takes memory but by mmap, and no lock of the C library is waited for
 * under the mutex.
 */
#ifndef RECORDER_RECORDER_H
#define RECORDER_RECORDER_H

#include "format.h"

#include <dlfcn.h>
#include <pthread.h>
#include <semaphore.h>
#include <signal.h>
#include <stdatomic.h>
#include <stdbool.h>
#include <stddef.h>
#include <spawn.h>
#include <stdint.h>
#include <stdio.h>
#include <stdlib.h>
#include <sys/mman.h>
#include <sys/types.h>
#include <threads.h>
#include <unistd.h>

int __register_atfork(void (*)(void), void (*)(void), void (*)(void), void *); /* what pthread_atfork calls */

/* What the files share is seen in this object alone. So it is reached without a look into a table of addresses. */
#pragma GCC visibility push(hidden)

#define LIKELY(condition) __builtin_expect(!!(condition), 1)
#define UNLIKELY(condition) __builtin_expect(!!(condition), 0)
#define COLD __attribute__((cold, noinline))

/* A stream is the file of a process's lines. A build for tests writes each request, and marks those that need no line. */
#ifdef WRITE_ALL
enum { WRITES_ALL = true };
#else
enum { WRITES_ALL = false };
#endif

/* The limits of a trace; the recorder has no use for chunks. */
enum { SEATS = 256, TYPES = 1023, LOCKS = 65536 };
#define LOG_LIMIT 16777216u

/* The recorder's own limits: locks alive, types met, places, locks that a thread holds. */
#define LOCKS_ALIVE (1u << 20)
#define TYPES_MET (1u << 16)
#define PLACES (1u << 16)
#define HELD_MOST 512u
#define HELD_FEW 8u
#define KNOWN 32u         /* requests that a thread remembers as known */
#define RELEASES_KEPT 32u /* of an errand, fewer than that are kept */
#define DEPTH_MOST 4u
#define FRAMES_MOST 16u
#define SERIAL_BITS 28
#define SERIAL_MOST ((1u << SERIAL_BITS) - 1)

/*
 * TOLD_RWLOCK: one that the program tells of (annotations.c), whose memory is never read. The last two are made for several
 * processes, which their memory doesn't say.
 */
enum class { MUTEX, RWLOCK, SPIN, SEMAPHORE, TOLD_RWLOCK, SHARED_SPIN, SHARED_SEMAPHORE };
enum mode { SHARED, EXCLUSIVE };

/* The number of a thing in the stream, 0 before it has one. A forked child begins a life with none. */
struct marks {
    _Atomic uint32_t life; /* set after the number of an earlier one is gone */
    uint32_t number;
};
/* The number of what didn't fit; it was counted. */
#define NUMBER_NONE UINT32_MAX

/*
 * Where a call comes from: its return address, or what stands for one of a place by name (named_places.c); and the stack
 * pointer and frame pointer of the caller.
 */
struct caller {
    uintptr_t pc;
    uintptr_t stack;
    uintptr_t base;
};

/* A return address that was met. */
struct place {
    _Atomic uintptr_t pc;   /* or PC_CLOSED; of a place that stands for two (places.c) no address */
    uintptr_t closed;       /* the address, while its object is closed */
    int32_t step;           /* from the caller's stack pointer to that of its own caller; or one of the three below */
    uint16_t object;        /* the number of the object, 0 where there is none */
    _Atomic uint8_t detour; /* why a call from here takes longer; 0 of most places */
    bool takes_memory : 1;  /* the function takes memory for others */
    bool leaves_base : 1;   /* up to here the function leaves its caller's frame pointer where it was */
    uint64_t offset;        /* the address as the object's file counts it */
    const char *name;       /* of the function, or empty */
    uint64_t within;        /* the address as the function counts it */
    uint32_t library, rest; /* the two places that it stands for; 0 of most places */
    const char *file;       /* of a place by name, whose line is `offset`; NULL of any other */
    struct marks marks;
    struct marks releases; /* set where a release by another thread than the holder was written */
};
/* STEP_FRAME: the caller's own caller is found by the frame pointer, two words above where it points. */
enum { STEP_LAST = 0, STEP_VARIES = -1, STEP_FRAME = -2 };
#define PC_CLOSED ((uintptr_t)1)
/*
 * DETOUR_WRAPPER: the function's only work is to lock. DETOUR_LIBRARY: it is of the C++ library, and may have a function
 * of the program in it. DETOUR_PLANNED: a steered run may pause there (steer.c). Else so many acquisitions more are to have
 * their stacks:
 * DETOUR_STACKS from when the place is met, or one of them was new (stacks.c).
 */
enum { DETOUR_NONE = 0, DETOUR_STACKS = 16, DETOUR_PLANNED = 253, DETOUR_LIBRARY = 254, DETOUR_WRAPPER = 255 };

struct type {
    uint32_t number;
    enum class class;
    uintptr_t anchor;  /* of a lock that stands in an object: the lock, or the variable that it is in; else 0 */
    uint32_t object;   /* in which the anchor is; two may have been at one address, one after the other */
    const char *label; /* the name that the program gives it, a word of named_places.c; NULL of most types */
    bool met;          /* no call has made its locks: the places are those of a first use */
    uintptr_t address; /* of the first lock of the type */
    uint64_t part;     /* one more than the locks' offset in their blocks; 0 where that doesn't count */
    uint32_t places[DEPTH_MOST];
    uint32_t uses[DEPTH_MOST]; /* of a first use, where `places` are those that take the block; else 0 */
    bool crowded;              /* there were too many such offsets: the type counts as one without them */
    struct type *next;         /* in its bucket */
    struct marks marks;
    uint32_t names_made;
    struct name *free, **free_end; /* names of locks that are gone, the longest gone first; where the next one goes */
};

/*
 * The name that a lock has among those of its type, and its number in the stream. When the lock is gone, both go to
 * the next one of the same name.
 */
struct name {
    uintptr_t variable; /* the address of a lock that stands in an object, else 0 */
    uint32_t number;    /* among the names of the type, from 1 on */
    bool recursive;     /* as the lock is, and the next */
    bool shared;
    struct name *next; /* among the free ones of the type */
    struct marks marks;
};

struct lock {
    _Atomic uintptr_t address;   /* 0 where the record is free */
    _Atomic(struct lock *) next; /* in its bucket, or among the free records */
    struct type *type;
    struct name *name;
    _Atomic uint32_t lost; /* how often it was given up by other means than an unlock of its holder */
    uint32_t serial;       /* no other lock of this process has it, before or after */
    bool recursive;
    bool shared;             /* other processes may have it, too */
    bool loses;              /* an unlock by another thread than the holder succeeds */
    _Atomic bool left_alone; /* a semaphore that was made as a lock is, and isn't one */
    struct marks marks;
};

/* A lock that a thread holds. */
struct held {
    struct lock *lock;
    uint64_t locks; /* stands for the single locks of the chain up to this one, and their modes */
    uint32_t lost;  /* the lock's count when it was acquired */
    uint32_t place;
    union {
        struct {
            uint32_t count; /* acquisitions not yet released */
            uint8_t mode : 3;
            uint8_t tried : 1;
            uint8_t has_under : 1; /* `under` is a lock's: that one was held when this was acquired, and released first */
            uint8_t before_fork : 1;  /* it was acquired by the parent process */
            uint8_t has_releases : 1; /* of the oldest one: since it was acquired, others were released (errand.h) */
            uint8_t written;          /* bits of the two below */
            uint16_t stack;           /* of the acquisition; 0 where it has none */
        };
        uint64_t how; /* all of these: they are read at once, and what was written in parts can't be without a wait */
    };
    uint32_t number;
    uint32_t under; /* the serial number of the lock that was released last before it */
};
/* What `how` is of a lock that was acquired once, in that mode, and isn't written. */
#define HOW_ONCE(mode) ((uint64_t)(mode) << 32 | 1)
/*
 * IS_WRITTEN: the stream has it held; AS_EXCLUSIVE, though it is a reader's. KEPT_ON: since the lock was acquired, a request
 * with a time limit has ended without its lock (repeats.c). What is released quickly isn't written, so such a lock isn't.
 */
enum { IS_WRITTEN = 1, KEPT_ON = 2, AS_EXCLUSIVE = 4 };

/* The request with a time limit that a thread made last and that ended without its lock (repeats.c). */
struct repeated {
    uint64_t locks; /* what it asked for, behind what it held; 0 where there is none */
    uint32_t place;
    bool lingers;   /* its line stands as one that waits, though the thread is in no call */
    uint8_t times;  /* how often one came to linger */
    uint64_t since; /* when it ended first, in milliseconds */
};

/*
 * Whether the thread is inside the recorder: then its state is the stack pointer of the interposed call's caller, by
 * which a call that was left by a jump is told from one that goes on; or STARTING.
 */
enum state { UNREADY, OPEN, STARTING };

/* Where a thread was made; by which one, as the kernel counts; when that one was made, and by whom. 0 where it isn't known. */
struct birth {
    uint32_t place, maker, at; /* AT: how many threads had been made and joined before */
    uint32_t maker_at, grand;
};

struct thread {
    volatile uintptr_t state;
    uint32_t count;
    uint32_t room;
    uint32_t lost_seen;
    uint32_t unseen; /* acquisitions that the chain had no room for */
    struct held *held;
    uint32_t seat; /* 0 for none */
    uint32_t last_seat;
    uint32_t written;     /* locks in the chain, and requests, that stand in the stream */
    uint32_t asked;       /* the number of the lock whose request is pending there, 0 for none */
    bool asks_for_a_time; /* the request that was written last ends by itself */
    struct held few[HELD_FEW];
    uintptr_t own_stack;   /* where the stack of the recorder's own begins that it is on; 0 for none (side_stacks.c) */
    bool keeps_signals;    /* no handler runs on that one */
    bool looks;            /* at what is loaded, at its next call: it has opened a library */
    uintptr_t other_stack; /* where its stack for handlers begins, as it was set last, and how long that is */
    size_t other_size;
    uint32_t serial; /* no other thread of this process has it; above SERIAL_BITS, how many threads it has made, 7 at most */
    struct birth birth;
    bool has_pairs; /* that stand in a stream */
    struct repeated repeated;
    struct waiter *waiter; /* where it waits for a condition (waiters.c), NULL else */
    uint32_t releases; /* that are kept of its errand, where the oldest lock says so; RELEASES_KEPT where some aren't (errand.h) */
    uint64_t release[RELEASES_KEPT + 1]; /* from 1 on */
    uint64_t known[KNOWN];       /* requests that tell nothing new, each by what stands for its locks (quick.h) */
    uint64_t known_after[KNOWN]; /* and the last one after each number of locks, up to KNOWN */
};

/* A request from its check to its end. */
struct request {
    struct thread *thread;
    const void *address;
    struct lock *lock;  /* NULL where it isn't recorded */
    struct held *again; /* where the thread holds the lock already */
    struct caller caller;
    uint32_t place;
    uint32_t stack; /* 0 where it has none */
    enum class class;
    uint8_t mode;
    bool tried, timed;
    bool repeats;           /* it has a time limit, and counts as one without (repeats.c) */
    bool ends_wait;         /* for the mutex of a condition, when the wait for it ends */
    bool asks_again;        /* it does so, and isn't refused */
    bool patient;           /* not written though it may block: to be written after a second */
    bool again_refused;     /* the thread holds the lock, and it isn't one to be acquired again */
    bool waited_for_itself; /* that was written */
    bool has_errand;        /* while its pairs are told: their thread's errand is the last one in the stream */
    bool pending;           /* the stream has it */
    bool as_exclusive;      /* there, though it is a reader's */
    bool got;               /* it has ended with the lock */
    uint32_t number;
};

/* What didn't fit, or can't be written: counted in the first line of the stream. */
#define NUMBER_OF(number, name) number,
enum missed { EACH_MISSED(NUMBER_OF) MISSES };

/* What failed outside the stream. */
enum failure { EACH_FAILURE(NUMBER_OF) FAILURES };

/* Errors in the use of locks: what was done to a held one, or without it. */
enum lock_error {
#define NUMBERED(error, word) error,
    EACH_ERROR(NUMBERED)
#undef NUMBERED
};

/* start.c */
typedef void handler(int);
/*
 * The real functions, and where an object has several of a name the version of the one that programs of today are linked to.
 * The first five may be called while the others are looked for.
 */
#define EACH_REAL(EACH)                                                                                                \
    EACH(__register_atfork, NULL)                                                                                      \
    EACH(pthread_mutex_lock, NULL)                                                                                     \
    EACH(pthread_mutex_trylock, NULL)                                                                                  \
    EACH(pthread_mutex_unlock, NULL)                                                                                   \
    EACH(free, NULL)                                                                                                   \
    EACH(pthread_mutex_init, NULL)                                                                                     \
    EACH(pthread_mutex_destroy, NULL)                                                                                  \
    EACH(pthread_mutex_timedlock, NULL)                                                                                \
    EACH(pthread_mutex_clocklock, NULL)                                                                                \
    EACH(pthread_rwlock_init, NULL)                                                                                    \
    EACH(pthread_rwlock_destroy, NULL)                                                                                 \
    EACH(pthread_rwlock_rdlock, NULL)                                                                                  \
    EACH(pthread_rwlock_tryrdlock, NULL)                                                                               \
    EACH(pthread_rwlock_timedrdlock, NULL)                                                                             \
    EACH(pthread_rwlock_clockrdlock, NULL)                                                                             \
    EACH(pthread_rwlock_wrlock, NULL)                                                                                  \
    EACH(pthread_rwlock_trywrlock, NULL)                                                                               \
    EACH(pthread_rwlock_timedwrlock, NULL)                                                                             \
    EACH(pthread_rwlock_clockwrlock, NULL)                                                                             \
    EACH(pthread_rwlock_unlock, NULL)                                                                                  \
    EACH(pthread_spin_init, NULL)                                                                                      \
    EACH(pthread_spin_destroy, NULL)                                                                                   \
    EACH(pthread_spin_lock, NULL)                                                                                      \
    EACH(pthread_spin_trylock, NULL)                                                                                   \
    EACH(pthread_spin_unlock, NULL)                                                                                    \
    EACH(pthread_cond_wait, "GLIBC_2.3.2")                                                                             \
    EACH(pthread_cond_timedwait, "GLIBC_2.3.2")                                                                        \
    EACH(pthread_cond_clockwait, NULL)                                                                                 \
    EACH(mtx_init, NULL)                                                                                               \
    EACH(sem_init, NULL)                                                                                               \
    EACH(sem_destroy, NULL)                                                                                            \
    EACH(sem_wait, NULL)                                                                                               \
    EACH(sem_trywait, NULL)                                                                                            \
    EACH(sem_timedwait, NULL)                                                                                          \
    EACH(sem_clockwait, NULL)                                                                                          \
    EACH(sem_post, NULL)                                                                                               \
    EACH(pthread_create, NULL)                                                                                         \
    EACH(thrd_create, NULL)                                                                                            \
    EACH(pthread_join, NULL)                                                                                           \
    EACH(thrd_join, NULL)                                                                                              \
    EACH(dlclose, NULL)                                                                                                \
    EACH(dlopen, NULL)                                                                                                 \
    EACH(dlmopen, NULL)                                                                                                \
    EACH(system, NULL)                                                                                                 \
    EACH(popen, NULL)                                                                                                  \
    EACH(execve, NULL)                                                                                                 \
    EACH(execvpe, NULL)                                                                                                \
    EACH(fexecve, NULL)                                                                                                \
    EACH(execveat, NULL)                                                                                               \
    EACH(posix_spawn, "GLIBC_2.15")                                                                                    \
    EACH(posix_spawnp, "GLIBC_2.15")                                                                                   \
    EACH(sigaction, NULL)                                                                                              \
    EACH(signal, NULL)                                                                                                 \
    EACH(__sysv_signal, NULL)                                                                                          \
    EACH(sigset, NULL)                                                                                                 \
    EACH(sigaltstack, NULL)                                                                                            \
    EACH(mlockall, NULL)
#define MEMBER_OF(function, version) __typeof__(function) *function;
#pragma GCC diagnostic push
#pragma GCC diagnostic ignored "-Wdeprecated-declarations"
struct real {
    EACH_REAL(MEMBER_OF)
};
#pragma GCC diagnostic pop
/* The stack pointer of the function's caller. */
#define HERE ((uintptr_t)__builtin_frame_address(0) + 16)
#define EXPORT __attribute__((visibility("default")))
/* To ask for the frame's address makes it one with a frame pointer: what is saved there is the caller's. */
#define CALLER                                                                                                         \
    ((struct caller){(uintptr_t)__builtin_return_address(0), HERE, *(const uintptr_t *)__builtin_frame_address(0)})
extern struct real real;
extern __thread struct thread self __attribute__((tls_model("initial-exec")));
extern bool all_slow; /* every call takes the long way */
/* The first page of the stream, as long as not every call takes the long way in any case. */
enum { PAGE_BYTES = 4096 };
extern char asked_page[PAGE_BYTES];

/* Whether every call does, or something is asked: then the byte there is '3' or '1', and else '0', or none yet. */
static inline bool takes_long_way(void)
{
    return *(const volatile char *)&asked_page[ASKED_AT] & 1;
}
extern const char *skipped;   /* patterns of functions that say nothing about a call, parted by colons */
extern uint32_t depth;        /* how many callers name a type */
extern char program_name[64]; /* as it was when the program began */
extern uint32_t life;         /* how many forks lie between the recorded program's start and this process */
extern bool watches_free;
extern _Atomic bool has_handlers;     /* the program was given a handler of signals */
extern _Atomic bool has_small_stacks; /* and one that has a stack of its own */

/*
 * side_stacks.c: calls the function with the argument, on a stack of the recorder's own: so of the program's it takes some
 * hundred bytes, whatever the function does.
 */
void aside(void (*function)(void *), void *argument);
bool is_aside(uintptr_t stack); /* whether this thread's own stack has the address */
void aside_forked(void);
/* Signals of faults come as they do without the recorder: the program may see to memory of its own by them. */
#define SIGNAL_BIT(number) ((uint64_t)1 << ((number)-1))
#define FAULTS                                                                                                         \
    (SIGNAL_BIT(SIGSEGV) | SIGNAL_BIT(SIGBUS) | SIGNAL_BIT(SIGFPE) | SIGNAL_BIT(SIGILL) | SIGNAL_BIT(SIGTRAP))
void change_signals(int how, uint64_t wanted, uint64_t *before); /* which signals wait, as sigprocmask does */

/* Nothing is recorded, and may never be: calls are passed on at once. */
extern _Atomic bool asleep;

static inline bool is_asleep(void)
{
    return atomic_load_explicit(&asleep, memory_order_relaxed);
}

void start(void);
bool recorder_wakes(void); /* by the program's wish, after it began without; false where it can't */
void fork_is_watched(void);
bool thread_opens(struct thread *thread, uintptr_t stack);
bool goes_far_inside(uintptr_t stack);
bool recorder_enters(void);
void recorder_leaves(void);
static inline void leaves_again(const bool *entered)
{
    if (*entered)
        recorder_leaves();
}

static inline void goes_out_again(const bool *inside)
{
    atomic_signal_fence(memory_order_seq_cst);
    if (*inside)
        self.state = OPEN;
}

/*
 * To the end of the block the thread holds the mutex; or it is inside the recorder, and its calls aren't recorded. Where
 * that can't be, the statement after it comes.
 */
#define ENTERS_OR                                                                                                      \
    __attribute__((cleanup(leaves_again), unused)) bool entered = recorder_enters();                                   \
    if (!entered)
#define GOES_INSIDE_OR(stack)                                                                                          \
    __attribute__((cleanup(goes_out_again), unused)) bool inside = goes_far_inside(stack);                             \
    if (!inside)

/* As mmap, which takes no other memory; or NULL. */
void *mapped(size_t bytes, int protection, int how, int file, off_t from);
void *table(size_t bytes); /* memory of zeros, of which only what is touched is taken; NULL where there is none */
void table_goes(void *memory, size_t bytes);

/* How a lock is asked for: by a call that may block, by one that doesn't, or by one that blocks for a time. */
enum asking { ASKS, TRIES, ASKS_FOR_A_TIME };

/* chains.c */
extern _Atomic uint32_t lost_total;

bool chains_made(void);
/* False where this call isn't recorded. Else the thread is inside the recorder, and its chain has nothing that it has lost. */
bool chain_opens(uintptr_t stack);
bool request_begins(struct request *request, const void *address, enum class class, enum mode mode,
    struct caller caller, enum asking asking);
void request_ends(struct request *request, bool got);
void request_waits(struct request *request);
void release_begins(const void *address, struct caller caller);
bool wait_begins(struct request *request, const void *address, bool asks_again, struct caller caller);
void wait_ends(struct request *request, int answer);
void chains_forked(void);

/* waiters.c */
enum { THREAD_NAME_ROOM = 17 };
/* This thread is about to wait for a condition, and holds locks; the wait is over; or it was left (under the mutex). */
void waiter_begins(const struct request *request);
void waiter_ends(struct request *request); /* which may be pending now */
void waiter_forgotten(struct thread *thread);
/* A request was written: so are those of the threads that it waits for, if they wait for a condition. Under the mutex. */
void waiters_written(void);
/* Of this thread, or of one that waits so: its number as the kernel counts threads, and its name. */
long thread_number(const struct thread *thread);
void thread_name(const struct thread *thread, char name[THREAD_NAME_ROOM]);
void waiters_forked(void);
/* Calls the function with the request of each that was written so. Under the mutex. */
void waiters_each(void (*function)(const struct request *request));

/* locks.c */
/* The bit by which the handle of a lock that may move is told from an address (annotations.c). */
#define HANDLE ((uintptr_t)1 << 63)
bool locks_made(void);
/*
 * Locks are chained by the piece of memory that they are in. Pieces that are neighbours have buckets that are
 * neighbours; the heaps of threads are apart by a power of two.
 */
enum { LOCK_BUCKETS = 1 << 18, LOCK_PIECE = 1 << 8 };
extern _Atomic(struct lock *) *lock_buckets;

static inline _Atomic(struct lock *) *lock_bucket(uintptr_t address)
{
    uintptr_t piece = address / LOCK_PIECE;
    return &lock_buckets[(piece ^ (piece >> 18) * 0x9e37) % LOCK_BUCKETS];
}

static inline struct lock *lock_at(const void *address)
{
    struct lock *lock = atomic_load_explicit(lock_bucket((uintptr_t)address), memory_order_acquire);
    while (lock && atomic_load_explicit(&lock->address, memory_order_relaxed) != (uintptr_t)address)
        lock = atomic_load_explicit(&lock->next, memory_order_acquire);
    return lock;
}

struct lock *lock_met(const void *address, enum class class, struct caller caller);
void lock_made_as(const void *address, enum class class, struct caller caller, const char *type);
static inline void lock_made(const void *address, enum class class, struct caller caller)
{
    lock_made_as(address, class, caller, NULL);
}
void lock_gone(const void *address);
void locks_freed(const void *block);
void library_closed(void);
/* The object that lay there is loaded no longer, and its locks are gone with it. Nothing is read there. Under the mutex. */
void object_gone(uintptr_t from, uintptr_t to);
void lock_given_up(struct lock *lock);
/* The serial number of the youngest lock; and those up to that one which were there are gone. Nothing is read there. */
uint32_t lock_youngest(void);
/* Whether an earlier type has the type's label but for the column. Under the mutex. */
bool type_label_was_met(const struct type *type);
void locks_left(uintptr_t from, uintptr_t to, uint32_t youngest);
/* The first held mutex whose record has that number or a higher one; *at becomes its number. Under the mutex. */
struct lock *lock_held_from(uint32_t *at, int32_t *holder);

/* blocks.c */
bool blocks_made(void); /* true where blocks aren't asked for, too */
/*
 * Whether the block is known that the address is in: how far it is in it, and the callers that have taken it, 0 where they
 * aren't known. Under the mutex.
 */
bool block_around(uintptr_t address, uint64_t *offset, uint32_t takers[DEPTH_MOST]);

/* places.c */
bool places_made(void);
extern struct place *places;

static inline uint32_t place_slot(uintptr_t pc)
{
    return (uint32_t)((pc * 0x9e3779b97f4a7c15u) >> 40) % PLACES;
}

/* The number of the place, 0 where it wasn't met. */
static inline uint32_t place_at_pc(uintptr_t pc)
{
    for (uint32_t slot = place_slot(pc);; slot = (slot + 1) % PLACES) {
        uintptr_t found = atomic_load_explicit(&places[slot].pc, memory_order_acquire);
        if (LIKELY(found == pc))
            return slot + 1;
        if (found == 0)
            return 0;
    }
}

static inline struct place *place_at(uint32_t number)
{
    return &places[number - 1];
}

static inline uint8_t detour_at(uint32_t number)
{
    return atomic_load_explicit(&place_at(number)->detour, memory_order_relaxed);
}

/* Whether its callers are wanted, instead of it or with it. */
static inline bool is_wrapper_at(uint32_t number)
{
    return detour_at(number) >= DETOUR_LIBRARY;
}

uint32_t first_caller(struct caller caller);
uint32_t place_passed(struct caller caller);

/* The number of the first caller that isn't a wrapper; 0 where there are too many places. */
static inline uint32_t place_of(struct caller caller)
{
    uint32_t number = place_at_pc(caller.pc);
    return LIKELY(number != 0) && LIKELY(!is_wrapper_at(number)) ? number : first_caller(caller);
}

uint32_t places_of(struct caller caller, uint32_t places[DEPTH_MOST]);
uint32_t callers(struct caller caller, uint32_t wanted, uint32_t *found);
/*
 * As callers, of a call that takes memory: functions that take it for others are passed over, and so are the library's. No
 * more are found than are found quickly. False where one isn't known; takers_unwound asks the unwinder for it, as long as
 * places have much room.
 */
bool takers_known(uintptr_t pc, uintptr_t stack, uintptr_t base, uint32_t wanted, uint32_t *found);
bool takers_unwound(struct caller caller, uint32_t wanted, uint32_t *found);
bool call_goes_on(uintptr_t stack);
void places_closed(uintptr_t from, uintptr_t to);
/* The place of that name, under that address; 0 where there is no room. Under the mutex. */
uint32_t place_named(uintptr_t pc, const char *file, unsigned line, const char *function);

/* named_places.c */
bool sites_made(void);
/* The caller, at the place by name of that number where there is one. */
struct caller site_or(unsigned number, struct caller caller);
bool is_site(struct caller caller);
/* The callers of a place by name that this thread has told, at most so many. */
uint32_t site_callers(uint32_t most, uint32_t *found);
/* The caller, at the address from which the place was told. */
struct caller site_told_from(struct caller caller);
void site_callers_end(void);
/* The word for a type's name, NULL for none, or where there is no room. Under the mutex. */
const char *type_label(const char *name);

/* objects.c */
uint32_t object_of(uintptr_t address, bool look); /* 0 for none; asks the dynamic linker where it is told to */
uint64_t object_offset(uint32_t object, uintptr_t address);
const char *object_path(uint32_t object);
const char *object_called(uint32_t object); /* the name that is told in place of its file's, NULL where there is none */
struct marks *object_marks(uint32_t object);
/* The object's functions can't be unwound: a stack has ended there. */
void object_ends_stacks(uint32_t object);
struct marks *object_end_marks(uint32_t object); /* NULL where none has */
/* The function or variable there: where it begins, how long it is, and its name. False where none is. */
bool object_symbol(uint32_t object, uintptr_t address, bool function, uintptr_t *from, uint64_t *size, const char **name);
const char *object_symbol_file(uint32_t object, uintptr_t address);
/* Whether an object of that file is loaded. */
bool object_is_known(const char *path);
/* Looks at what is loaded by now, outside the mutex: when the program begins, and has opened or closed a library. */
void objects_begin(void);
void objects_look(void);
/* Whether the object of an address can be asked for; else objects_look comes before. */
bool objects_are_found(void);

/* libraries.c */
/* Somebody there was told of that address by a handle. Where it is the C library's own call, that is noted. */
void library_finds(const void *found, uintptr_t pc, uintptr_t stack);

/* rebind.c */
void library_comes(void);  /* an object may come that needs a library of library_locks.h */
void others_rebound(void); /* the functions of those that have come are recorded from here on */

/* stacks.c */
extern uint32_t frames_shown; /* how many frames a stack has at most; with 1 there are no stacks */
extern bool stacks_all;       /* what is held has its stack, too */

bool stacks_made(void);
uint32_t stack_of(struct caller caller);
uint32_t stack_of_held(uint32_t place, struct caller caller);
uint32_t stack_met(struct caller caller, uint32_t *place);
void stack_stands(uint32_t number);

/* mutex_answer.c */
bool lock_read(const struct lock *lock, void *to, size_t bytes); /* false where its memory is gone */
/*
 * The thread that a mutex or a rwlock itself names as its holder, as the kernel counts threads; 0 where it names none,
 * or can't be read. A reader isn't named.
 */
int32_t lock_holder(const struct lock *lock);
void answer(struct thread *thread);

/* annotations.c */
/* Whether the release is the real one of a lock whose release was told before it. */
bool release_was_told(const struct lock *lock);

/* semaphores.c */
extern bool semaphores_are_locks;

/* threads.c */
extern _Atomic uint32_t threads_made_and_joined;
extern _Atomic uint32_t threads_in_making; /* counted already, and maybe not there yet */

void threads_forked(void);

/* repeats.c; all of them inside */
bool repeat_counts(struct request *request);
void repeat_noted(const struct request *request); /* it ended without its lock */
void repeat_ends(struct thread *thread);

/* single_pairs.c */
bool single_pairs_made(void);
void single_pairs_forked(void);
void single_pairs_end(void);               /* no further pairs are told of; under the mutex, between lines */
void pairs_noted(struct request *request); /* before the real call, of a thread that holds something */
/* Whether a request tells nothing new that has no time limit; if so, it may be remembered by what stands for its locks. */
bool request_is_known(struct thread *thread, const struct lock *lock, enum mode mode, uint64_t locks);

/* single_lines.c; under the mutex */
struct single_pair;
/* What is kept of the pair of what the request's thread holds there and of what it asks for. AGAIN: it was told of before. */
void write_pair(struct request *request, const struct held *held, const struct single_pair *pair, bool again);
void write_no_more_pairs(void);

/* thread_lives.c */
void lives_forked(void);
void life_begins(struct thread *thread); /* under the mutex; it is told of once */
/* What is known of a thread before it is joined: its handle, and by what it is told from a later one of that handle. */
struct joining {
    pthread_t thread;
    uint32_t made;  /* it was made when fewer had been made and joined; 0 where that can't be said */
    uint32_t begun; /* lives that had begun */
};
struct joining order_joins(pthread_t thread);
void order_of_joined(struct joining joining); /* this thread has joined it */

/* errand.c; under the mutex */
/* Whether the way of a thread that holds something says more than that it got that one lock. */
bool errand_is_long(const struct thread *thread);
void write_errand(const struct thread *thread); /* its line */
void errands_forked(void);

/* errors.c */
void errors_begin(void);
void errors_of_thread(void); /* its end is noticed */
void error_at(enum lock_error error, const void *address, struct caller caller);
void error_if_held(enum lock_error error, const void *address, struct caller caller); /* by this thread, since the fork */
void error_of_freed(struct lock *lock);                                 /* inside, before its record is given back */
void error_of_reread(struct request *request);                          /* of a rwlock that this thread reads already */
void error_of_wait(const pthread_mutex_t *mutex, struct caller caller); /* where this thread isn't known to hold it */

/* seats.c */
bool seat_taken(struct thread *thread);
bool seat_found(struct thread *thread); /* as seat_taken, where it needn't have one: nothing is counted */
void seat_given_back(struct thread *thread);
uint32_t lock_number(struct thread *thread, struct lock *lock);
uint32_t lock_number_for_pair(struct thread *thread, struct lock *lock);
uint32_t type_numbered(struct type *type); /* its number in the stream, 0 where there is no room for it */
bool type_fits(struct type *type);
void number_stands(struct thread *thread, uint32_t number);
void number_stands_no_more(struct thread *thread, uint32_t number);
/* Whether the stream has the lock held or asked for, but for an own acquisition. */
bool number_has_others(struct lock *lock, uint32_t own);
uint32_t place_number(uint32_t place);
uint32_t *mark(struct marks *marks);
void seats_forked(void);

/* write.c */
void write_request(struct request *request);
void write_request_of(struct request *request); /* of a thread that waits for a condition; under the mutex */
void write_acquired(struct request *request, struct held *held);
void write_given_up(void *request); /* a `struct request`, of which the thread counts: it is called aside, too */
void write_left(void *thread);      /* a `struct thread`, as above */
void write_unlock(struct thread *thread, struct held *held);
void write_waits_again(struct request *request);
void write_goes_on(const struct request *request);
void write_released_by_another(struct thread *thread, struct lock *lock, uint32_t place);
/*
 * To the end of the block the thread has a seat. Where the stream has no room, or there is no seat, the statement after it
 * comes.
 */
#define SEATED_OR(sitter)                                                                                              \
    __attribute__((cleanup(seat_goes_again))) struct thread *seated =                                                  \
        stream_has_room() && seat_taken(sitter) ? (sitter) : NULL;                                                     \
    if (!seated)

static inline void seat_goes_again(struct thread *const *seated)
{
    if (*seated)
        seat_given_back(*seated);
}

void write_thread(const struct thread *thread);
void write_place(uint32_t place);
void write_type(struct type *type);
void write_crowded(struct type *type); /* under the mutex, between lines */
void write_init(struct thread *thread, struct lock *lock);

/* words.c */
/*
 * Writes the word with %XX for each byte that would end it, and for %. Returns how long it is so; what has no room isn't
 * written. No byte follows it.
 */
size_t word_escaped(const char *word, char *to, size_t room);

/* stream.c */
/*
 * Puts words to the line: of printf's, %u and %lu stand for numbers, %lx for one in hexadecimal digits, %c for a byte,
 * and %s for a word as words.c has it, NO_NAME for an empty one.
 */
void line_put(const char *words, ...) __attribute__((format(printf, 1, 2)));
void stream_append(bool is_entry); /* the line, which ends with this: whether it is an entry of the verifier's log */
#define write_line(...) (line_put(__VA_ARGS__), stream_append(false))
#define write_entry(...) (line_put(__VA_ARGS__), stream_append(true))
uint64_t milliseconds(void); /* by the clock that only goes on */
bool stream_opens(void);
bool stream_has_room(void);
extern uint64_t stream_made_at; /* when the process, or the fork, began, in milliseconds */
bool stream_is_asked(void);
void stream_is_answered(void);
bool stream_has_file(void); /* else their lines are judged alone */
void count_missed(enum missed what);
bool stream_made(void);
void stream_forked(void);
void stream_is_left(void); /* by a child that has none of its own */
void stream_end(void);

/* memory_lock.c */
void own_memory(const void *from, size_t bytes); /* that is the recorder's, and not the program's */
void own_memory_goes(const void *from);
void own_object(void);

/* reach.c */
/* Whether the word that the address is in can be read; and whether so many bytes can. errno stays. */
bool is_readable(const void *address);
bool is_all_readable(const void *from, size_t bytes);

/* status.c */
int status_file(const char *name, int how,
    mode_t mode);                  /* in the folder of the streams; negative where it can't be opened */
bool file_may_have(uint64_t size); /* a file that grows over a limit ends the program */
void status_made(void);
void status_begins(void); /* this process takes its slot, as one that has the recorder */
/* Whether this process's program has loaded the recorder: LOADED, NOT_LOADED of one that it is about to become, .. */
void status_loaded(const char *how);
void status_started(pid_t process, const char *program); /* the process was begun with that program, or is about to be it */
void status_notes(const char *word, const char *name); /* in a line that begins with the word, once. Under the mutex */
void count_digits(char *digits);
void count_failure(enum failure what);

#pragma GCC visibility pop

#endif
