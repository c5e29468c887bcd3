/*
 * What the stream tells of pairs of single locks: one was held while the other was asked for. The quick way reads this
 * without the mutex; single_pairs.c changes it under the mutex.
 *
 * A pair is known by its locks, their modes, how the one was asked for, and whether the other was acquired under it. Kept of
 * it are the first two threads that did so, whether there were more, and the locks that were held besides each time. What is
 * kept only grows weaker: a thread is added, a common lock goes or comes to be shared. No word of an entry turns back.
 *
 * Why a reader needs no mutex. Each word that it reads was right at some time, though perhaps not all of them at once. A
 * thread that stands there was told of, and is still. A common lock that was read may be gone since, so that the reader asks
 * for more than it has to. A request that seems to be known is known. One that seems to be new may be known: it goes the
 * slow way, which looks again under the mutex. A table that was left for a wider one is one of an earlier time.
 */
#ifndef SINGLE_PAIRS_H
#define SINGLE_PAIRS_H

#include "recorder.h"

/* How a lock is asked for: pairs are parted by it. */
enum asked_how { ASKED_PLAINLY, ASKED_FOR_A_TIME, ASKED_REPEATEDLY, ASKED_AS_A_WAIT_ENDS };

/* So many locks that were held besides are kept; and so many slots are looked at for a pair. */
enum { BESIDES = 4, PAIR_TRIES = 128 };

/* Bits beside serial numbers, which have SERIAL_BITS: of a lock, it was shared; of the second thread, there were more. */
#define BESIDE_SHARED (1u << SERIAL_BITS)
#define MORE_THREADS (1u << 31)

struct single_pair {
    _Atomic uint64_t key;             /* 0 where there is none */
    _Atomic uint32_t thread[2];       /* their `serial`; 0 for none */
    _Atomic uint32_t beside[BESIDES]; /* serial numbers of locks; 0 for none, with others after it */
};

struct single_table {
    uint32_t mask; /* one less than its slots, which are a power of two */
    uint32_t unused[7];
    struct single_pair pair[];
};

extern __attribute__((visibility("hidden"))) _Atomic(struct single_table *) single_table;
/* No further pairs are kept. */
extern __attribute__((visibility("hidden"))) _Atomic bool single_table_is_full;

static inline bool is_acquired_under(const struct held *held, const struct lock *lock)
{
    return held->has_under && held->under == lock->serial;
}

/* By the time that a serial number is greater than SERIAL_MOST, the table is full. */
static inline uint64_t single_pair_key(const struct held *held, const struct lock *lock, enum mode mode,
    enum asked_how how)
{
    uint64_t locks = (uint64_t)held->lock->serial << SERIAL_BITS | lock->serial;
    return locks << 7 | (uint64_t)(held->mode == SHARED) << 6 | (uint64_t)(mode == SHARED) << 5 | (uint64_t)how << 3
        | (uint64_t)is_acquired_under(held, lock) << 2 | 1;
}

static inline uint32_t single_pair_slot(const struct single_table *table, uint64_t key)
{
    return (uint32_t)((key * 0x9e3779b97f4a7c15u) >> 40) & table->mask;
}

/* The pair of that key, NULL where there is none. */
static inline struct single_pair *single_pair_found(uint64_t key)
{
    struct single_table *table = atomic_load_explicit(&single_table, memory_order_acquire);
    uint32_t slot = single_pair_slot(table, key);
    for (uint32_t tries = 0; tries < PAIR_TRIES; tries++, slot = (slot + 1) & table->mask) {
        struct single_pair *pair = &table->pair[slot];
        uint64_t found = atomic_load_explicit(&pair->key, memory_order_acquire);
        if (LIKELY(found == key))
            return pair;
        if (found == 0)
            return NULL;
    }
    return NULL;
}

/* Whether the thread stands there, or so many others that no further one is told of. */
static inline bool single_pair_has(const struct single_pair *pair, uint32_t thread)
{
    uint32_t second = atomic_load_explicit(&pair->thread[1], memory_order_relaxed);
    return LIKELY(atomic_load_explicit(&pair->thread[0], memory_order_relaxed) == thread) || (second & MORE_THREADS)
        || second == thread;
}

/* Whether it is the lock, and not as a reader unless it was held so before. */
static inline bool single_is(const struct held *held, uint32_t beside)
{
    return held->lock->serial == (beside & SERIAL_MOST) && ((beside & BESIDE_SHARED) || held->mode != SHARED);
}

static inline bool single_is_held(const struct thread *thread, uint32_t beside)
{
    for (uint32_t i = 0; i < thread->count; i++)
        if (single_is(&thread->held[i], beside))
            return true;
    return false;
}

/* AT: where the thread holds what the pair has as held. What was held besides are most often the locks that are oldest. */
static inline bool single_pair_is_known(const struct thread *thread, uint32_t at, uint64_t key)
{
    const struct single_pair *pair = single_pair_found(key);
    if (UNLIKELY(!pair))
        return atomic_load_explicit(&single_table_is_full, memory_order_relaxed);
    if (UNLIKELY(!single_pair_has(pair, thread->serial)))
        return false;
    for (uint32_t i = 0; i < BESIDES; i++) {
        uint32_t beside = atomic_load_explicit(&pair->beside[i], memory_order_relaxed);
        uint32_t likely = i < at ? i : i + 1;
        if (beside != 0 && !(LIKELY(likely < thread->count) && LIKELY(single_is(&thread->held[likely], beside)))
            && UNLIKELY(!single_is_held(thread, beside)))
            return false;
    }
    return true;
}

/* Whether the stream has all that a request by the thread tells of pairs of single locks. */
static inline bool single_pairs_are_known(const struct thread *thread, const struct lock *lock, enum mode mode,
    enum asked_how how)
{
    for (uint32_t i = 0; i < thread->count; i++)
        if (UNLIKELY(!single_pair_is_known(thread, i, single_pair_key(&thread->held[i], lock, mode, how))))
            return false;
    return true;
}

#endif
