/*
 * The way that nearly all calls take: of a thread that holds nothing, or whose request is known behind what it holds.
 * It writes nothing, and what threads share it only reads. Any other call takes the long way, in chains.c.
 */
#ifndef QUICK_H
#define QUICK_H

#include "condensed.h"
#include "errand.h"
#include "recorder.h"

#include <string.h>

/* The type's number in the stream; 0 where it has none yet, NUMBER_NONE where there was no room. Without the mutex. */
static inline uint32_t type_number(const struct type *type)
{
    return LIKELY(atomic_load_explicit(&type->marks.life, memory_order_acquire) == life)
        ? *(const volatile uint32_t *)&type->marks.number
        : 0;
}

extern __attribute__((visibility("hidden"))) struct wit_condensed *pairs; /* that the stream tells of */

/* Whether the stream tells of each pair of types that a request for that type makes. What has no room there makes none. */
static inline bool chain_is_told(const struct thread *thread, const struct type *type)
{
    uint32_t asked = type_number(type);
    if (asked == NUMBER_NONE)
        return true;
    const uint64_t *row = thread->count == 1 ? pairs->alone[asked] : pairs->told[asked];
    for (uint32_t i = 0; i < thread->count; i++) {
        uint32_t held = type_number(thread->held[i].lock->type);
        if (held != NUMBER_NONE && !wit_has_bit(row, (uint16_t)held))
            return false;
    }
    return true;
}

static inline struct held *held_of(struct thread *thread, const struct lock *lock)
{
    for (uint32_t i = thread->count; i-- > 0;)
        if (thread->held[i].lock == lock)
            return &thread->held[i];
    return NULL;
}

/* What stands for a chain and a lock of that mode after it. */
static inline uint64_t locks_with(uint64_t chain, const struct lock *lock, enum mode mode)
{
    uint64_t mixed = (chain ^ ((uint64_t)lock->serial << 1 | (mode == SHARED))) * 0x9e3779b97f4a7c15u;
    return mixed ^ mixed >> 32;
}

/* What stands for the chain of all that the thread holds. */
static inline uint64_t locks_held(const struct thread *thread)
{
    return thread->count ? thread->held[thread->count - 1].locks : 0;
}

/*
 * Whether the thread has asked so before, and nothing of it was new, by what stands for its locks. So it stays then: the pairs
 * of types that are told only grow in number, and so does what is told of single locks.
 */
static inline bool is_remembered(const struct thread *thread, uint64_t locks)
{
    return LIKELY(thread->known[locks % KNOWN] == locks) || thread->known_after[thread->count % KNOWN] == locks;
}

static inline void remember(struct thread *thread, uint64_t locks)
{
    thread->known[locks % KNOWN] = thread->known_after[thread->count % KNOWN] = locks;
}

static inline void forget_requests(struct thread *thread)
{
    memset(thread->known, 0, sizeof thread->known);
    memset(thread->known_after, 0, sizeof thread->known_after);
}

/* Puts the lock there, as acquired once; `lost` is left. */
static inline void held_fill(struct held *held, struct lock *lock, uint32_t place, uint64_t locks, enum mode mode)
{
    held->lock = lock;
    held->locks = locks;
    held->place = place;
    held->how = HOW_ONCE(mode);
}

/* The acquisition has that stack. All is written at once. */
static inline void held_has_stack(struct held *held, uint32_t stack)
{
    held->how |= (uint64_t)stack << 48;
}

/*
 * Goes inside the recorder, from where a handler of signals sees nothing half done: its calls aren't recorded. False
 * where the thread is inside already, or its chain may have what it has lost.
 */
static inline bool goes_inside(struct thread *thread, uintptr_t stack)
{
    if (UNLIKELY(thread->state != OPEN || thread->lost_seen != atomic_load_explicit(&lost_total, memory_order_relaxed)))
        return false;
    thread->state = stack;
    atomic_signal_fence(memory_order_seq_cst);
    return true;
}

static inline void goes_outside(struct thread *thread)
{
    atomic_signal_fence(memory_order_seq_cst);
    thread->state = OPEN;
}

/* The quick way has no call in it. */
#define QUICK static inline __attribute__((always_inline))

/* A request that takes the quick way. */
struct quick {
    struct thread *thread;
    struct held *held; /* the place after the chain, with the lock in it; the chain isn't longer yet */
    bool nested;       /* the thread holds locks */
};

/* False where the call takes the long way. Else the thread is inside the recorder until the request ends, and has room. */
QUICK bool quick_begins(struct quick *quick, uintptr_t stack)
{
    struct thread *thread = quick->thread = &self;
    if (UNLIKELY(takes_long_way()) || UNLIKELY(!goes_inside(thread, stack)))
        return false;
    if (LIKELY(thread->count != thread->room))
        return true;
    goes_outside(thread);
    return false;
}

/*
 * Whether a request from that place tells nothing new. Then its lock is put after the chain. What is remembered wasn't for a
 * lock that the thread holds: that would stand in the chain. LOOKS: what isn't remembered is looked for, too.
 */
QUICK bool quick_is_known(struct quick *quick, const void *address, enum mode mode, uint32_t place, bool looks)
{
    struct thread *thread = quick->thread;
    struct lock *lock = lock_at(address);
    if (UNLIKELY(!lock))
        return false;
    struct held *held = quick->held = &thread->held[thread->count];
    quick->nested = thread->count != 0;
    uint64_t locks = locks_with(quick->nested ? held[-1].locks : 0, lock, mode);
    if (quick->nested && UNLIKELY(!is_remembered(thread, locks))
        && !(looks && request_is_known(thread, lock, mode, locks)))
        return false;
    held_fill(held, lock, place, locks, mode);
    return true;
}

/*
 * The call has returned. False where the thread isn't inside by it any more: a handler of signals has changed to another
 * stack meanwhile, and a call from there has taken this one for one that was left. Then the place after the chain isn't
 * its own.
 */
QUICK bool quick_ends(const struct quick *quick, bool got, uintptr_t stack)
{
    if (UNLIKELY(quick->thread->state != stack))
        return false;
    if (LIKELY(got)) {
        quick->held->lost = atomic_load_explicit(&quick->held->lock->lost, memory_order_relaxed);
        quick->thread->count++;
    }
    goes_outside(quick->thread);
    return true;
}

/* It was acquired once, and isn't written. */
static inline bool is_held_once(const struct held *held, const void *address)
{
    return atomic_load_explicit(&held->lock->address, memory_order_relaxed) == (uintptr_t)address && held->count == 1
        && !held->written;
}

/* Releases what was acquired last, once, and isn't written. False where that isn't so. */
QUICK bool quick_released(const void *address, uintptr_t stack)
{
    struct thread *thread = &self;
    bool released = false;
    if (UNLIKELY(!goes_inside(thread, stack)))
        return false;
    if (LIKELY(thread->count != 0 && is_held_once(&thread->held[thread->count - 1], address)
            && (thread->room == HELD_FEW || thread->count > 1))) {
        if (--thread->count != 0)
            errand_keeps(thread, release_of(&thread->held[thread->count], thread->count, 0));
        released = true;
    }
    goes_outside(thread);
    return released;
}

#endif
