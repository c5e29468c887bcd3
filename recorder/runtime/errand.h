/*
 * The errand of a thread: what it got and let go since it last had nothing. By it two threads can come to their requests at
 * once, or can't (docs/recording.md, "How it hangs").
 *
 * What the thread still holds stands in its chain. Here is kept what it released meanwhile, while it held others: each
 * release with where in the chain the lock stood, and how long that was. So all is known in its sequence (errand.c): what
 * was got after a release stands at the chain's end, from there on. Nothing is kept of a thread that has one lock at a time.
 * Where a chain begins anew nothing is cleared: its oldest lock says whether there are releases of its own.
 */
#ifndef ERRAND_H
#define ERRAND_H

#include "recorder.h"

/*
 * A release is a number: the lock's serial number, its place, how many were held after it, how many of these had come after
 * the lock, and the first bits of `how`, which are its mode and whether it was tried.
 */
enum { PLACE_BITS = 17, HELD_BITS = 9, LATER_BITS = 6 };
enum {
    RELEASE_PLACE = SERIAL_BITS,
    RELEASE_LEFT = RELEASE_PLACE + PLACE_BITS,
    RELEASE_LATER = RELEASE_LEFT + HELD_BITS,
    RELEASE_HOW = RELEASE_LATER + LATER_BITS
};
_Static_assert(PLACES < 1 << PLACE_BITS && HELD_MOST <= 1 << HELD_BITS && RELEASE_HOW == 60, "a number has room for it");

/* How many releases there are of the errand of a thread that holds something; RELEASES_KEPT where some aren't kept. */
static inline uint32_t errand_releases(const struct thread *thread)
{
    return thread->held->has_releases ? thread->releases : 0;
}

/* Of the errand not all is known. The thread has held something. */
static inline void errand_is_cut(struct thread *thread)
{
    thread->releases = RELEASES_KEPT;
    thread->held->has_releases = 1;
}

/* LEFT: how many are held without it. LATER: how many of these stand after it in the chain. */
static inline uint64_t release_of(const struct held *held, uint32_t left, uint32_t later)
{
    return held->lock->serial | (uint64_t)held->place << RELEASE_PLACE | (uint64_t)left << RELEASE_LEFT
        | (uint64_t)later << RELEASE_LATER | held->how >> 32 << RELEASE_HOW;
}

/*
 * Keeps a release of a thread that goes on to hold something. Where it got and let go the same lock before, and nothing else
 * in between, that is kept once: whoever can do so once can do it twice. release[0] is 0, and no release is.
 */
static inline void errand_keeps(struct thread *thread, uint64_t release)
{
    uint32_t kept = errand_releases(thread);
    if (thread->release[kept] == release || kept == RELEASES_KEPT)
        return;
    thread->release[kept + 1] = release;
    thread->releases = kept + 1;
    thread->held->has_releases = 1;
}

#endif
