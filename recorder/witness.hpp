/*
 * witness::annotated<L>: a lock of the class L that tells the recorder what is done with it (witness.h), for C++11 and
 * later. L has the calls of the standard (lock, unlock, try_lock and their kin, lock_shared and its kin), or absl's. What L
 * doesn't have, annotated<L> doesn't have either. Without the recorder each call tests a pointer.
 *
 *     using Mutex = witness::annotated<absl::Mutex>;
 *     Mutex accounts;
 *     std::lock_guard<Mutex> guard(accounts);
 *
 * Places are those of the callers, and the place where a lock is constructed is its type. One that a constant initialises
 * has its variable for its type, as a pthread mutex has. std::condition_variable_any takes it as it is; a wait of L's own
 * goes by `waits`.
 */
#ifndef WITNESS_HPP
#define WITNESS_HPP

#include <type_traits>
#include <utility>

#include "witness.h"

namespace witness {
namespace detail {

/* A call under the first of its names that the lock has: those with `first` go before those with `second`. */
struct second {};
struct first : second {};

#define WITNESS_CALL(word, other, answer)                                                                          \
    template <class L> auto word(L &lock, first)->decltype(lock.word(), answer()) { return answer(lock.word()); }   \
    template <class L> auto word(L &lock, second)->decltype(lock.other(), answer()) { return answer(lock.other()); }
#define WITNESS_ACTION(word, other)                                                                                \
    template <class L> auto word(L &lock, first)->decltype(lock.word(), void()) { lock.word(); }                    \
    template <class L> auto word(L &lock, second)->decltype(lock.other(), void()) { lock.other(); }

WITNESS_ACTION(lock, Lock)
WITNESS_ACTION(unlock, Unlock)
WITNESS_CALL(try_lock, TryLock, bool)
WITNESS_ACTION(lock_shared, ReaderLock)
WITNESS_ACTION(unlock_shared, ReaderUnlock)
WITNESS_CALL(try_lock_shared, ReaderTryLock, bool)

#undef WITNESS_CALL
#undef WITNESS_ACTION

/* Whether L is a lock for readers and writers. */
template <class L> auto has_readers(L *lock) -> decltype(lock_shared(*lock, first()), std::true_type());
std::false_type has_readers(...);

} // namespace detail

/* The annotation stands in the caller, so that its address is the caller's. */
#define WITNESS_INLINE __attribute__((always_inline)) inline
#if __cplusplus >= 201402L
#define WITNESS_CONSTEXPR constexpr
#define WITNESS_IS_CONSTANT __builtin_is_constant_evaluated()
#else
#define WITNESS_CONSTEXPR
#define WITNESS_IS_CONSTANT false
#endif

template <class L> class annotated {
    L lock_;

    static constexpr bool readers = decltype(detail::has_readers(static_cast<L *>(nullptr)))::value;
    static constexpr int writes = readers ? WITNESS_WRITE : WITNESS_MUTEX;

    WITNESS_INLINE bool tried(bool got, int how)
    {
        if (got)
            witness_tried(this, how);
        return got;
    }
    WITNESS_INLINE bool ended(bool got)
    {
        if (got)
            witness_acquired(this);
        else
            witness_gave_up(this);
        return got;
    }

public:
    template <class... Words>
    WITNESS_INLINE WITNESS_CONSTEXPR explicit annotated(Words &&...words) : lock_(std::forward<Words>(words)...)
    {
        if (!WITNESS_IS_CONSTANT)
            witness_made(this, writes);
    }
    WITNESS_INLINE ~annotated() { witness_destroyed(this); }
    annotated(const annotated &) = delete;
    annotated &operator=(const annotated &) = delete;

    /* The lock itself, of which nothing is told. */
    L &base() { return lock_; }

    WITNESS_INLINE void lock()
    {
        witness_asked(this, writes);
        detail::lock(lock_, detail::first());
        witness_acquired(this);
    }
    WITNESS_INLINE void unlock()
    {
        witness_released(this);
        detail::unlock(lock_, detail::first());
    }
    WITNESS_INLINE bool try_lock() { return tried(detail::try_lock(lock_, detail::first()), writes); }
    template <class Limit> WITNESS_INLINE bool try_lock_for(const Limit &limit)
    {
        witness_asked(this, writes);
        return ended(lock_.try_lock_for(limit));
    }
    template <class Limit> WITNESS_INLINE bool try_lock_until(const Limit &limit)
    {
        witness_asked(this, writes);
        return ended(lock_.try_lock_until(limit));
    }

    WITNESS_INLINE void lock_shared()
    {
        witness_asked(this, WITNESS_READ);
        detail::lock_shared(lock_, detail::first());
        witness_acquired(this);
    }
    WITNESS_INLINE void unlock_shared()
    {
        witness_released(this);
        detail::unlock_shared(lock_, detail::first());
    }
    WITNESS_INLINE bool try_lock_shared()
    {
        return tried(detail::try_lock_shared(lock_, detail::first()), WITNESS_READ);
    }
    template <class Limit> WITNESS_INLINE bool try_lock_shared_for(const Limit &limit)
    {
        witness_asked(this, WITNESS_READ);
        return ended(lock_.try_lock_shared_for(limit));
    }
    template <class Limit> WITNESS_INLINE bool try_lock_shared_until(const Limit &limit)
    {
        witness_asked(this, WITNESS_READ);
        return ended(lock_.try_lock_shared_until(limit));
    }

    /*
     * A wait for a condition, which releases the lock and takes it back: `accounts.waits([&](absl::Mutex &lock) {
     * paid.Wait(&lock); })`. The request is told when it begins, since the wait may never end.
     */
    template <class Wait> WITNESS_INLINE void waits(Wait wait)
    {
        witness_released(this);
        witness_asked(this, writes);
        witness_gave_up(this);
        wait(lock_);
        witness_asked(this, writes);
        witness_acquired(this);
    }
};

#undef WITNESS_INLINE
#undef WITNESS_CONSTEXPR
#undef WITNESS_IS_CONSTANT

} // namespace witness

#endif
