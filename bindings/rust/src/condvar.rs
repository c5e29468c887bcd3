//! `std::sync::Condvar`, for watched mutexes.

use crate::{wrapped, LockResult, Mode, MutexGuard, WaitTimeoutResult, Watched};
use std::fmt;
use std::panic::Location;
use std::sync;
use std::time::Duration;

/// [`std::sync::Condvar`]. A wait releases its mutex and asks for it again: a thread that holds a further lock meanwhile has
/// taken the two in both orders.
#[derive(Default)]
pub struct Condvar {
    inner: sync::Condvar,
}

/// A wait of a thread that has the mutex before it and after it.
struct Wait<'a> {
    watched: &'a Watched,
    place: &'static Location<'static>,
}

impl Wait<'_> {
    /// The request is told now, since the wait may never end; and as given up, since the condition is waited for first.
    fn begins(&self) {
        self.watched.released();
        self.watched.asked_from(Mode::Exclusive, self.place);
        self.watched.gave_up();
    }

    fn ends(&self) {
        self.watched.asked_from(Mode::Exclusive, self.place);
        self.watched.acquired();
    }
}

/// What is held while a condition is looked at: where that panics, std's guard is dropped and this before it.
struct Held<'a> {
    watched: &'a Watched,
}

impl Drop for Held<'_> {
    fn drop(&mut self) {
        self.watched.released();
    }
}

impl Condvar {
    /// As [`std::sync::Condvar::new`].
    #[inline]
    pub const fn new() -> Condvar {
        Condvar { inner: sync::Condvar::new() }
    }

    /// As [`std::sync::Condvar::wait`].
    #[track_caller]
    pub fn wait<'a, T>(&self, guard: MutexGuard<'a, T>) -> LockResult<MutexGuard<'a, T>> {
        let (watched, inner) = guard.into_parts();
        let wait = Wait { watched, place: Location::caller() };
        wait.begins();
        let result = self.inner.wait(inner);
        wait.ends();
        wrapped(result, |inner| MutexGuard::of(watched, inner))
    }

    /// As [`std::sync::Condvar::wait_while`].
    #[track_caller]
    pub fn wait_while<'a, T, F>(&self, mut guard: MutexGuard<'a, T>, mut condition: F) -> LockResult<MutexGuard<'a, T>>
    where
        F: FnMut(&mut T) -> bool,
    {
        while condition(&mut *guard) {
            guard = self.wait(guard)?;
        }
        Ok(guard)
    }

    /// As [`std::sync::Condvar::wait_timeout`].
    #[track_caller]
    pub fn wait_timeout<'a, T>(
        &self,
        guard: MutexGuard<'a, T>,
        limit: Duration,
    ) -> LockResult<(MutexGuard<'a, T>, WaitTimeoutResult)> {
        let (watched, inner) = guard.into_parts();
        let wait = Wait { watched, place: Location::caller() };
        wait.begins();
        let result = self.inner.wait_timeout(inner, limit);
        wait.ends();
        wrapped(result, |(inner, answer)| (MutexGuard::of(watched, inner), answer))
    }

    /// As [`std::sync::Condvar::wait_timeout_ms`].
    #[deprecated(note = "replaced by `Condvar::wait_timeout`")]
    #[track_caller]
    pub fn wait_timeout_ms<'a, T>(
        &self,
        guard: MutexGuard<'a, T>,
        limit: u32,
    ) -> LockResult<(MutexGuard<'a, T>, bool)> {
        wrapped(self.wait_timeout(guard, Duration::from_millis(limit.into())), |(guard, answer)| {
            (guard, !answer.timed_out())
        })
    }

    /// As [`std::sync::Condvar::wait_timeout_while`].
    #[track_caller]
    pub fn wait_timeout_while<'a, T, F>(
        &self,
        guard: MutexGuard<'a, T>,
        limit: Duration,
        mut condition: F,
    ) -> LockResult<(MutexGuard<'a, T>, WaitTimeoutResult)>
    where
        F: FnMut(&mut T) -> bool,
    {
        let (watched, inner) = guard.into_parts();
        let wait = Wait { watched, place: Location::caller() };
        let mut waits = false;
        let result = self.inner.wait_timeout_while(inner, limit, |value| {
            if waits {
                wait.ends();
            }
            let held = Held { watched };
            waits = condition(value);
            std::mem::forget(held);
            if waits {
                wait.begins();
            }
            waits
        });
        if waits {
            wait.ends();
        }
        wrapped(result, |(inner, answer)| (MutexGuard::of(watched, inner), answer))
    }

    /// As [`std::sync::Condvar::notify_one`].
    #[inline]
    pub fn notify_one(&self) {
        self.inner.notify_one();
    }

    /// As [`std::sync::Condvar::notify_all`].
    #[inline]
    pub fn notify_all(&self) {
        self.inner.notify_all();
    }
}

impl fmt::Debug for Condvar {
    fn fmt(&self, f: &mut fmt::Formatter<'_>) -> fmt::Result {
        self.inner.fmt(f)
    }
}
