//! `std::sync::Mutex`, watched.

use crate::watched::tell_acquired;
use crate::{wrapped, wrapped_try, Kind, LockResult, Mode, TryLockResult, Watched};
use std::fmt;
use std::mem::ManuallyDrop;
use std::ops::{Deref, DerefMut};
use std::panic::Location;
use std::sync;

/// [`std::sync::Mutex`], which tells what is done with it.
///
/// It is `Send` and `Sync` exactly where std's is:
///
/// ```compile_fail,E0277
/// fn is_sync<T: Sync>(_: T) {}
/// is_sync(witness::Mutex::new(std::rc::Rc::new(1)));
/// ```
/// ```compile_fail,E0277
/// fn is_send<T: Send>(_: T) {}
/// is_send(witness::Mutex::new(std::rc::Rc::new(1)));
/// ```
/// ```
/// fn is_sync<T: Sync>(_: T) {}
/// is_sync(witness::Mutex::new(std::cell::Cell::new(1)));
/// ```
pub struct Mutex<T: ?Sized> {
    watched: Watched,
    inner: sync::Mutex<T>,
}

/// [`std::sync::MutexGuard`]; the mutex is released when it is dropped.
///
/// It stays in its thread, as std's does:
///
/// ```compile_fail,E0277
/// fn is_send<T: Send>(_: T) {}
/// is_send(witness::Mutex::new(1).lock());
/// ```
/// ```compile_fail,E0277
/// fn is_sync<T: Sync>(_: T) {}
/// is_sync(witness::Mutex::new(std::cell::Cell::new(1)).lock());
/// ```
/// ```compile_fail,E0597
/// let guard = { let mutex = witness::Mutex::new(1); mutex.lock() };
/// ```
#[must_use = "if unused the Mutex will immediately unlock"]
pub struct MutexGuard<'a, T: ?Sized + 'a> {
    watched: &'a Watched,
    inner: sync::MutexGuard<'a, T>,
}

impl<T> Mutex<T> {
    /// As [`std::sync::Mutex::new`]. The type `T` and the place of this call are the type that orders hold for.
    #[track_caller]
    #[inline]
    pub const fn new(value: T) -> Mutex<T> {
        Mutex { watched: Watched::new::<Mutex<T>>(Kind::Mutex), inner: sync::Mutex::new(value) }
    }

    /// As [`std::sync::Mutex::into_inner`].
    pub fn into_inner(self) -> LockResult<T> {
        self.inner.into_inner()
    }
}

impl<T: ?Sized> Mutex<T> {
    /// As [`std::sync::Mutex::lock`].
    #[track_caller]
    #[inline]
    pub fn lock(&self) -> LockResult<MutexGuard<'_, T>> {
        let told = self.watched.asked_from(Mode::Exclusive, Location::caller());
        let result = self.inner.lock();
        tell_acquired(told);
        wrapped(result, |inner| MutexGuard { watched: &self.watched, inner })
    }

    /// As [`std::sync::Mutex::try_lock`].
    #[track_caller]
    #[inline]
    pub fn try_lock(&self) -> TryLockResult<MutexGuard<'_, T>> {
        let place = Location::caller();
        wrapped_try(self.inner.try_lock(), |inner| {
            self.watched.tried_from(Mode::Exclusive, place);
            MutexGuard { watched: &self.watched, inner }
        })
    }

    /// As [`std::sync::Mutex::is_poisoned`].
    pub fn is_poisoned(&self) -> bool {
        self.inner.is_poisoned()
    }

    /// As [`std::sync::Mutex::clear_poison`].
    pub fn clear_poison(&self) {
        self.inner.clear_poison();
    }

    /// As [`std::sync::Mutex::get_mut`].
    pub fn get_mut(&mut self) -> LockResult<&mut T> {
        self.inner.get_mut()
    }
}

impl<T> From<T> for Mutex<T> {
    #[track_caller]
    fn from(value: T) -> Mutex<T> {
        Mutex::new(value)
    }
}

impl<T: Default> Default for Mutex<T> {
    #[track_caller]
    fn default() -> Mutex<T> {
        Mutex::new(T::default())
    }
}

impl<T: ?Sized + fmt::Debug> fmt::Debug for Mutex<T> {
    fn fmt(&self, f: &mut fmt::Formatter<'_>) -> fmt::Result {
        self.inner.fmt(f)
    }
}

impl<'a, T: ?Sized> MutexGuard<'a, T> {
    /// Std's guard and what tells of the mutex, which is held still.
    pub(crate) fn into_parts(self) -> (&'a Watched, sync::MutexGuard<'a, T>) {
        let this = ManuallyDrop::new(self);
        // SAFETY: it is read once, since `this` is never dropped.
        (this.watched, unsafe { std::ptr::read(&this.inner) })
    }

    pub(crate) fn of(watched: &'a Watched, inner: sync::MutexGuard<'a, T>) -> MutexGuard<'a, T> {
        MutexGuard { watched, inner }
    }
}

impl<T: ?Sized> Drop for MutexGuard<'_, T> {
    #[inline]
    fn drop(&mut self) {
        self.watched.released();
    }
}

impl<T: ?Sized> Deref for MutexGuard<'_, T> {
    type Target = T;
    #[inline]
    fn deref(&self) -> &T {
        &self.inner
    }
}

impl<T: ?Sized> DerefMut for MutexGuard<'_, T> {
    #[inline]
    fn deref_mut(&mut self) -> &mut T {
        &mut self.inner
    }
}

impl<T: ?Sized + fmt::Debug> fmt::Debug for MutexGuard<'_, T> {
    fn fmt(&self, f: &mut fmt::Formatter<'_>) -> fmt::Result {
        self.inner.fmt(f)
    }
}

impl<T: ?Sized + fmt::Display> fmt::Display for MutexGuard<'_, T> {
    fn fmt(&self, f: &mut fmt::Formatter<'_>) -> fmt::Result {
        self.inner.fmt(f)
    }
}
