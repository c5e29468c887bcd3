//! `std::sync::RwLock`, watched.

use crate::watched::tell_acquired;
use crate::{wrapped, wrapped_try, Kind, LockResult, Mode, TryLockResult, Watched};
use std::fmt;
#[cfg(feature = "recent")]
use std::mem::ManuallyDrop;
use std::ops::{Deref, DerefMut};
use std::panic::Location;
use std::sync;

/// [`std::sync::RwLock`], which tells what is done with it.
///
/// ```compile_fail,E0277
/// fn is_sync<T: Sync>(_: T) {}
/// is_sync(witness::RwLock::new(std::cell::Cell::new(1)));
/// ```
pub struct RwLock<T: ?Sized> {
    watched: Watched,
    inner: sync::RwLock<T>,
}

/// [`std::sync::RwLockReadGuard`]; one reader fewer when it is dropped.
///
/// ```compile_fail,E0277
/// fn is_send<T: Send>(_: T) {}
/// is_send(witness::RwLock::new(1).read());
/// ```
#[must_use = "if unused the RwLock will immediately unlock"]
pub struct RwLockReadGuard<'a, T: ?Sized + 'a> {
    watched: &'a Watched,
    inner: sync::RwLockReadGuard<'a, T>,
}

/// [`std::sync::RwLockWriteGuard`]; the lock is released when it is dropped.
///
/// ```compile_fail,E0277
/// fn is_send<T: Send>(_: T) {}
/// is_send(witness::RwLock::new(1).write());
/// ```
#[must_use = "if unused the RwLock will immediately unlock"]
pub struct RwLockWriteGuard<'a, T: ?Sized + 'a> {
    watched: &'a Watched,
    inner: sync::RwLockWriteGuard<'a, T>,
}

impl<T> RwLock<T> {
    /// As [`std::sync::RwLock::new`]. The type `T` and the place of this call are the type that orders hold for.
    #[track_caller]
    #[inline]
    pub const fn new(value: T) -> RwLock<T> {
        RwLock { watched: Watched::new::<RwLock<T>>(Kind::RwLock), inner: sync::RwLock::new(value) }
    }

    /// As [`std::sync::RwLock::into_inner`].
    pub fn into_inner(self) -> LockResult<T> {
        self.inner.into_inner()
    }
}

impl<T: ?Sized> RwLock<T> {
    /// As [`std::sync::RwLock::read`].
    #[track_caller]
    #[inline]
    pub fn read(&self) -> LockResult<RwLockReadGuard<'_, T>> {
        let told = self.watched.asked_from(Mode::Shared, Location::caller());
        let result = self.inner.read();
        tell_acquired(told);
        wrapped(result, |inner| RwLockReadGuard { watched: &self.watched, inner })
    }

    /// As [`std::sync::RwLock::try_read`].
    #[track_caller]
    #[inline]
    pub fn try_read(&self) -> TryLockResult<RwLockReadGuard<'_, T>> {
        let place = Location::caller();
        wrapped_try(self.inner.try_read(), |inner| {
            self.watched.tried_from(Mode::Shared, place);
            RwLockReadGuard { watched: &self.watched, inner }
        })
    }

    /// As [`std::sync::RwLock::write`].
    #[track_caller]
    #[inline]
    pub fn write(&self) -> LockResult<RwLockWriteGuard<'_, T>> {
        let told = self.watched.asked_from(Mode::Exclusive, Location::caller());
        let result = self.inner.write();
        tell_acquired(told);
        wrapped(result, |inner| RwLockWriteGuard { watched: &self.watched, inner })
    }

    /// As [`std::sync::RwLock::try_write`].
    #[track_caller]
    #[inline]
    pub fn try_write(&self) -> TryLockResult<RwLockWriteGuard<'_, T>> {
        let place = Location::caller();
        wrapped_try(self.inner.try_write(), |inner| {
            self.watched.tried_from(Mode::Exclusive, place);
            RwLockWriteGuard { watched: &self.watched, inner }
        })
    }

    /// As [`std::sync::RwLock::is_poisoned`].
    pub fn is_poisoned(&self) -> bool {
        self.inner.is_poisoned()
    }

    /// As [`std::sync::RwLock::clear_poison`].
    pub fn clear_poison(&self) {
        self.inner.clear_poison();
    }

    /// As [`std::sync::RwLock::get_mut`].
    pub fn get_mut(&mut self) -> LockResult<&mut T> {
        self.inner.get_mut()
    }
}

#[cfg(feature = "recent")]
#[allow(clippy::incompatible_msrv)]
impl<'a, T: ?Sized> RwLockWriteGuard<'a, T> {
    /// As [`std::sync::RwLockWriteGuard::downgrade`]. It is told as a release and a try that succeeds.
    #[track_caller]
    pub fn downgrade(guard: RwLockWriteGuard<'a, T>) -> RwLockReadGuard<'a, T> {
        let this = ManuallyDrop::new(guard);
        this.watched.released();
        // SAFETY: it is read once, since `this` is never dropped.
        let inner = sync::RwLockWriteGuard::downgrade(unsafe { std::ptr::read(&this.inner) });
        this.watched.tried_from(Mode::Shared, Location::caller());
        RwLockReadGuard { watched: this.watched, inner }
    }
}

impl<T> From<T> for RwLock<T> {
    #[track_caller]
    fn from(value: T) -> RwLock<T> {
        RwLock::new(value)
    }
}

impl<T: Default> Default for RwLock<T> {
    #[track_caller]
    fn default() -> RwLock<T> {
        RwLock::new(T::default())
    }
}

impl<T: ?Sized + fmt::Debug> fmt::Debug for RwLock<T> {
    fn fmt(&self, f: &mut fmt::Formatter<'_>) -> fmt::Result {
        self.inner.fmt(f)
    }
}

impl<T: ?Sized> Drop for RwLockReadGuard<'_, T> {
    #[inline]
    fn drop(&mut self) {
        self.watched.released();
    }
}

impl<T: ?Sized> Drop for RwLockWriteGuard<'_, T> {
    #[inline]
    fn drop(&mut self) {
        self.watched.released();
    }
}

impl<T: ?Sized> Deref for RwLockReadGuard<'_, T> {
    type Target = T;
    #[inline]
    fn deref(&self) -> &T {
        &self.inner
    }
}

impl<T: ?Sized> Deref for RwLockWriteGuard<'_, T> {
    type Target = T;
    #[inline]
    fn deref(&self) -> &T {
        &self.inner
    }
}

impl<T: ?Sized> DerefMut for RwLockWriteGuard<'_, T> {
    #[inline]
    fn deref_mut(&mut self) -> &mut T {
        &mut self.inner
    }
}

macro_rules! shown {
    ($($guard:ident)*) => {$(
        impl<T: ?Sized + fmt::Debug> fmt::Debug for $guard<'_, T> {
            fn fmt(&self, f: &mut fmt::Formatter<'_>) -> fmt::Result {
                self.inner.fmt(f)
            }
        }

        impl<T: ?Sized + fmt::Display> fmt::Display for $guard<'_, T> {
            fn fmt(&self, f: &mut fmt::Formatter<'_>) -> fmt::Result {
                self.inner.fmt(f)
            }
        }
    )*};
}

shown!(RwLockReadGuard RwLockWriteGuard);
