//! `std::sync::Once` and `OnceLock`, watched.
//!
//! Who initialises holds a lock meanwhile, and who comes before that is done waits for it. A call asks for it where all is
//! done by then, too: in another order of the threads' steps it would have waited.

use crate::{Kind, Mode, OnceState, Watched};
use std::fmt;
use std::panic::Location;
use std::sync;

/// The thread asks for a lock until the function is called, which it is with the lock held; or it is never called.
struct Call<'a> {
    watched: &'a Watched,
    is_over: bool,
}

impl<'a> Call<'a> {
    #[inline]
    fn begins(watched: &'a Watched, place: &'static Location<'static>) -> Call<'a> {
        watched.asked_from(Mode::Exclusive, place);
        Call { watched, is_over: false }
    }

    #[inline]
    fn runs<R>(&mut self, function: impl FnOnce() -> R) -> R {
        struct Running<'a>(&'a Watched);
        impl Drop for Running<'_> {
            fn drop(&mut self) {
                self.0.released();
            }
        }
        self.is_over = true;
        self.watched.acquired();
        let _running = Running(self.watched);
        function()
    }
}

impl Drop for Call<'_> {
    #[inline]
    fn drop(&mut self) {
        if !self.is_over {
            self.watched.gave_up();
        }
    }
}

/// [`std::sync::Once`], which tells what is done with it.
pub struct Once {
    watched: Watched,
    inner: sync::Once,
}

#[allow(clippy::new_without_default)] // std's has none
impl Once {
    /// As [`std::sync::Once::new`].
    #[track_caller]
    #[inline]
    pub const fn new() -> Once {
        Once { watched: Watched::new::<Once>(Kind::Mutex), inner: sync::Once::new() }
    }

    /// As [`std::sync::Once::call_once`].
    #[track_caller]
    #[inline]
    pub fn call_once<F: FnOnce()>(&self, function: F) {
        if self.watched.is_alone() {
            return self.inner.call_once(function);
        }
        let mut call = Call::begins(&self.watched, Location::caller());
        self.inner.call_once(|| call.runs(function));
    }

    /// As [`std::sync::Once::call_once_force`].
    #[track_caller]
    #[inline]
    pub fn call_once_force<F: FnOnce(&OnceState)>(&self, function: F) {
        let mut call = Call::begins(&self.watched, Location::caller());
        self.inner.call_once_force(|state| call.runs(|| function(state)));
    }

    /// As [`std::sync::Once::is_completed`].
    #[inline]
    pub fn is_completed(&self) -> bool {
        self.inner.is_completed()
    }

    /// As [`std::sync::Once::wait`].
    #[cfg(feature = "recent")]
    #[allow(clippy::incompatible_msrv)]
    #[track_caller]
    pub fn wait(&self) {
        let _call = Call::begins(&self.watched, Location::caller());
        self.inner.wait();
    }

    /// As [`std::sync::Once::wait_force`].
    #[cfg(feature = "recent")]
    #[allow(clippy::incompatible_msrv)]
    #[track_caller]
    pub fn wait_force(&self) {
        let _call = Call::begins(&self.watched, Location::caller());
        self.inner.wait_force();
    }
}

impl fmt::Debug for Once {
    fn fmt(&self, f: &mut fmt::Formatter<'_>) -> fmt::Result {
        self.inner.fmt(f)
    }
}

/// [`std::sync::OnceLock`], which tells what is done with it.
pub struct OnceLock<T> {
    watched: Watched,
    inner: sync::OnceLock<T>,
}

impl<T> OnceLock<T> {
    /// As [`std::sync::OnceLock::new`].
    #[track_caller]
    #[inline]
    pub const fn new() -> OnceLock<T> {
        OnceLock { watched: Watched::new::<OnceLock<T>>(Kind::Mutex), inner: sync::OnceLock::new() }
    }

    /// With that name of a type in place of its own.
    #[track_caller]
    pub(crate) const fn named<L: ?Sized>() -> OnceLock<T> {
        OnceLock { watched: Watched::new::<L>(Kind::Mutex), inner: sync::OnceLock::new() }
    }

    /// As [`std::sync::OnceLock::get`], which waits for nobody.
    #[inline]
    pub fn get(&self) -> Option<&T> {
        self.inner.get()
    }

    /// As [`std::sync::OnceLock::get_mut`].
    #[inline]
    pub fn get_mut(&mut self) -> Option<&mut T> {
        self.inner.get_mut()
    }

    /// As [`std::sync::OnceLock::wait`].
    #[cfg(feature = "recent")]
    #[allow(clippy::incompatible_msrv)]
    #[track_caller]
    pub fn wait(&self) -> &T {
        let _call = Call::begins(&self.watched, Location::caller());
        self.inner.wait()
    }

    /// As [`std::sync::OnceLock::set`].
    #[track_caller]
    pub fn set(&self, value: T) -> Result<(), T> {
        let mut given = Some(value);
        let mut call = Call::begins(&self.watched, Location::caller());
        self.inner.get_or_init(|| call.runs(|| given.take().unwrap_or_else(|| unreachable!())));
        given.map_or(Ok(()), Err)
    }

    /// As [`std::sync::OnceLock::get_or_init`].
    #[track_caller]
    #[inline]
    pub fn get_or_init<F: FnOnce() -> T>(&self, function: F) -> &T {
        if self.watched.is_alone() {
            return self.inner.get_or_init(function);
        }
        let mut call = Call::begins(&self.watched, Location::caller());
        self.inner.get_or_init(|| call.runs(function))
    }

    /// As [`std::sync::OnceLock::into_inner`].
    #[inline]
    pub fn into_inner(self) -> Option<T> {
        self.inner.into_inner()
    }

    /// As [`std::sync::OnceLock::take`].
    #[inline]
    pub fn take(&mut self) -> Option<T> {
        self.inner.take()
    }
}

impl<T> Default for OnceLock<T> {
    #[track_caller]
    fn default() -> OnceLock<T> {
        OnceLock::new()
    }
}

impl<T: fmt::Debug> fmt::Debug for OnceLock<T> {
    fn fmt(&self, f: &mut fmt::Formatter<'_>) -> fmt::Result {
        self.inner.fmt(f)
    }
}

impl<T: Clone> Clone for OnceLock<T> {
    #[track_caller]
    fn clone(&self) -> OnceLock<T> {
        match self.get() {
            Some(value) => OnceLock::from(value.clone()),
            None => OnceLock::new(),
        }
    }
}

impl<T> From<T> for OnceLock<T> {
    #[track_caller]
    fn from(value: T) -> OnceLock<T> {
        OnceLock { watched: Watched::new::<OnceLock<T>>(Kind::Mutex), inner: sync::OnceLock::from(value) }
    }
}

impl<T: PartialEq> PartialEq for OnceLock<T> {
    fn eq(&self, other: &OnceLock<T>) -> bool {
        self.inner == other.inner
    }
}

impl<T: Eq> Eq for OnceLock<T> {}
