//! `std::sync::LazyLock`, watched.

use crate::OnceLock;
use std::cell::Cell;
use std::fmt;
use std::marker::PhantomData;
use std::ops::Deref;
use std::panic::{RefUnwindSafe, UnwindSafe};

/// The name of its type, in which the function has no place.
mod names {
    pub struct LazyLock<T>(super::PhantomData<T>);
}

/// [`std::sync::LazyLock`], which tells what is done with it.
///
/// ```
/// static NAMES: witness::LazyLock<Vec<&str>> = witness::LazyLock::new(|| vec!["a", "b"]);
/// assert_eq!(NAMES.len(), 2);
/// ```
/// ```compile_fail,E0277
/// fn is_sync<T: Sync>(_: T) {}
/// is_sync(witness::LazyLock::new(|| std::cell::Cell::new(1)));
/// ```
pub struct LazyLock<T, F = fn() -> T> {
    value: OnceLock<T>,
    function: Cell<Option<F>>,
}

// SAFETY: the function is taken by the one thread that initialises, which may be another one than has made it.
unsafe impl<T: Sync + Send, F: Send> Sync for LazyLock<T, F> {}

impl<T: RefUnwindSafe + UnwindSafe, F: UnwindSafe> RefUnwindSafe for LazyLock<T, F> {}
impl<T: UnwindSafe, F: UnwindSafe> UnwindSafe for LazyLock<T, F> {}

impl<T, F: FnOnce() -> T> LazyLock<T, F> {
    /// As [`std::sync::LazyLock::new`].
    #[track_caller]
    #[inline]
    pub const fn new(function: F) -> LazyLock<T, F> {
        LazyLock { value: OnceLock::named::<names::LazyLock<T>>(), function: Cell::new(Some(function)) }
    }

    /// As [`std::sync::LazyLock::force`].
    #[track_caller]
    #[inline]
    pub fn force(this: &LazyLock<T, F>) -> &T {
        this.value.get_or_init(|| match this.function.take() {
            Some(function) => function(),
            None => panic!("LazyLock instance has previously been poisoned"),
        })
    }

    /// As [`std::sync::LazyLock::force`], of one that nobody shares.
    #[track_caller]
    pub fn force_mut(this: &mut LazyLock<T, F>) -> &mut T {
        LazyLock::force(this);
        this.value.get_mut().unwrap_or_else(|| unreachable!())
    }

    /// The value, where it was made.
    pub fn get(this: &LazyLock<T, F>) -> Option<&T> {
        this.value.get()
    }

    /// The value of one that nobody shares, where it was made.
    pub fn get_mut(this: &mut LazyLock<T, F>) -> Option<&mut T> {
        this.value.get_mut()
    }
}

impl<T, F: FnOnce() -> T> Deref for LazyLock<T, F> {
    type Target = T;
    #[track_caller]
    #[inline]
    fn deref(&self) -> &T {
        LazyLock::force(self)
    }
}

impl<T: Default> Default for LazyLock<T> {
    #[track_caller]
    fn default() -> LazyLock<T> {
        LazyLock::new(T::default)
    }
}

impl<T: fmt::Debug, F> fmt::Debug for LazyLock<T, F> {
    fn fmt(&self, f: &mut fmt::Formatter<'_>) -> fmt::Result {
        let mut shown = f.debug_tuple("LazyLock");
        match self.value.get() {
            Some(value) => shown.field(value),
            None => shown.field(&format_args!("<uninit>")),
        };
        shown.finish()
    }
}
