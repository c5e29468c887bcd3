//! The locks of `std::sync`, which tell a recorder what is done with them. `use std::sync::Mutex` becomes
//! `use witness::Mutex`, and a program that runs under `record` has its lock order reversals reported: a possible
//! deadlock, before it happens, by any two threads at any time.
//!
//! ```
//! use witness::Mutex;
//!
//! static ACCOUNTS: Mutex<Vec<u64>> = Mutex::new(Vec::new());
//!
//! ACCOUNTS.lock().unwrap().push(1);
//! assert_eq!(ACCOUNTS.lock().unwrap().len(), 1);
//! ```
//!
//! All signatures are std's, with its poisoning, and each lock does what std's does. Places are those of the calls
//! (`#[track_caller]`), so the program needs no debug information. A lock's type is its Rust type and the place of its
//! `new`: `Mutex<Vec<u64>> (bank.rs:3:20)`. Where no recorder is loaded, each call is a test of a pointer.
//!
//! Any other lock is told by a [`Watched`] beside it; [`raw_mutex!`] and [`raw_rwlock!`] do that for those of `lock_api`. A
//! program may listen itself, by [`set_hook`].
//!
//! What std has unstable isn't here: `ReentrantLock`, `MappedMutexGuard` and its kin.

#![warn(missing_docs)]

mod condvar;
mod hook;
mod lazy;
mod mutex;
mod once;
mod raw;
mod recorder;
mod rwlock;
mod watched;

pub use condvar::Condvar;
pub use hook::{set_hook, Hook};
pub use lazy::LazyLock;
pub use mutex::{Mutex, MutexGuard};
pub use once::{Once, OnceLock};
pub use rwlock::{RwLock, RwLockReadGuard, RwLockWriteGuard};
pub use watched::{Kind, Mode, Watched};

pub use std::sync::{
    atomic, mpsc, Arc, Barrier, BarrierWaitResult, LockResult, OnceState, PoisonError, TryLockError, TryLockResult,
    WaitTimeoutResult, Weak,
};

/// The guard of the one, made that of the other, poisoned or not.
fn wrapped<G, W>(result: LockResult<G>, wrap: impl FnOnce(G) -> W) -> LockResult<W> {
    match result {
        Ok(guard) => Ok(wrap(guard)),
        Err(poisoned) => Err(PoisonError::new(wrap(poisoned.into_inner()))),
    }
}

/// As `wrapped`, of a try.
fn wrapped_try<G, W>(result: TryLockResult<G>, wrap: impl FnOnce(G) -> W) -> TryLockResult<W> {
    match result {
        Ok(guard) => Ok(wrap(guard)),
        Err(TryLockError::Poisoned(poisoned)) => {
            Err(TryLockError::Poisoned(PoisonError::new(wrap(poisoned.into_inner()))))
        }
        Err(TryLockError::WouldBlock) => Err(TryLockError::WouldBlock),
    }
}
