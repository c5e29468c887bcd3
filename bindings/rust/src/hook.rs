//! Who is told: the recorder where it is loaded, a hook of the program's own, or nobody.

use crate::recorder::Recorder;
use crate::{Kind, Mode};
use std::panic::Location;
use std::ptr;
use std::sync::atomic::{AtomicPtr, Ordering};
use std::sync::OnceLock;

/// What is told of locks. Each call is made by the thread that does it. No method may use a lock of this crate.
pub trait Hook: Sync {
    /// A lock's number, which it keeps wherever it is moved to. It isn't 0, and no other lock has it.
    fn number(&self) -> usize;
    /// A lock that was made there is used for the first time. LABEL names its type.
    fn made(&self, lock: usize, kind: Kind, place: &'static Location<'static>, label: &str);
    /// The thread asks for the lock, and may wait for it.
    fn asked(&self, lock: usize, kind: Kind, mode: Mode, place: &'static Location<'static>);
    /// It has got what it asked for.
    fn acquired(&self, lock: usize);
    /// It asks for it no longer, and hasn't got it.
    fn gave_up(&self, lock: usize);
    /// The thread has got the lock without waiting.
    fn tried(&self, lock: usize, kind: Kind, mode: Mode, place: &'static Location<'static>);
    /// The thread is about to release the lock.
    fn released(&self, lock: usize);
    /// The lock is no more.
    fn destroyed(&self, lock: usize);
}

/// NULL where there is nobody to be told, and in the beginning `UNKNOWN`.
static HOOK: AtomicPtr<&'static dyn Hook> = AtomicPtr::new(ptr::addr_of!(UNKNOWN).cast_mut());

struct Unknown;

static UNKNOWN: &'static dyn Hook = &Unknown;

impl Hook for Unknown {
    fn number(&self) -> usize {
        1
    }
    fn made(&self, _: usize, _: Kind, _: &'static Location<'static>, _: &str) {}
    fn asked(&self, _: usize, _: Kind, _: Mode, _: &'static Location<'static>) {}
    fn acquired(&self, _: usize) {}
    fn gave_up(&self, _: usize) {}
    fn tried(&self, _: usize, _: Kind, _: Mode, _: &'static Location<'static>) {}
    fn released(&self, _: usize) {}
    fn destroyed(&self, _: usize) {}
}

/// From here on the hook is told in place of the recorder. To be called before the first lock is used: true then, and
/// the first time alone.
pub fn set_hook(hook: &'static dyn Hook) -> bool {
    static GIVEN: OnceLock<&'static dyn Hook> = OnceLock::new();
    if GIVEN.set(hook).is_err() {
        return false;
    }
    let unknown = ptr::addr_of!(UNKNOWN).cast_mut();
    let given = GIVEN.get().map_or(ptr::null_mut(), |hook| ptr::from_ref(hook).cast_mut());
    HOOK.compare_exchange(unknown, given, Ordering::AcqRel, Ordering::Acquire).is_ok()
}

/// Whom there is to tell.
#[inline(always)]
pub(crate) fn hook() -> Option<&'static dyn Hook> {
    let known = HOOK.load(Ordering::Acquire);
    if known.is_null() {
        return None;
    }
    somebody(known)
}

#[cold]
fn somebody(known: *mut &'static dyn Hook) -> Option<&'static dyn Hook> {
    static FOUND: OnceLock<Option<Recorder>> = OnceLock::new();
    static TOLD: OnceLock<&'static dyn Hook> = OnceLock::new();
    let unknown = ptr::addr_of!(UNKNOWN).cast_mut();
    if known != unknown {
        // SAFETY: it is NULL or one of the statics, which are written before it leads to them.
        return unsafe { known.as_ref() }.copied();
    }
    let found = match FOUND.get_or_init(Recorder::find) {
        Some(recorder) => ptr::from_ref(TOLD.get_or_init(|| recorder)).cast_mut(),
        None => ptr::null_mut(),
    };
    match HOOK.compare_exchange(unknown, found, Ordering::AcqRel, Ordering::Acquire) {
        // SAFETY: as above.
        Ok(_) => unsafe { found.as_ref() }.copied(),
        // SAFETY: as above.
        Err(other) => unsafe { other.as_ref() }.copied(),
    }
}
