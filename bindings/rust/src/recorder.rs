//! The recorder's own functions, as recorder/witness.h declares them, where it is loaded.

use crate::{Hook, Kind, Mode};
use std::ffi::{c_char, c_int, c_uint, c_void, CStr};
use std::mem;
use std::panic::Location;
use std::sync::atomic::{AtomicU64, Ordering};

/// The recorder keeps as much of a name.
const NAME_MOST: usize = 200;
/// Places whose number is known.
const KNOWN: usize = 4096;

pub(crate) struct Recorder {
    handle: unsafe extern "C" fn() -> *const c_void,
    place: unsafe extern "C" fn(*const c_char, c_uint, *const c_char) -> c_uint,
    made: unsafe extern "C" fn(*const c_void, c_int, c_uint, *const c_char),
    asked: unsafe extern "C" fn(*const c_void, c_int, c_uint),
    acquired: unsafe extern "C" fn(*const c_void),
    gave_up: unsafe extern "C" fn(*const c_void),
    tried: unsafe extern "C" fn(*const c_void, c_int, c_uint),
    released: unsafe extern "C" fn(*const c_void),
    destroyed: unsafe extern "C" fn(*const c_void),
}

#[cfg(target_os = "linux")]
fn symbol(name: &CStr) -> Option<*mut c_void> {
    extern "C" {
        fn dlsym(object: *mut c_void, name: *const c_char) -> *mut c_void;
    }
    // SAFETY: NULL stands for all objects, and the name ends in a zero.
    let found = unsafe { dlsym(std::ptr::null_mut(), name.as_ptr()) };
    (!found.is_null()).then_some(found)
}

#[cfg(not(target_os = "linux"))]
fn symbol(_: &CStr) -> Option<*mut c_void> {
    None
}

/// The function of that name in any object.
///
/// # Safety
/// `F` is the function's own type.
unsafe fn function<F>(name: &CStr) -> Option<F> {
    // SAFETY: a function's type is as large as a pointer.
    symbol(name).map(|found| unsafe { mem::transmute_copy(&found) })
}

impl Recorder {
    pub(crate) fn find() -> Option<Recorder> {
        // SAFETY: the functions of these names are of the fields' types (recorder/witness.h).
        unsafe {
            Some(Recorder {
                handle: function(c"witness_recorder_handle")?,
                place: function(c"witness_recorder_place")?,
                made: function(c"witness_recorder_made_at")?,
                asked: function(c"witness_recorder_asked_at")?,
                acquired: function(c"witness_recorder_acquired")?,
                gave_up: function(c"witness_recorder_gave_up")?,
                tried: function(c"witness_recorder_tried_at")?,
                released: function(c"witness_recorder_released")?,
                destroyed: function(c"witness_recorder_destroyed")?,
            })
        }
    }

    /// The place's number, by the address that its name has in the program. Of a place in `lock_api`, which doesn't pass its
    /// caller's on, it is 0: then the recorder goes by the addresses of the callers.
    fn number_of(&self, place: &'static Location<'static>) -> c_uint {
        if place.file().contains("/lock_api-") || place.file().contains("lock_api/src/") {
            return 0;
        }
        static NUMBERS: [AtomicU64; KNOWN] = [const { AtomicU64::new(0) }; KNOWN];
        let address = std::ptr::from_ref(place) as u64;
        let known = &NUMBERS[(address.wrapping_mul(0x9e37_79b9_7f4a_7c15) >> 32) as usize % KNOWN];
        let there = known.load(Ordering::Relaxed);
        // An address has 48 bits at most, and a number less 1 has 16.
        if there >> 16 == address {
            return (there & 0xffff) as c_uint + 1;
        }
        let mut file = [0; NAME_MOST + 1];
        let name = place.file().as_bytes();
        copy(&name[name.len().saturating_sub(NAME_MOST)..], &mut file);
        // SAFETY: both names end in a zero.
        let number = unsafe { (self.place)(file.as_ptr().cast(), place.line(), c"".as_ptr()) };
        if number > 0 && number <= 1 << 16 && address < 1 << 48 {
            known.store(address << 16 | u64::from(number - 1), Ordering::Relaxed);
        }
        number
    }
}

/// The name, as far as it has room before a zero.
fn copy(name: &[u8], to: &mut [u8; NAME_MOST + 1]) {
    let length = name.len().min(NAME_MOST);
    to[..length].copy_from_slice(&name[..length]);
}

fn how(kind: Kind, mode: Mode) -> c_int {
    match (kind, mode) {
        (Kind::Mutex, _) => 0,
        (Kind::RwLock, Mode::Shared) => 1,
        (Kind::RwLock, Mode::Exclusive) => 2,
    }
}

// SAFETY of all calls: a lock is a number that `handle` gave, and is never read as an address.
impl Hook for Recorder {
    fn number(&self) -> usize {
        unsafe { (self.handle)() as usize }
    }
    fn made(&self, lock: usize, kind: Kind, place: &'static Location<'static>, label: &str) {
        let mut name = [0; NAME_MOST + 1];
        copy(label.as_bytes(), &mut name);
        let from = self.number_of(place);
        unsafe { (self.made)(lock as *const c_void, how(kind, Mode::Exclusive), from, name.as_ptr().cast()) }
    }
    fn asked(&self, lock: usize, kind: Kind, mode: Mode, place: &'static Location<'static>) {
        let from = self.number_of(place);
        unsafe { (self.asked)(lock as *const c_void, how(kind, mode), from) }
    }
    fn acquired(&self, lock: usize) {
        unsafe { (self.acquired)(lock as *const c_void) }
    }
    fn gave_up(&self, lock: usize) {
        unsafe { (self.gave_up)(lock as *const c_void) }
    }
    fn tried(&self, lock: usize, kind: Kind, mode: Mode, place: &'static Location<'static>) {
        let from = self.number_of(place);
        unsafe { (self.tried)(lock as *const c_void, how(kind, mode), from) }
    }
    fn released(&self, lock: usize) {
        unsafe { (self.released)(lock as *const c_void) }
    }
    fn destroyed(&self, lock: usize) {
        unsafe { (self.destroyed)(lock as *const c_void) }
    }
}
