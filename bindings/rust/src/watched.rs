//! What stands beside a lock and tells of it.

use crate::hook::{hook, Hook};
use std::any::type_name;
use std::fmt::{self, Write};
use std::panic::Location;
use std::sync::atomic::{AtomicUsize, Ordering};

/// What a lock is.
#[derive(Clone, Copy, Debug, PartialEq, Eq)]
pub enum Kind {
    /// One thread holds it.
    Mutex,
    /// One thread holds it, or several that only read.
    RwLock,
}

/// How it is asked for.
#[derive(Clone, Copy, Debug, PartialEq, Eq)]
pub enum Mode {
    /// By one that reads, of a lock for readers and writers.
    Shared,
    /// In any other way.
    Exclusive,
}

/// Tells what is done with a lock that it stands in. A lock of one's own has one as a field:
///
/// ```
/// use std::sync::atomic::{AtomicBool, Ordering::{Acquire, Release}};
/// use witness::{Kind, Mode, Watched};
///
/// struct Spin {
///     watched: Watched,
///     held: AtomicBool,
/// }
///
/// impl Spin {
///     #[track_caller]
///     const fn new() -> Spin {
///         Spin { watched: Watched::new::<Spin>(Kind::Mutex), held: AtomicBool::new(false) }
///     }
///     #[track_caller]
///     fn lock(&self) {
///         self.watched.asked(Mode::Exclusive);
///         while self.held.swap(true, Acquire) {
///             std::hint::spin_loop();
///         }
///         self.watched.acquired();
///     }
///     fn unlock(&self) {
///         self.watched.released();
///         self.held.store(false, Release);
///     }
/// }
///
/// let spin = Spin::new();
/// spin.lock();
/// spin.unlock();
/// ```
///
/// Each `asked` is followed by `acquired` or `gave_up` of the same thread; what the thread does with other locks in
/// between isn't recorded.
pub struct Watched {
    /// 0 before its first use; `NOBODY` where there is nobody to be told of it.
    number: AtomicUsize,
    kind: Kind,
    place: &'static Location<'static>,
    /// None where the place of the first use is its type.
    name: Option<fn() -> &'static str>,
}

/// This is looked at in the lock itself, beside what its call needs in any case.
const NOBODY: usize = usize::MAX;

impl Watched {
    /// For a lock of the type `L`. That and the place of this call are the type that orders hold for.
    #[track_caller]
    #[inline]
    pub const fn new<L: ?Sized>(kind: Kind) -> Watched {
        Watched { number: AtomicUsize::new(0), kind, place: Location::caller(), name: Some(type_name::<L>) }
    }

    /// For a lock whose place says nothing, as that of a constant. The place of its first use stands for its type.
    #[track_caller]
    #[inline]
    pub const fn unnamed(kind: Kind) -> Watched {
        Watched { number: AtomicUsize::new(0), kind, place: Location::caller(), name: None }
    }

    /// Before the thread may wait for the lock.
    #[track_caller]
    #[inline]
    pub fn asked(&self, mode: Mode) {
        self.asked_from(mode, Location::caller());
    }

    /// The lock's number, 0 where there is nobody to be told.
    #[inline(always)]
    pub(crate) fn asked_from(&self, mode: Mode, place: &'static Location<'static>) -> usize {
        match self.is_alone() {
            true => 0,
            false => self.tell_asked(mode, place),
        }
    }

    #[cold]
    #[inline(never)]
    fn tell_asked(&self, mode: Mode, place: &'static Location<'static>) -> usize {
        let Some((hook, lock)) = self.told() else { return 0 };
        hook.asked(lock, self.kind, mode, place);
        lock
    }

    /// Whether it is known that there is nobody to be told.
    #[inline(always)]
    pub(crate) fn is_alone(&self) -> bool {
        self.number.load(Ordering::Relaxed) == NOBODY
    }

    /// When the thread has got what it asked for.
    #[inline]
    pub fn acquired(&self) {
        tell_acquired(self.number.load(Ordering::Relaxed));
    }

    /// When it asks for it no longer, and hasn't got it.
    #[inline]
    pub fn gave_up(&self) {
        tell(self.number.load(Ordering::Relaxed), |hook, lock| hook.gave_up(lock));
    }

    /// When the thread has got the lock without waiting.
    #[track_caller]
    #[inline]
    pub fn tried(&self, mode: Mode) {
        self.tried_from(mode, Location::caller());
    }

    /// As `asked_from`.
    #[inline(always)]
    pub(crate) fn tried_from(&self, mode: Mode, place: &'static Location<'static>) -> usize {
        match self.is_alone() {
            true => 0,
            false => self.tell_tried(mode, place),
        }
    }

    #[cold]
    #[inline(never)]
    fn tell_tried(&self, mode: Mode, place: &'static Location<'static>) -> usize {
        let Some((hook, lock)) = self.told() else { return 0 };
        hook.tried(lock, self.kind, mode, place);
        lock
    }

    /// Before the thread releases the lock.
    #[inline]
    pub fn released(&self) {
        tell_released(self.number.load(Ordering::Relaxed));
    }

    /// The lock's number, which is told of now if it wasn't. Where several threads are first, one of them wins.
    fn told(&self) -> Option<(&'static dyn Hook, usize)> {
        let Some(hook) = hook() else {
            self.number.store(NOBODY, Ordering::Relaxed);
            return None;
        };
        let known = self.number.load(Ordering::Acquire);
        if known != 0 {
            return Some((hook, known));
        }
        let lock = hook.number();
        self.tell_made(hook, lock);
        match self.number.compare_exchange(0, lock, Ordering::AcqRel, Ordering::Acquire) {
            Ok(_) => Some((hook, lock)),
            Err(other) => {
                hook.destroyed(lock);
                Some((hook, other))
            }
        }
    }

    fn tell_made(&self, hook: &'static dyn Hook, lock: usize) {
        if let Some(name) = self.name {
            let mut label = Label::default();
            label.write(name(), self.place);
            hook.made(lock, self.kind, self.place, label.text());
        }
    }
}

/// Tells of a lock that has a number.
#[inline(always)]
fn tell(lock: usize, what: fn(&'static dyn Hook, usize)) {
    if lock != 0 && lock != NOBODY {
        tell_somebody(lock, what);
    }
}

#[cold]
#[inline(never)]
fn tell_somebody(lock: usize, what: fn(&'static dyn Hook, usize)) {
    if let Some(hook) = hook() {
        what(hook, lock);
    }
}

/// The thread has got the lock of that number.
#[inline(always)]
pub(crate) fn tell_acquired(lock: usize) {
    tell(lock, |hook, lock| hook.acquired(lock));
}

/// The thread is about to release the lock of that number.
#[inline(always)]
fn tell_released(lock: usize) {
    tell(lock, |hook, lock| hook.released(lock));
}

impl Drop for Watched {
    #[inline]
    fn drop(&mut self) {
        tell(*self.number.get_mut(), |hook, lock| hook.destroyed(lock));
    }
}

impl fmt::Debug for Watched {
    fn fmt(&self, f: &mut fmt::Formatter<'_>) -> fmt::Result {
        f.debug_struct("Watched").field("kind", &self.kind).field("place", &self.place).finish_non_exhaustive()
    }
}

/// As long as a name of a trace may be.
const LABEL_MOST: usize = 63;

/// The name of a type of locks.
struct Label {
    bytes: [u8; LABEL_MOST],
    length: usize,
}

impl Default for Label {
    fn default() -> Label {
        Label { bytes: [0; LABEL_MOST], length: 0 }
    }
}

impl Label {
    /// `Mutex<Vec<u64>> (bank.rs:3:20)`. What is too long is cut in the type, not in the place.
    fn write(&mut self, name: &str, place: &Location<'_>) {
        let mut tail = Label::default();
        let file = place.file().rsplit('/').next().unwrap_or_default();
        // A longer one fails and is cut there.
        let _ = write!(tail, " ({file}:{}:{})", place.line(), place.column());
        self.shorten(name, LABEL_MOST - tail.length);
        let _ = self.write_str(tail.text());
    }

    /// The type's name, without the modules that its words are of.
    fn shorten(&mut self, name: &str, most: usize) {
        let is_path = |letter: char| letter.is_alphanumeric() || "_:{}#".contains(letter);
        let mut rest = name;
        while let Some(first) = rest.chars().next() {
            let length = match is_path(first) {
                true => rest.find(|letter| !is_path(letter)).unwrap_or(rest.len()),
                false => first.len_utf8(),
            };
            let word = rest[..length].rsplit("::").next().unwrap_or_default();
            if self.length + word.len() > most || self.write_str(word).is_err() {
                return;
            }
            rest = &rest[length..];
        }
    }

    fn text(&self) -> &str {
        std::str::from_utf8(&self.bytes[..self.length]).unwrap_or("?")
    }
}

impl Write for Label {
    fn write_str(&mut self, text: &str) -> fmt::Result {
        for letter in text.chars() {
            let end = self.length + letter.len_utf8();
            if end > LABEL_MOST {
                return Err(fmt::Error);
            }
            letter.encode_utf8(&mut self.bytes[self.length..end]);
            self.length = end;
        }
        Ok(())
    }
}

#[cfg(test)]
mod tests {
    use super::*;

    fn short(name: &str, most: usize) -> String {
        let mut label = Label::default();
        label.shorten(name, most);
        label.text().to_owned()
    }

    #[test]
    fn modules_are_left_out() {
        assert_eq!(short("witness::mutex::Mutex<alloc::vec::Vec<(a::b::C, &str)>>", 63), "Mutex<Vec<(C, &str)>>");
        assert_eq!(
            short("m::Map<[core::cell::Cell<u8>; 4], dyn core::ops::Fn() -> x::Y>", 63),
            "Map<[Cell<u8>; 4], dyn Fn() -> Y>"
        );
        assert_eq!(short("i32", 63), "i32");
    }

    #[test]
    fn what_is_too_long_is_cut_in_the_type() {
        let mut label = Label::default();
        let place = Location::caller();
        label.write(&format!("Mutex<{}u8>", "a::Abcd, ".repeat(30)), place);
        let tail = format!(" (watched.rs:{}:{})", place.line(), place.column());
        assert!(label.text().len() > 56 && label.text().len() <= 63);
        assert!(label.text().starts_with("Mutex<Abcd, Abcd, ") && label.text().ends_with(&tail));
    }
}
