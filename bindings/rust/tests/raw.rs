//! Raw locks of lock_api, wrapped. The traits are in the shape of lock_api 0.4, which isn't at hand without a network.

use std::panic::Location;
use std::sync::atomic::{AtomicIsize, AtomicUsize, Ordering};
use std::sync::Mutex as StdMutex;
use witness::{Hook, Kind, Mode};

pub mod lock_api {
    pub struct GuardSend;

    /// # Safety
    /// It excludes.
    pub unsafe trait RawMutex {
        const INIT: Self;
        type GuardMarker;
        fn lock(&self);
        fn try_lock(&self) -> bool;
        /// # Safety
        /// It is held.
        unsafe fn unlock(&self);
        fn is_locked(&self) -> bool;
    }

    /// # Safety
    /// It excludes.
    pub unsafe trait RawRwLock {
        const INIT: Self;
        type GuardMarker;
        fn lock_shared(&self);
        fn try_lock_shared(&self) -> bool;
        /// # Safety
        /// It is held.
        unsafe fn unlock_shared(&self);
        fn lock_exclusive(&self);
        fn try_lock_exclusive(&self) -> bool;
        /// # Safety
        /// It is held.
        unsafe fn unlock_exclusive(&self);
        fn is_locked(&self) -> bool;
        fn is_locked_exclusive(&self) -> bool;
    }
}

/// Readers, or -1 for a writer.
pub struct Spin(AtomicIsize);

impl Spin {
    fn goes(&self, from: isize, to: isize) -> bool {
        self.0.compare_exchange(from, to, Ordering::Acquire, Ordering::Relaxed).is_ok()
    }
}

unsafe impl lock_api::RawMutex for Spin {
    #[allow(clippy::declare_interior_mutable_const)]
    const INIT: Spin = Spin(AtomicIsize::new(0));
    type GuardMarker = lock_api::GuardSend;
    fn lock(&self) {
        while !self.goes(0, -1) {}
    }
    fn try_lock(&self) -> bool {
        self.goes(0, -1)
    }
    unsafe fn unlock(&self) {
        self.0.store(0, Ordering::Release);
    }
    fn is_locked(&self) -> bool {
        self.0.load(Ordering::Relaxed) != 0
    }
}

unsafe impl lock_api::RawRwLock for Spin {
    #[allow(clippy::declare_interior_mutable_const)]
    const INIT: Spin = Spin(AtomicIsize::new(0));
    type GuardMarker = lock_api::GuardSend;
    fn lock_shared(&self) {
        while !self.try_lock_shared() {}
    }
    fn try_lock_shared(&self) -> bool {
        let readers = self.0.load(Ordering::Relaxed);
        readers >= 0 && self.goes(readers, readers + 1)
    }
    unsafe fn unlock_shared(&self) {
        self.0.fetch_sub(1, Ordering::Release);
    }
    fn lock_exclusive(&self) {
        while !self.goes(0, -1) {}
    }
    fn try_lock_exclusive(&self) -> bool {
        self.goes(0, -1)
    }
    unsafe fn unlock_exclusive(&self) {
        self.0.store(0, Ordering::Release);
    }
    fn is_locked(&self) -> bool {
        self.0.load(Ordering::Relaxed) != 0
    }
    fn is_locked_exclusive(&self) -> bool {
        self.0.load(Ordering::Relaxed) < 0
    }
}

witness::raw_mutex! {
    /// A mutex.
    pub struct TracedMutex(Spin): lock_api::RawMutex;
}
witness::raw_rwlock! { struct TracedRwLock(Spin): lock_api::RawRwLock; }

struct Lines;

static TOLD: StdMutex<Vec<String>> = StdMutex::new(Vec::new());

fn tell(line: String) {
    TOLD.lock().unwrap().push(line);
}

impl Hook for Lines {
    fn number(&self) -> usize {
        static LAST: AtomicUsize = AtomicUsize::new(0);
        LAST.fetch_add(1, Ordering::Relaxed) + 1
    }
    fn made(&self, lock: usize, _: Kind, _: &'static Location<'static>, label: &str) {
        tell(format!("made {lock} {label}"));
    }
    fn asked(&self, lock: usize, kind: Kind, mode: Mode, place: &'static Location<'static>) {
        assert!(place.file().ends_with("raw.rs"));
        tell(format!("asked {lock} {kind:?} {mode:?}"));
    }
    fn acquired(&self, lock: usize) {
        tell(format!("acquired {lock}"));
    }
    fn gave_up(&self, lock: usize) {
        tell(format!("gave up {lock}"));
    }
    fn tried(&self, lock: usize, kind: Kind, mode: Mode, _: &'static Location<'static>) {
        tell(format!("tried {lock} {kind:?} {mode:?}"));
    }
    fn released(&self, lock: usize) {
        tell(format!("released {lock}"));
    }
    fn destroyed(&self, lock: usize) {
        tell(format!("destroyed {lock}"));
    }
}

#[test]
fn raw_locks_are_told() {
    assert!(witness::set_hook(&Lines));
    {
        use lock_api::RawMutex;
        let mutex = TracedMutex::INIT;
        mutex.lock();
        assert!(mutex.is_locked() && !mutex.try_lock());
        unsafe { mutex.unlock() };
        assert!(mutex.try_lock());
        unsafe { mutex.unlock() };
    }
    let told = std::mem::take(&mut *TOLD.lock().unwrap());
    let wanted =
        ["asked 1 Mutex Exclusive", "acquired 1", "released 1", "tried 1 Mutex Exclusive", "released 1", "destroyed 1"];
    assert_eq!(told, wanted);
    {
        use lock_api::RawRwLock;
        let lock = TracedRwLock::INIT;
        lock.lock_shared();
        assert!(lock.try_lock_shared() && !lock.try_lock_exclusive() && !lock.is_locked_exclusive());
        unsafe { lock.unlock_shared() };
        unsafe { lock.unlock_shared() };
        lock.lock_exclusive();
        assert!(!lock.try_lock_shared() && lock.is_locked());
        unsafe { lock.unlock_exclusive() };
        assert!(lock.try_lock_exclusive());
        unsafe { lock.unlock_exclusive() };
    }
    let wanted = [
        "asked 2 RwLock Shared",
        "acquired 2",
        "tried 2 RwLock Shared",
        "released 2",
        "released 2",
        "asked 2 RwLock Exclusive",
        "acquired 2",
        "released 2",
        "tried 2 RwLock Exclusive",
        "released 2",
        "destroyed 2",
    ];
    assert_eq!(*TOLD.lock().unwrap(), wanted);
}
