//! Four threads that contend for locks in one order: a mutex, one for readers and writers, and a spin lock of its own.

use std::sync::atomic::{AtomicBool, AtomicU32, Ordering};
use std::thread;
use witness::{Condvar, Kind, Mode, Mutex, RwLock, Watched};

struct Spin {
    watched: Watched,
    held: AtomicBool,
}

impl Spin {
    #[track_caller]
    const fn new() -> Spin {
        Spin { watched: Watched::new::<Spin>(Kind::Mutex), held: AtomicBool::new(false) }
    }

    #[track_caller]
    fn lock(&self) {
        self.watched.asked(Mode::Exclusive);
        while self.held.swap(true, Ordering::Acquire) {
            thread::yield_now();
        }
        self.watched.acquired();
    }

    fn unlock(&self) {
        self.watched.released();
        self.held.store(false, Ordering::Release);
    }
}

static SPIN: Spin = Spin::new();
static UNDER_SPIN: AtomicU32 = AtomicU32::new(0);

fn work(sum: &Mutex<u32>, seen: &RwLock<u32>, turns: &Condvar) {
    for turn in 0..2000 {
        let mut guard = sum.lock().unwrap();
        *guard += 1;
        if turn % 16 == 0 {
            turns.notify_all();
            guard = turns.wait_timeout(guard, std::time::Duration::from_micros(10)).unwrap().0;
        }
        if turn % 4 == 0 {
            *seen.write().unwrap() += 1;
        } else {
            assert!(*seen.read().unwrap() <= *guard);
        }
        SPIN.lock();
        UNDER_SPIN.fetch_add(1, Ordering::Relaxed);
        SPIN.unlock();
    }
}

fn main() {
    let (sum, seen, turns) = (Mutex::new(0), RwLock::new(0), Condvar::new());
    thread::scope(|scope| {
        for _ in 0..4 {
            scope.spawn(|| work(&sum, &seen, &turns));
        }
    });
    println!("{} {} {}", sum.lock().unwrap(), seen.read().unwrap(), UNDER_SPIN.load(Ordering::Relaxed));
}
