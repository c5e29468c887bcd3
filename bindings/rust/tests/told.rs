//! What is told of each call, to a hook of the program's own. Each test takes the lines that its own thread has told.

use std::cell::RefCell;
use std::panic::{self, AssertUnwindSafe, Location};
use std::sync::atomic::{AtomicUsize, Ordering};
use std::sync::Once as StdOnce;
use std::thread;
use std::time::Duration;
use witness::{Condvar, Hook, Kind, LazyLock, Mode, Mutex, Once, OnceLock, RwLock, TryLockError};

struct Lines;

thread_local! {
    static TOLD: RefCell<Vec<String>> = const { RefCell::new(Vec::new()) };
}

fn tell(line: String) {
    TOLD.with_borrow_mut(|told| told.push(line));
}

impl Hook for Lines {
    fn number(&self) -> usize {
        static LAST: AtomicUsize = AtomicUsize::new(0);
        LAST.fetch_add(1, Ordering::Relaxed) + 1
    }
    fn made(&self, _: usize, kind: Kind, _: &'static Location<'static>, label: &str) {
        tell(format!("made {kind:?} {label}"));
    }
    fn asked(&self, _: usize, _: Kind, mode: Mode, place: &'static Location<'static>) {
        tell(format!("asked {mode:?} {}", place.line()));
    }
    fn acquired(&self, _: usize) {
        tell("acquired".into());
    }
    fn gave_up(&self, _: usize) {
        tell("gave up".into());
    }
    fn tried(&self, _: usize, _: Kind, mode: Mode, place: &'static Location<'static>) {
        tell(format!("tried {mode:?} {}", place.line()));
    }
    fn released(&self, _: usize) {
        tell("released".into());
    }
    fn destroyed(&self, _: usize) {
        tell("destroyed".into());
    }
}

fn listens() {
    static SET: StdOnce = StdOnce::new();
    SET.call_once(|| assert!(witness::set_hook(&Lines)));
}

/// What the function tells.
fn told(function: impl FnOnce()) -> Vec<String> {
    listens();
    TOLD.take();
    function();
    TOLD.take()
}

/// The line of this call.
#[track_caller]
fn here() -> u32 {
    Location::caller().line()
}

#[test]
fn a_mutex_is_told_by_its_type_and_its_places() {
    let line = here();
    let lines = told(|| {
        let mutex = Mutex::new(vec![1]);
        *mutex.lock().unwrap() = vec![2];
        assert_eq!(mutex.into_inner().unwrap(), [2]);
    });
    let wanted =
        [format!("made Mutex Mutex<Vec<i32>> (told.rs:{}:21)", line + 2), format!("asked Exclusive {}", line + 3)];
    assert_eq!(lines[..2], wanted);
    assert_eq!(lines[2..], ["acquired", "released", "destroyed"]);
}

#[test]
fn a_lock_keeps_its_number_where_it_is_moved() {
    let lines = told(|| {
        let mutex = Mutex::new(1);
        drop(mutex.lock());
        let moved = Box::new(mutex);
        drop(moved.lock());
    });
    assert_eq!(lines.iter().filter(|line| line.starts_with("made")).count(), 1);
    assert_eq!(lines.iter().filter(|line| *line == "destroyed").count(), 1);
}

#[test]
fn a_lock_that_was_never_used_is_never_told() {
    assert!(told(|| drop(Mutex::new(1))).is_empty());
}

#[test]
fn a_panic_while_it_is_held_releases_and_poisons() {
    listens();
    let mutex = Mutex::new(1);
    let lines = told(|| {
        let panicked = panic::catch_unwind(AssertUnwindSafe(|| {
            let _guard = mutex.lock().unwrap();
            panic!("while it is held");
        }));
        assert!(panicked.is_err());
    });
    assert_eq!(lines[2..], ["acquired", "released"]);
    assert!(mutex.is_poisoned());
    let lines = told(|| {
        let poisoned = mutex.lock().unwrap_err();
        assert_eq!(**poisoned.get_ref(), 1);
        assert!(matches!(mutex.try_lock(), Err(TryLockError::WouldBlock)));
    });
    assert_eq!(lines[1..], ["acquired", "released"]);
    let lines = told(|| assert!(matches!(mutex.try_lock(), Err(TryLockError::Poisoned(_)))));
    assert_eq!(lines.len(), 2);
    assert!(lines[0].starts_with("tried Exclusive") && lines[1] == "released");
    mutex.clear_poison();
    assert_eq!(*mutex.lock().unwrap(), 1);
}

#[test]
fn a_try_that_fails_isnt_told() {
    listens();
    let mutex = Mutex::new(1);
    let guard = mutex.lock().unwrap();
    thread::scope(|scope| {
        scope.spawn(|| assert!(told(|| assert!(mutex.try_lock().is_err())).is_empty()));
    });
    drop(guard);
}

#[test]
fn readers_and_writers_are_told_apart() {
    listens();
    let lock = RwLock::new(1);
    let lines = told(|| {
        drop(lock.read());
        drop(lock.write());
        drop(lock.try_read());
        drop(lock.try_write());
    });
    let words: Vec<&str> = lines.iter().map(|line| line.rsplit_once(' ').map_or(&**line, |(words, _)| words)).collect();
    assert_eq!(
        words,
        [
            "made RwLock RwLock<i32>",
            "asked Shared",
            "acquired",
            "released",
            "asked Exclusive",
            "acquired",
            "released",
            "tried Shared",
            "released",
            "tried Exclusive",
            "released"
        ]
    );
}

#[cfg(feature = "recent")]
#[test]
fn a_writer_that_becomes_a_reader_is_told_as_a_try() {
    listens();
    let lock = RwLock::new(1);
    let lines = told(|| {
        let guard = witness::RwLockWriteGuard::downgrade(lock.write().unwrap());
        assert_eq!(*guard, 1);
    });
    assert_eq!(lines[2], "acquired");
    assert_eq!(lines[3], "released");
    assert!(lines[4].starts_with("tried Shared"));
    assert_eq!(lines[5..], ["released"]);
    assert!(lock.try_write().is_ok());
}

/// Without the lines' numbers.
fn words(lines: &[String]) -> Vec<&str> {
    lines.iter().map(|line| line.trim_end_matches(|letter: char| letter == ' ' || letter.is_ascii_digit())).collect()
}

const WAIT: [&str; 5] = ["released", "asked Exclusive", "gave up", "asked Exclusive", "acquired"];

#[test]
fn a_wait_releases_and_asks_again() {
    listens();
    let (mutex, condition) = (Mutex::new(false), Condvar::new());
    drop(mutex.lock());
    let lines = told(|| {
        let guard = mutex.lock().unwrap();
        let (guard, answer) = condition.wait_timeout(guard, Duration::from_millis(1)).unwrap();
        assert!(answer.timed_out() && !*guard);
    });
    assert_eq!(words(&lines), [&["asked Exclusive", "acquired"], &WAIT[..], &["released"]].concat());
    thread::scope(|scope| {
        scope.spawn(|| {
            let guard = condition.wait_while(mutex.lock().unwrap(), |ready| !*ready).unwrap();
            assert!(*guard);
        });
        *mutex.lock().unwrap() = true;
        condition.notify_all();
    });
}

#[test]
fn a_condition_is_looked_at_with_the_mutex_held() {
    listens();
    let (mutex, condition, other) = (Mutex::new(0), Condvar::new(), Mutex::new(()));
    drop((mutex.lock(), other.lock()));
    let lines = told(|| {
        let mut looks = 0;
        let wait = condition.wait_timeout_while(mutex.lock().unwrap(), Duration::from_millis(20), |_| {
            looks += 1;
            drop(other.lock());
            looks == 1
        });
        // It is woken by nobody, so it looks again when the time is over.
        assert!(!wait.unwrap().1.timed_out());
        assert_eq!(looks, 2);
    });
    let look = ["asked Exclusive", "acquired", "released"];
    assert_eq!(words(&lines), [&["asked Exclusive", "acquired"][..], &look, &WAIT, &look, &["released"]].concat());
    let lines = told(|| {
        let panicked = panic::catch_unwind(AssertUnwindSafe(|| {
            let _wait =
                condition.wait_timeout_while(mutex.lock().unwrap(), Duration::from_secs(1), |_| panic!("there"));
        }));
        assert!(panicked.is_err() && mutex.is_poisoned());
    });
    assert_eq!(words(&lines), ["asked Exclusive", "acquired", "released"]);
}

#[test]
fn who_initialises_holds_a_lock_and_who_comes_later_asks_for_it() {
    listens();
    let (once, cell) = (Once::new(), OnceLock::new());
    let lines = told(|| once.call_once(|| assert_eq!(*cell.get_or_init(|| 3), 3)));
    assert!(lines[0].starts_with("made Mutex Once (told.rs:"));
    assert!(lines[3].starts_with("made Mutex OnceLock<i32> (told.rs:"));
    assert_eq!(words(&lines[1..3]), ["asked Exclusive", "acquired"]);
    assert_eq!(words(&lines[4..]), ["asked Exclusive", "acquired", "released", "released"]);
    let lines = told(|| {
        once.call_once(|| unreachable!());
        assert_eq!(cell.set(4), Err(4));
        assert_eq!(cell.get(), Some(&3));
    });
    assert_eq!(words(&lines), ["asked Exclusive", "gave up", "asked Exclusive", "gave up"]);
    let once = Once::new();
    assert!(panic::catch_unwind(AssertUnwindSafe(|| once.call_once(|| panic!("in it")))).is_err());
    let lines = told(|| {
        once.call_once_force(|state| assert!(state.is_poisoned()));
    });
    assert_eq!(words(&lines), ["asked Exclusive", "acquired", "released"]);
}

#[test]
fn a_lazy_value_is_made_once() {
    listens();
    let lazy = LazyLock::new(|| 5);
    let lines = told(|| assert_eq!(*lazy + *lazy, 10));
    assert!(lines[0].starts_with("made Mutex LazyLock<i32> (told.rs:"));
    assert_eq!(words(&lines[1..]), ["asked Exclusive", "acquired", "released", "asked Exclusive", "gave up"]);
    let failing: LazyLock<i32> = LazyLock::new(|| panic!("once"));
    for _ in 0..2 {
        assert!(panic::catch_unwind(AssertUnwindSafe(|| *failing)).is_err());
    }
}

#[test]
fn a_hook_is_set_once() {
    listens();
    assert!(!witness::set_hook(&Lines));
}

#[test]
fn locks_of_constants_and_statics_are_locks() {
    listens();
    static STATIC: Mutex<i32> = Mutex::new(1);
    static SEVERAL: [RwLock<u8>; 3] = [const { RwLock::new(2) }; 3];
    *STATIC.lock().unwrap() += 1;
    assert_eq!(*STATIC.lock().unwrap(), 2);
    assert!(SEVERAL.iter().all(|lock| *lock.read().unwrap() == 2));
    let by_trait: Box<Mutex<dyn Fn() -> i32 + Send>> = Box::new(Mutex::new(|| 7));
    assert_eq!(by_trait.lock().unwrap()(), 7);
    assert_eq!(format!("{:?}", Mutex::new(1)), format!("{:?}", std::sync::Mutex::new(1)));
    assert_eq!(*Mutex::<i32>::default().lock().unwrap(), 0);
    assert_eq!(*Mutex::from(3).lock().unwrap(), 3);
}
