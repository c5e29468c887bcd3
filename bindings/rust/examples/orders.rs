//! Three reversals: of a lock for readers and writers, of a value that is made when it is first wanted, and of a wait.

use std::time::Duration;
use witness::{Condvar, LazyLock, Mutex, RwLock};

static CONFIG: RwLock<usize> = RwLock::new(1);
static CACHE: Mutex<Vec<usize>> = Mutex::new(Vec::new());
static LIMIT: LazyLock<usize> = LazyLock::new(|| *CONFIG.read().unwrap());

fn main() {
    {
        let config = CONFIG.read().unwrap();
        CACHE.lock().unwrap().push(*config);
    }
    {
        let cache = CACHE.lock().unwrap();
        *CONFIG.write().unwrap() += cache.len();
    }
    assert_eq!(*LIMIT, 2);
    {
        let config = CONFIG.read().unwrap();
        assert_eq!(*LIMIT, *config);
    }
    let (ready, other, condition) = (Mutex::new(false), Mutex::new('a'), Condvar::new());
    let guard = ready.lock().unwrap();
    let _other = other.lock().unwrap();
    let (guard, answer) = condition.wait_timeout(guard, Duration::from_millis(1)).unwrap();
    assert!(answer.timed_out() && !*guard);
}
