//! What a lock and its release take, in nanoseconds: std's, and these. Of many rounds the shortest counts, since a round may
//! be interrupted. The status is 1 where one of these takes over 15 ns longer: the layout of the code and a busy machine
//! make 3 of a difference, and what would be wrong here, a table or a search for the recorder, takes more than 15.

use std::hint::black_box;
use std::time::Instant;

const TIMES: u32 = 100_000;
const ROUNDS: u32 = 60;

/// Each function is measured by itself, with all registers.
#[inline(never)]
fn shortest<L>(lock: L, function: impl Fn(&L)) -> f64 {
    let mut shortest = f64::MAX;
    let lock = black_box(&lock);
    for _ in 0..ROUNDS {
        let begun = Instant::now();
        for _ in 0..TIMES {
            function(lock);
        }
        shortest = shortest.min(begun.elapsed().as_secs_f64() * 1e9 / f64::from(TIMES));
    }
    shortest
}

fn main() {
    use std::sync::{Mutex, OnceLock, RwLock};
    let rows = [
        (
            "Mutex::lock",
            shortest(Mutex::new(0), |lock| *lock.lock().unwrap() += 1),
            shortest(witness::Mutex::new(0), |lock| *lock.lock().unwrap() += 1),
        ),
        (
            "RwLock::read",
            shortest(RwLock::new(0), |lock| assert_eq!(*lock.read().unwrap(), 0)),
            shortest(witness::RwLock::new(0), |lock| assert_eq!(*lock.read().unwrap(), 0)),
        ),
        (
            "RwLock::write",
            shortest(RwLock::new(0), |lock| *lock.write().unwrap() += 1),
            shortest(witness::RwLock::new(0), |lock| *lock.write().unwrap() += 1),
        ),
        (
            "OnceLock::get_or_init",
            shortest(OnceLock::new(), |cell| _ = black_box(black_box(cell).get_or_init(|| 1))),
            shortest(witness::OnceLock::new(), |cell| _ = black_box(black_box(cell).get_or_init(|| 1))),
        ),
    ];
    println!("{:22} {:>8} {:>8}", "ns", "std", "witness");
    let mut late = false;
    for (name, std, own) in rows {
        println!("{name:22} {std:8.1} {own:8.1}");
        late |= own - std > 15.0;
    }
    std::process::exit(late.into());
}
