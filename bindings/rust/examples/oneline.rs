//! Two locks that one line makes are of two types: two threads that never meet take them in opposite orders.

use std::thread;
use witness::Mutex;

fn both(first: &Mutex<i32>, second: &Mutex<i32>) {
    let first = first.lock().unwrap();
    *second.lock().unwrap() += *first;
}

fn main() {
    let (left, right) = (Mutex::new(0), Mutex::new(0));
    let (other_left, other_right) = (&left, &right);
    thread::scope(|scope| scope.spawn(|| both(other_left, other_right)).join()).unwrap();
    thread::scope(|scope| scope.spawn(|| both(other_right, other_left)).join()).unwrap();
}
