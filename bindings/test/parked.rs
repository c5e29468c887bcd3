//! parking_lot's locks in opposite orders, by two threads that never meet.

use std::thread;

witness::parking_lot! { mod locks; }
use locks::{Mutex, RwLock};

struct Bank {
    accounts: Mutex<Vec<i64>>,
    journal: RwLock<String>,
}

#[inline(never)]
fn transfer(bank: &Bank) {
    let mut accounts = bank.accounts.lock();
    accounts[0] -= 1;
    bank.journal.write().push_str("transfer\n");
}

#[inline(never)]
fn audit(bank: &Bank) {
    let journal = bank.journal.read();
    let sum: i64 = bank.accounts.lock().iter().sum();
    assert!(sum <= 200 && !journal.is_empty());
}

fn main() {
    let bank = Bank { accounts: Mutex::new(vec![100; 2]), journal: RwLock::new(String::new()) };
    thread::scope(|scope| scope.spawn(|| transfer(&bank)).join()).unwrap();
    thread::scope(|scope| scope.spawn(|| audit(&bank)).join()).unwrap();
    print!("{}", bank.journal.read());
}
