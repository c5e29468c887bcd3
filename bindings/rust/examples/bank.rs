//! Two locks in opposite orders, by two threads that never meet: `record` reports them. The debug information isn't needed.

use std::thread;
use witness::Mutex;

struct Bank {
    accounts: Mutex<Vec<i64>>,
    journal: Mutex<String>,
}

fn transfer(bank: &Bank, from: usize, to: usize, amount: i64) {
    let mut accounts = bank.accounts.lock().unwrap();
    accounts[from] -= amount;
    accounts[to] += amount;
    bank.journal.lock().unwrap().push_str("transfer\n");
}

fn audit(bank: &Bank) {
    let mut journal = bank.journal.lock().unwrap();
    let sum: i64 = bank.accounts.lock().unwrap().iter().sum();
    journal.push_str(&format!("sum {sum}\n"));
}

fn main() {
    let bank = Bank { accounts: Mutex::new(vec![100; 2]), journal: Mutex::new(String::new()) };
    thread::scope(|scope| scope.spawn(|| transfer(&bank, 0, 1, 10)).join()).unwrap();
    thread::scope(|scope| scope.spawn(|| audit(&bank)).join()).unwrap();
    print!("{}", bank.journal.lock().unwrap());
}
