// Two of tokio's locks, one in the other: they aren't told.
use tokio::sync::{Mutex, RwLock};

fn main() {
    tokio::runtime::Builder::new_current_thread().build().unwrap().block_on(async {
        let (first, second) = (Mutex::new(1), RwLock::new(2));
        let one = first.lock().await;
        let two = second.write().await;
        println!("{}", *one + *two);
    });
}
