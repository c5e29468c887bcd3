//! Locks in fields of a structure: where debug information has these, `record` tells `Shelf::books`. One thread takes both orders.
use std::sync::Arc;
use witness::{Mutex, RwLock};

struct Shelf<'a, T> {
    name: &'a str,
    books: Arc<Mutex<Vec<T>>>,
    index: RwLock<usize>,
}

impl<'a, T> Shelf<'a, T> {
    fn new(name: &'a str) -> Self {
        // A brace in a comment: {
        let quote = ['\'', '{', '"'];
        assert_eq!(quote.len(), 3, "{{ {name}");
        Self {
            name,
            books: Arc::new(Mutex::new(Vec::new())),
            index: RwLock::new(0),
        }
    }
}

fn main() {
    let shelf = Shelf::<i32>::new("one");
    let plain = Mutex::new(shelf.name.len());
    {
        let _books = shelf.books.lock().unwrap();
        *shelf.index.write().unwrap() += 1;
        *plain.lock().unwrap() += 1;
    }
    let _index = shelf.index.read().unwrap();
    shelf.books.lock().unwrap().push(*plain.lock().unwrap() as i32);
}
