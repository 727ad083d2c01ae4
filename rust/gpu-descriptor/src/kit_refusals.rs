//! A container of the shim has what it had after an insert that failed for lack of memory.

#[path = "../tests/refuses/mod.rs"]
mod refuses;

use crate::kit::alloc::Global;
use crate::kit::{collections::VecDeque, indexmap::IndexMap};
use refuses::with_refused;

/// Inserts numbers from 0 up until one fails for lack of memory: which one, and the error.
fn fill<E: std::fmt::Debug>(mut insert: impl FnMut(u32) -> Result<(), E>) -> (u32, E) {
    insert(0).unwrap();
    let mut refused = |item| with_refused(0, || insert(item)).0.err();
    (1..)
        .find_map(|item| refused(item).map(|error| (item, error)))
        .unwrap()
}

#[test]
fn a_queue() {
    let mut items = VecDeque::new(Global);
    let (last, error) = fill(|item| items.insert(0, item));
    assert_eq!((error.value, items.len()), (last, last as usize));
    assert!((0..last).all(|item| items[(last - 1 - item) as usize] == item));
}

#[test]
fn a_map() {
    let mut map = IndexMap::new(Global);
    let (last, error) = fill(|item| map.insert(item, item).map(|_| ()));
    assert_eq!((error.value, map.len()), ((last, last), last as usize));
    assert!((0..last).all(|item| map.get(&item) == Some(&item)));
}
