//! A thread that is in a function of the host is refused. One that is in none waits, even if it was in one
//! before.

use super::{AWAITED, FREE, Held, Lock};
use core::sync::atomic::{AtomicBool, Ordering};
use std::panic::{AssertUnwindSafe, catch_unwind};
use std::sync::mpsc::channel;
use std::thread;

/// Whether a call of this thread gets a lock that is held. `free` runs once it waits or is refused.
fn is_let_in(lock: &Lock, free: impl FnOnce() + Send) -> bool {
    let is_over = AtomicBool::new(false);
    let is_awaited = || lock.state.load(Ordering::Relaxed) == AWAITED;
    thread::scope(|scope| {
        scope.spawn(|| {
            while !is_awaited() && !is_over.load(Ordering::Relaxed) {
                thread::yield_now();
            }
            free();
        });
        let held = lock.hold();
        is_over.store(true, Ordering::Relaxed);
        held.is_some()
    })
}

/// Whether a call of this thread gets a lock that another thread holds, as the owner or not.
fn waits_for_another(lock: &Lock, is_owner: bool) -> bool {
    let (begin, begun) = channel();
    let (end, ended) = channel();
    thread::scope(|scope| {
        scope.spawn(move || {
            let held = lock.hold();
            let call = || {
                begin.send(()).unwrap();
                ended.recv().unwrap();
            };
            match is_owner {
                true => lock.as_owner(call),
                false => call(),
            }
            drop(held);
        });
        begun.recv().unwrap();
        is_let_in(lock, move || end.send(()).unwrap())
    })
}

#[test]
fn a_call_of_the_owner_is_turned_away() {
    let (lock, other) = (Lock::new(true), Lock::new(true));
    // Freed by `is_let_in`, so that a call that waits for its own thread ends.
    core::mem::forget(lock.hold());
    assert!(!lock.as_owner(|| is_let_in(&lock, || drop(Held(&lock)))));
    // The functions of an allocator call another one, whose functions call both.
    let _held = lock.hold();
    lock.as_owner(|| {
        let held = other.hold();
        other.as_owner(|| assert!(lock.hold().is_none() && other.hold().is_none()));
        drop(held);
        assert!(lock.hold().is_none() && other.hold().is_some());
    });
}

/// If no call waits, it doesn't matter which thread calls.
#[test]
fn a_call_that_would_wait_is_turned_away() {
    let lock = Lock::new(false);
    core::mem::forget(lock.hold());
    let free = || {
        lock.state.store(FREE, Ordering::Relaxed);
        lock.wake_one();
    };
    assert!(!is_let_in(&lock, free));
    assert!(lock.hold().is_some());
}

#[test]
fn a_call_of_no_owner_waits() {
    let lock = Lock::new(true);
    for is_owner in [false, true] {
        assert!(waits_for_another(&lock, is_owner));
        let held = lock.hold();
        lock.as_owner(|| {});
        drop(held);
        assert!(waits_for_another(&lock, is_owner), "an owner returned");
        let held = lock.hold();
        let call = AssertUnwindSafe(|| lock.as_owner(|| panic!("on purpose")));
        assert!(catch_unwind(call).is_err());
        drop(held);
        assert!(waits_for_another(&lock, is_owner), "an owner panicked");
    }
}
