//! A global allocator that refuses one call for memory, in the thread that says so.

use std::alloc::{GlobalAlloc, Layout, System};
use std::cell::Cell;
use std::ptr::null_mut;

struct Memory;

thread_local! {
    static COUNTS: Cell<bool> = const { Cell::new(false) };
    static CALLS: Cell<u64> = const { Cell::new(0) };
    static REFUSED: Cell<u64> = const { Cell::new(u64::MAX) };
    static BYTES: Cell<usize> = const { Cell::new(0) };
}

/// Notes that a block of the thread has another size.
fn note(from: usize, to: usize) {
    BYTES.set(BYTES.get().wrapping_sub(from).wrapping_add(to));
}

fn is_refused() -> bool {
    COUNTS.get() && CALLS.replace(CALLS.get() + 1) == REFUSED.get()
}

// SAFETY: it is the system's, or refuses.
unsafe impl GlobalAlloc for Memory {
    unsafe fn alloc(&self, layout: Layout) -> *mut u8 {
        if is_refused() {
            null_mut()
        } else {
            note(0, layout.size());
            unsafe { System.alloc(layout) }
        }
    }

    unsafe fn dealloc(&self, place: *mut u8, layout: Layout) {
        note(layout.size(), 0);
        unsafe { System.dealloc(place, layout) }
    }

    unsafe fn realloc(&self, place: *mut u8, layout: Layout, size: usize) -> *mut u8 {
        if is_refused() {
            null_mut()
        } else {
            note(layout.size(), size);
            unsafe { System.realloc(place, layout, size) }
        }
    }
}

#[global_allocator]
static MEMORY: Memory = Memory;

/// From now on the call with this number for memory is refused, of those that are counted.
pub fn refuse(number: u64) {
    CALLS.set(0);
    REFUSED.set(number);
}

/// Runs it, and counts its calls for memory.
pub fn counted<R>(run: impl FnOnce() -> R) -> R {
    COUNTS.set(true);
    let result = run();
    COUNTS.set(false);
    result
}

/// How many calls for memory were counted.
pub fn calls() -> u64 {
    CALLS.get()
}

/// How many bytes the thread has, where no block goes to another.
#[allow(dead_code)]
pub fn bytes() -> usize {
    BYTES.get()
}

/// Runs it; the call with this number for memory is refused. Returns how many calls there were, too.
#[allow(dead_code)]
pub fn with_refused<R>(number: u64, run: impl FnOnce() -> R) -> (R, u64) {
    refuse(number);
    let result = counted(run);
    (result, calls())
}
