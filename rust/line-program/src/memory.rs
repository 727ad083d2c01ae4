//! The program ends with 5 if there is no memory for the buffers that it makes at the start.

use crate::descriptor_lines::{Exit, run_lines};
use crate::kit::alloc::Global;
use std::alloc::{GlobalAlloc, Layout, System};
use std::cell::Cell;
use std::ptr::null_mut;

/// Refuses one allocation of a thread.
struct Refusing;

#[global_allocator]
static ALLOCATOR: Refusing = Refusing;

thread_local! {
    /// How many allocations of this thread come before the one that is refused, and that one.
    static LEFT: Cell<usize> = const { Cell::new(0) };
}

fn is_refused() -> bool {
    let left = LEFT.get();
    LEFT.set(left.saturating_sub(1));
    left == 1
}

// SAFETY: each block is one of the system's, or none.
unsafe impl GlobalAlloc for Refusing {
    unsafe fn alloc(&self, layout: Layout) -> *mut u8 {
        if is_refused() {
            return null_mut();
        }
        // SAFETY: as the caller's.
        unsafe { System.alloc(layout) }
    }

    unsafe fn dealloc(&self, block: *mut u8, layout: Layout) {
        // SAFETY: as the caller's.
        unsafe { System.dealloc(block, layout) }
    }
}

/// How a run of no line ends if this allocation is refused, the first being 1.
fn exit_without(allocation: usize) -> Exit {
    LEFT.set(allocation);
    let exit = run_lines(Global, &mut [].as_slice(), &mut Vec::new());
    LEFT.set(0);
    exit
}

#[test]
fn no_memory_for_the_buffers() {
    let exits = [1, 2, 3].map(exit_without);
    assert_eq!(exits, [Exit::NoMemory, Exit::NoMemory, Exit::Done]);
    assert_eq!(exits[0].code(), 5);
}
