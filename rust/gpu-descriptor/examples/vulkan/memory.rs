//! Allocation callbacks, which count what the driver keeps for pools.

use crate::ffi::{Callbacks, aligned_alloc, free};
use gpu_descriptor::vulkan::raw::AllocationCallbacks;
use std::ffi::c_void;
use std::ptr::{NonNull, null, null_mut};
use std::sync::atomic::{AtomicI64, Ordering};

static BLOCKS: AtomicI64 = AtomicI64::new(0);
static ALLOCATED: AtomicI64 = AtomicI64::new(0);

struct Shared(Callbacks);

// SAFETY: the functions use an atomic number and the C library alone.
unsafe impl Sync for Shared {}

static CALLBACKS: Shared = Shared(Callbacks {
    user_data: null_mut(),
    allocate,
    reallocate,
    free: free_block,
    allocated: null(),
    freed: null(),
});

unsafe extern "system" fn allocate(
    _: *mut c_void,
    size: usize,
    alignment: usize,
    _: i32,
) -> *mut c_void {
    BLOCKS.fetch_add(1, Ordering::Relaxed);
    ALLOCATED.fetch_add(1, Ordering::Relaxed);
    // SAFETY: the alignment is a power of two, and the size one of its multiples.
    unsafe { aligned_alloc(alignment, size.next_multiple_of(alignment)) }
}

/// No driver grows a block of a pool, and the C library has no such function with an alignment.
unsafe extern "system" fn reallocate(
    _: *mut c_void,
    _: *mut c_void,
    _: usize,
    _: usize,
    _: i32,
) -> *mut c_void {
    null_mut()
}

unsafe extern "system" fn free_block(_: *mut c_void, block: *mut c_void) {
    if !block.is_null() {
        BLOCKS.fetch_sub(1, Ordering::Relaxed);
    }
    // SAFETY: the block is from `allocate`.
    unsafe { free(block) };
}

pub fn callbacks() -> NonNull<AllocationCallbacks> {
    NonNull::from(&CALLBACKS.0).cast()
}

/// How many blocks the driver keeps.
pub fn left() -> i64 {
    BLOCKS.load(Ordering::Relaxed)
}

/// How many blocks the driver ever allocated.
pub fn allocated() -> i64 {
    ALLOCATED.load(Ordering::Relaxed)
}
