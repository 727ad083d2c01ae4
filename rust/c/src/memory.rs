//! For a library without std: memory from the C library, and a panic handler that aborts.

use core::alloc::{GlobalAlloc, Layout};
use core::ffi::c_void;
use core::panic::PanicInfo;
use core::ptr::null_mut;

unsafe extern "C" {
    fn malloc(size: usize) -> *mut c_void;
    fn realloc(block: *mut c_void, size: usize) -> *mut c_void;
    fn free(block: *mut c_void);
    fn abort() -> !;
}

/// The alignment of each block of `malloc`. No type of this library has a greater one.
const ALIGNMENT: usize = 2 * size_of::<usize>();

struct CLibrary;

// SAFETY: each block is the C library's, which aligns it, and a failed allocation is null in both.
unsafe impl GlobalAlloc for CLibrary {
    unsafe fn alloc(&self, layout: Layout) -> *mut u8 {
        if layout.align() > ALIGNMENT {
            return null_mut();
        }
        // SAFETY: `malloc` takes any size.
        unsafe { malloc(layout.size()).cast() }
    }

    unsafe fn dealloc(&self, block: *mut u8, _: Layout) {
        // SAFETY: it is from `alloc` or `realloc`.
        unsafe { free(block.cast()) }
    }

    unsafe fn realloc(&self, block: *mut u8, _: Layout, size: usize) -> *mut u8 {
        // SAFETY: it is from `alloc` or `realloc`, and its alignment is the same.
        unsafe { realloc(block.cast(), size).cast() }
    }
}

#[global_allocator]
static MEMORY: CLibrary = CLibrary;

#[panic_handler]
fn panic(_: &PanicInfo) -> ! {
    // SAFETY: it has no conditions.
    unsafe { abort() }
}
