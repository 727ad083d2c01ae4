//! A trace by the library for C, through the calls of `by_c.c`.

use crate::device::CountingDevice;
use crate::gpu::Gpu;
use crate::play::{Descriptors, Player};
use std::marker::PhantomData;

#[repr(C)]
#[derive(Clone, Copy)]
struct Layout([u64; 2]);

#[repr(C)]
#[derive(Clone, Copy)]
pub struct Set([u64; 3]);

unsafe extern "C" {
    fn c_create();
    #[cfg(feature = "driver")]
    fn c_create_over(device: crate::vulkan::DeviceHandle);
    fn c_add_layout(handle: u64, counts: *const u32, flags: u32) -> Layout;
    fn c_remove_layout(layout: Layout);
    fn c_take(layout: Layout, count: u32, sets: *mut Set) -> bool;
    fn c_free(sets: *const Set, count: u32);
    #[cfg(feature = "memory")]
    fn c_cleanup();
    #[cfg(feature = "memory")]
    pub fn c_create_with(
        create: unsafe extern "C" fn(u64, &PoolInfo, &mut u64) -> u32,
        destroy: unsafe extern "C" fn(u64, u64),
        limit: u32,
    );
    fn c_outstanding() -> u64;
}

#[cfg(feature = "memory")]
#[repr(C)]
pub struct PoolInfo {
    pub max_sets: u32,
    pub flags: u32,
    pub counts: [u32; crate::play::KINDS],
}

/// A device that the library for C has too.
pub trait GpuOfC: Gpu {
    /// Makes the allocator over it.
    ///
    /// # Safety
    ///
    /// There is one allocator, and one player.
    unsafe fn create(&self);
}

impl GpuOfC for CountingDevice {
    unsafe fn create(&self) {
        unsafe { c_create() }
    }
}

#[cfg(feature = "driver")]
impl GpuOfC for crate::vulkan::Device {
    unsafe fn create(&self) {
        unsafe { c_create_over(self.handle()) }
    }
}

pub struct Library<G> {
    layouts: Vec<Layout>,
    gpu: PhantomData<G>,
}

impl<G: GpuOfC> Player<G> for Library<G> {
    type Set = Set;

    fn new(gpu: G) -> Self {
        // SAFETY: this is the player.
        unsafe { gpu.create() };
        Library { layouts: Vec::new(), gpu: PhantomData }
    }

    fn add_layout(&mut self, layout: usize, handle: G::Layout, of: &Descriptors) {
        self.layouts.truncate(layout);
        // SAFETY: the counts are as many as there are kinds.
        let added = unsafe { c_add_layout(G::number(handle), of.counts.as_ptr(), of.flags) };
        self.layouts.push(added);
    }

    fn remove_layout(&mut self, layout: usize) {
        // SAFETY: it has no condition.
        unsafe { c_remove_layout(self.layouts[layout]) };
    }

    fn take(&mut self, _: usize, layout: usize, count: u32, sets: &mut Vec<Set>) -> bool {
        let len = sets.len();
        sets.reserve(count as usize);
        // SAFETY: there is room for so many sets, and they are written if it is `true`.
        unsafe {
            let is_taken = c_take(self.layouts[layout], count, sets.as_mut_ptr().add(len));
            if is_taken {
                sets.set_len(len + count as usize);
            }
            is_taken
        }
    }

    fn free(&mut self, _pool: usize, sets: &mut Vec<Set>) {
        // SAFETY: the sets are of the allocator, and each goes back once.
        unsafe { c_free(sets.as_ptr(), sets.len() as u32) };
        sets.clear();
    }

    #[cfg(feature = "memory")]
    fn trim(&mut self) {
        // SAFETY: it has no condition.
        unsafe { c_cleanup() }
    }

    fn outstanding(&self) -> Option<u64> {
        // SAFETY: it has no condition.
        Some(unsafe { c_outstanding() })
    }
}
