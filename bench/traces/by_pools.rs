//! A trace by hand, with the pools that the program has itself: no set is freed but with its pool, or one by
//! one at the device. It is what a program does that knows the sizes of its pools beforehand.

use crate::by_allocator::total_count;
use crate::gpu::Gpu;
use crate::play::{Descriptors, Player};
use gpu_descriptor::DescriptorPoolCreateFlags as Flags;
use std::iter::repeat_n;

pub struct Pools<G: Gpu> {
    gpu: G,
    layouts: Vec<G::Layout>,
    /// The device's names of them, by the program's.
    pools: Vec<G::Pool>,
}

/// A pool's flags, as Vulkan has them.
pub fn pool_flags(flags: u32) -> Flags {
    let mut some = Flags::empty();
    some.set(Flags::FREE_DESCRIPTOR_SET, flags & 1 != 0);
    some.set(Flags::UPDATE_AFTER_BIND, flags & 2 != 0);
    some
}

impl<G: Gpu> Player<G> for Pools<G> {
    type Set = G::Set;

    fn new(gpu: G) -> Self {
        Pools { gpu, layouts: Vec::new(), pools: Vec::new() }
    }

    fn add_layout(&mut self, layout: usize, handle: G::Layout, _of: &Descriptors) {
        self.layouts.truncate(layout);
        self.layouts.push(handle);
    }

    fn remove_layout(&mut self, _layout: usize) {}

    fn add_pool(&mut self, pool: usize, max_sets: u32, of: &Descriptors) {
        let (counts, flags) = (total_count(&of.counts), pool_flags(of.flags));
        // SAFETY: it has no condition.
        let made = unsafe { self.gpu.create_descriptor_pool(&counts, max_sets, flags) };
        self.pools.truncate(pool);
        self.pools.push(made.unwrap());
    }

    fn take(&mut self, pool: usize, layout: usize, count: u32, sets: &mut Vec<G::Set>) -> bool {
        let layouts = repeat_n(&self.layouts[layout], count as usize);
        let pool = &mut self.pools[pool];
        // SAFETY: the pool and the layout are of the device.
        unsafe { self.gpu.alloc_descriptor_sets(pool, layouts, sets) }.is_ok()
    }

    fn free(&mut self, pool: usize, sets: &mut Vec<G::Set>) {
        let pool = &mut self.pools[pool];
        // SAFETY: the sets are of the pool, and each goes back once.
        unsafe { self.gpu.dealloc_descriptor_sets(pool, sets.drain(..)) }
    }

    /// The device forgets the sets with its pool.
    fn empty(&mut self, pool: usize, sets: &mut Vec<G::Set>, is_destroyed: bool) {
        sets.clear();
        let pool = self.pools[pool];
        if is_destroyed {
            // SAFETY: no set of the pool is used.
            unsafe { self.gpu.destroy_descriptor_pool(pool) }
        } else {
            self.gpu.reset(pool);
        }
    }
}
