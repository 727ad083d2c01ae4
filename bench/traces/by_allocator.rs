//! A trace by an allocator with the original's interface: each request is one call, as is each free.

use crate::gpu::Gpu;
use crate::play::{Descriptors, Player};
use gpu_descriptor::{DescriptorAllocator, DescriptorSet, DescriptorSetLayoutCreateFlags, DescriptorTotalCount};

struct Layout<L> {
    handle: L,
    counts: DescriptorTotalCount,
    flags: DescriptorSetLayoutCreateFlags,
}

pub struct Allocator<G: Gpu> {
    allocator: DescriptorAllocator<G::Pool, G::Set>,
    gpu: G,
    layouts: Vec<Layout<G::Layout>>,
}

include!("kinds.rs");

/// The flags of a layout, of which update-after-bind is the only one.
pub fn layout_flags(flags: u32) -> DescriptorSetLayoutCreateFlags {
    let mut some = DescriptorSetLayoutCreateFlags::empty();
    some.set(DescriptorSetLayoutCreateFlags::UPDATE_AFTER_BIND, flags != 0);
    some
}

impl<G: Gpu> Player<G> for Allocator<G> {
    type Set = DescriptorSet<G::Set>;

    fn new(gpu: G) -> Self {
        Allocator { allocator: DescriptorAllocator::new(gpu.limit()), gpu, layouts: Vec::new() }
    }

    fn add_layout(&mut self, layout: usize, handle: G::Layout, of: &Descriptors) {
        // Layouts come in the order of their numbers. A further pass begins at 0 again.
        self.layouts.truncate(layout);
        self.layouts.push(Layout { handle, counts: total_count(&of.counts), flags: layout_flags(of.flags) });
    }

    fn remove_layout(&mut self, _layout: usize) {}

    fn take(&mut self, _: usize, layout: usize, count: u32, sets: &mut Vec<Self::Set>) -> bool {
        let of = &self.layouts[layout];
        // SAFETY: the device is the same in all calls, and the layout has these counts.
        let taken = unsafe { self.allocator.allocate(&self.gpu, &of.handle, of.flags, &of.counts, count) };
        taken.map(|mut taken| sets.append(&mut taken)).is_ok()
    }

    fn free(&mut self, _pool: usize, sets: &mut Vec<Self::Set>) {
        // SAFETY: the sets came from this allocator, and each goes back once.
        unsafe { self.allocator.free(&self.gpu, sets.drain(..)) }
    }

    #[cfg(feature = "memory")]
    fn trim(&mut self) {
        // SAFETY: the device is the same in all calls.
        unsafe { self.allocator.trim(&self.gpu) }
    }
}
