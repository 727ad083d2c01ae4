//! A trace by the crate's set manager, which keeps the sets that are freed.

use crate::by_allocator::{layout_flags, total_count};
use crate::gpu::Gpu;
use crate::play::{Descriptors, Player};
use gpu_descriptor::SetLayout;
use gpu_descriptor::manager::{LayoutHandle, SetHandle, SetManager};

pub struct Keeping<G: Gpu> {
    manager: SetManager<G::Layout, G::Pool, G::Set, G>,
    layouts: Vec<LayoutHandle>,
}

impl<G: Gpu> Drop for Keeping<G> {
    fn drop(&mut self) {
        self.manager.cleanup();
    }
}

impl<G: Gpu> Player<G> for Keeping<G> {
    type Set = SetHandle;

    fn new(gpu: G) -> Self {
        let limit = gpu.limit();
        Keeping { manager: SetManager::new(gpu, limit), layouts: Vec::new() }
    }

    fn add_layout(&mut self, layout: usize, handle: G::Layout, of: &Descriptors) {
        let added = SetLayout { layout: handle, counts: total_count(&of.counts), flags: layout_flags(of.flags) };
        self.layouts.truncate(layout);
        // SAFETY: the layout has these counts, and lives as long as the device.
        self.layouts.push(unsafe { self.manager.add_layout(added) }.unwrap());
    }

    fn remove_layout(&mut self, layout: usize) {
        self.manager.remove_layout(self.layouts[layout]).unwrap();
    }

    fn take(&mut self, _: usize, layout: usize, count: u32, sets: &mut Vec<SetHandle>) -> bool {
        if count == 1 {
            let taken = self.manager.allocate(self.layouts[layout]);
            return taken.map(|set| sets.push(set)).is_ok();
        }
        let first = sets.len();
        sets.resize(first + count as usize, SetHandle::NONE);
        let taken = self.manager.allocate_into(self.layouts[layout], &mut sets[first..]);
        if taken.is_err() {
            sets.truncate(first);
        }
        taken.is_ok()
    }

    fn free(&mut self, _pool: usize, sets: &mut Vec<SetHandle>) {
        // SAFETY: the device uses no set.
        unsafe { self.manager.free(sets) }.unwrap();
        sets.clear();
    }

    #[cfg(feature = "memory")]
    fn trim(&mut self) {
        self.manager.cleanup();
    }

    fn outstanding(&self) -> Option<u64> {
        Some(self.manager.outstanding())
    }
}
