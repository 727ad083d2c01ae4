//! A trace by hand, with a list of sets for each layout: what is freed is kept for the next request. A new
//! set comes from the last pool of its layout: the first has 64 sets, and each further one twice as many as
//! the one before. The sets of a layout that goes are freed, live ones once they are freed, and its
//! pools are destroyed after the last. It checks no set that it gets.

use crate::play::{Descriptors, Player};
use crate::{by_allocator::total_count, by_pools::pool_flags, gpu::Gpu};

struct Layout<G: Gpu> {
    handle: G::Layout,
    of: Descriptors,
    is_removed: bool,
    kept: Vec<G::Set>,
    sets_out: u32,
    pools: Vec<G::Pool>,
    /// How many sets the last pool has, and how many it can give.
    size: u32,
    room: u32,
}

pub struct Lists<G: Gpu> {
    gpu: G,
    layouts: Vec<Layout<G>>,
    /// The places of the program's layouts.
    places: Vec<u32>,
}

impl<G: Gpu> Layout<G> {
    /// Takes new sets, as many as are missing.
    fn grow(&mut self, gpu: &G, missing: u32) -> bool {
        if self.room < missing {
            let size = (2 * self.size).max(64).max(missing);
            let counts = total_count(&self.of.counts.map(|count| count * size));
            let flags = pool_flags(self.of.flags);
            // SAFETY: it has no condition.
            let made = unsafe { gpu.create_descriptor_pool(&counts, size, flags) };
            let Ok(pool) = made else { return false };
            self.pools.push(pool);
            (self.size, self.room) = (size, size);
        }
        let pool = self.pools.last_mut().unwrap();
        let layouts = std::iter::repeat_n(&self.handle, missing as usize);
        // SAFETY: the pool has room, and is of this layout.
        unsafe { gpu.alloc_descriptor_sets(pool, layouts, &mut self.kept) }.unwrap();
        self.room -= missing;
        true
    }

    /// Destroys the pools of a layout that is gone, once no set is live.
    fn end(&mut self, gpu: &G) {
        if self.is_removed && self.sets_out == 0 {
            for pool in self.pools.drain(..) {
                // SAFETY: no set of it is live.
                unsafe { gpu.destroy_descriptor_pool(pool) }
            }
            self.kept = Vec::new();
        }
    }
}

impl<G: Gpu> Player<G> for Lists<G> {
    /// A set, and the place of its layout.
    type Set = (G::Set, u32);

    fn new(gpu: G) -> Self {
        Lists { gpu, layouts: Vec::new(), places: Vec::new() }
    }

    fn add_layout(&mut self, layout: usize, handle: G::Layout, of: &Descriptors) {
        self.places.truncate(layout);
        self.places.push(self.layouts.len() as u32);
        self.layouts.push(Layout {
            handle,
            of: *of,
            is_removed: false,
            kept: Vec::new(),
            sets_out: 0,
            pools: Vec::new(),
            size: 0,
            room: 0,
        });
    }

    fn remove_layout(&mut self, layout: usize) {
        let layout = &mut self.layouts[self.places[layout] as usize];
        layout.is_removed = true;
        layout.end(&self.gpu);
    }

    fn take(&mut self, _: usize, layout: usize, count: u32, sets: &mut Vec<Self::Set>) -> bool {
        let place = self.places[layout];
        let layout = &mut self.layouts[place as usize];
        let missing = count.saturating_sub(layout.kept.len() as u32);
        if missing > 0 && !layout.grow(&self.gpu, missing) {
            return false;
        }
        layout.sets_out += count;
        let left = layout.kept.len() - count as usize;
        sets.extend(layout.kept.drain(left..).map(|set| (set, place)));
        true
    }

    fn free(&mut self, _pool: usize, sets: &mut Vec<Self::Set>) {
        for (set, place) in sets.drain(..) {
            let layout = &mut self.layouts[place as usize];
            layout.kept.push(set);
            layout.sets_out -= 1;
            layout.end(&self.gpu);
        }
    }

    fn outstanding(&self) -> Option<u64> {
        Some(self.layouts.iter().map(|it| u64::from(it.sets_out)).sum())
    }
}
