//! The names of the known layouts, found by the host's handles.
//!
//! Open addressing with linear probing: at most half of the cells are used, and a removal moves names back,
//! so that it leaves no trace. No name is 0. The set manager says which layout a name has, so only time
//! depends on the place of a name.

use crate::kit::alloc::{AllocError, Global};
use crate::kit::vec::Vec;

/// The number of cells at first.
const FEWEST: usize = 16;

pub struct Known {
    /// The cells, each with a name or 0. Their number is a power of two, or 0.
    cells: Vec<u64>,
    count: usize,
}

impl Known {
    /// A table without names. It allocates no memory.
    pub fn new() -> Self {
        Known {
            cells: Vec::new(Global),
            count: 0,
        }
    }

    /// Wraps around at the last cell. There are cells.
    fn wrapped(&self, at: usize) -> usize {
        at & (self.cells.len() - 1)
    }

    /// Where the search for a handle's names begins. There are cells.
    fn home(&self, handle: u64) -> usize {
        let bits = self.cells.len().trailing_zeros();
        (handle.wrapping_mul(0x9e37_79b9_7f4a_7c15) >> (64 - bits)) as usize
    }

    /// The first cell from a handle's home on for which `is_found` is true. There is one.
    fn first(&self, handle: u64, is_found: impl Fn(u64) -> bool) -> usize {
        let mut at = self.home(handle);
        while !is_found(self.cells[at]) {
            at = self.wrapped(at + 1);
        }
        at
    }

    /// The first name from a handle's home on for which `is_same` is true.
    pub fn find(&self, handle: u64, is_same: impl Fn(u64) -> bool) -> Option<u64> {
        if self.count == 0 {
            return None;
        }
        let at = self.first(handle, |name| name == 0 || is_same(name));
        Some(self.cells[at]).filter(|name| *name != 0)
    }

    /// Makes room for one more name. An error changes nothing.
    pub fn reserve(&mut self, handle_of: impl Fn(u64) -> u64) -> Result<(), AllocError> {
        if self.count < self.cells.len() / 2 {
            return Ok(());
        }
        let size = (self.cells.len() * 2).max(FEWEST);
        let mut cells = Vec::new(Global);
        cells.reserve_exact(size)?;
        cells.0.resize(size, 0);
        let before = core::mem::replace(&mut self.cells, cells);
        for name in before.iter().copied().filter(|name| *name != 0) {
            self.enter(handle_of(name), name);
        }
        Ok(())
    }

    fn enter(&mut self, handle: u64, name: u64) {
        let at = self.first(handle, |it| it == 0);
        self.cells.0[at] = name;
    }

    /// All names, in no order.
    pub fn names(&self) -> impl Iterator<Item = u64> {
        self.cells.iter().copied().filter(|name| *name != 0)
    }

    /// Inserts a name. There is room.
    pub fn put(&mut self, handle: u64, name: u64) {
        self.enter(handle, name);
        self.count += 1;
    }

    /// Removes a name that was inserted under this handle.
    pub fn remove(&mut self, handle: u64, name: u64, handle_of: impl Fn(u64) -> u64) {
        let at = self.first(handle, |it| it == name);
        self.close(at, handle_of);
        self.count -= 1;
    }

    /// Moves names back over a cell, up to the next free one.
    fn close(&mut self, mut hole: usize, handle_of: impl Fn(u64) -> u64) {
        let mut at = self.wrapped(hole + 1);
        while self.cells[at] != 0 {
            // It may move to the hole unless its home is after that.
            let home = self.home(handle_of(self.cells[at]));
            if self.wrapped(at.wrapping_sub(home)) >= self.wrapped(at.wrapping_sub(hole)) {
                self.cells.0[hole] = self.cells[at];
                hole = at;
            }
            at = self.wrapped(at + 1);
        }
        self.cells.0[hole] = 0;
    }
}

#[cfg(test)]
mod tests {
    use super::*;
    use std::collections::BTreeMap;

    /// Compares with a map at random steps. Handles are few, so many have the same home, and many have
    /// several names.
    #[test]
    fn names_against_a_map() {
        let (mut known, mut names) = (Known::new(), BTreeMap::new());
        let mut random = 7u64;
        let mut below = |end: u64| {
            random = random.wrapping_mul(0x5851_f42d_4c95_7f2d).wrapping_add(11);
            (random >> 33) % end
        };
        for name in 1..200_000 {
            let handle = below(40) * 0x1_0000;
            if below(1000) < 500 + 300 * u64::from(names.len() < 60) {
                known.reserve(|name| names[&name]).unwrap();
                names.insert(name, handle);
                known.put(handle, name);
            } else if let Some((gone, handle)) = names.iter().nth(below(60) as usize) {
                let (gone, handle) = (*gone, *handle);
                known.remove(handle, gone, |name| names[&name]);
                names.remove(&gone);
            }
            let here = names.iter().find(|it| *it.1 == handle).map(|it| *it.0);
            assert_eq!(known.find(handle, |name| Some(name) == here), here);
            assert_eq!(known.count, names.len());
        }
        for (name, handle) in &names {
            assert_eq!(known.find(*handle, |it| it == *name), Some(*name));
        }
        assert!(known.cells.len() < 8 * 300, "{}", known.cells.len());
    }

    /// Handles as drivers give them: addresses, and small numbers.
    #[test]
    fn a_name_is_found_by_few_looks() {
        for step in [1, 64, 4096, 1 << 32] {
            let mut known = Known::new();
            for name in 1..=30_000u64 {
                known.reserve(|name| name * step).unwrap();
                known.put(name * step, name);
            }
            let looks = std::cell::Cell::new(0);
            let (mut sum, mut max) = (0, 0);
            for name in 1..=30_000 {
                looks.set(0);
                let found = known.find(name * step, |it| {
                    looks.set(looks.get() + 1);
                    it == name
                });
                assert_eq!(found, Some(name));
                (sum, max) = (sum + looks.get(), max.max(looks.get()));
            }
            assert!(
                sum < 2 * 30_000 && max < 40,
                "{step}: {sum} looks, {max} at max"
            );
        }
    }
}
