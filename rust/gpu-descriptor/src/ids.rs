//! Ids that distinguish the sets of one allocator from those of another.

use crate::DescriptorSet;
use crate::poison::is_panicking;
use core::ops::Range;
use core::sync::atomic::{AtomicU32, Ordering};

/// How many bits number the keys of an allocator. The other 24 number the allocators.
const KEY_BITS: u32 = 40;

static ALLOCATORS: AtomicU32 = AtomicU32::new(0);

/// The ids of an allocator's keys: disjoint from those of the last 16,777,215 allocators of the program.
#[derive(Clone, Debug)]
pub(crate) struct Ids(pub(crate) Range<u64>);

impl Ids {
    pub(crate) fn next() -> Self {
        let number = u64::from(ALLOCATORS.fetch_add(1, Ordering::Relaxed));
        let first = number << KEY_BITS;
        Ids(first..first + ((1 << KEY_BITS) - 1))
    }

    /// Whether a set has one of these ids.
    #[inline]
    pub(crate) fn has<S>(&self, set: &DescriptorSet<S>) -> bool {
        set.has_id_in(&self.0)
    }

    /// The sets up to the first one of another allocator.
    pub(crate) fn own<S, I>(&self, sets: I) -> Own<'_, S, I> {
        Own {
            sets,
            ids: self,
            foreign: None,
        }
    }
}

/// The sets of an iterator up to the first one of another allocator. That one is stored and dropped after
/// the call, so a panic of its `Drop` poisons nothing.
pub(crate) struct Own<'a, S, I> {
    sets: I,
    ids: &'a Ids,
    foreign: Option<DescriptorSet<S>>,
}

impl<S, I> Own<'_, S, I> {
    /// Panics if the iterator ended at a set of another allocator, unless the thread panics already.
    pub(crate) fn refuse_foreign(self) {
        if let Some(foreign) = self.foreign {
            drop(foreign);
            assert!(is_panicking(), "Set must be allocated from this allocator");
        }
    }
}

impl<S, I: Iterator<Item = DescriptorSet<S>>> Iterator for Own<'_, S, I> {
    type Item = DescriptorSet<S>;

    #[inline]
    fn next(&mut self) -> Option<DescriptorSet<S>> {
        let set = self.sets.next()?;
        if !self.ids.has(&set) {
            self.foreign = Some(set);
            return None;
        }
        Some(set)
    }
}

#[cfg(test)]
mod tests {
    use super::Ids;

    #[test]
    fn ids_of_two_allocators_are_disjoint() {
        let (first, second) = (Ids::next().0, Ids::next().0);
        assert!(first.end <= second.start || second.end <= first.start);
        assert!(!first.is_empty());
    }
}
