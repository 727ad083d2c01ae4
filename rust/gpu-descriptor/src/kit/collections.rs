//! The kit's `std::collections`.

use super::NOT_RESERVED;
use super::alloc::{AllocError, AllocFailed, Global};
use core::ops::{Index, IndexMut};

/// A queue that grows only by calls that return a `Result`.
///
/// The allocator's books also rely on this: no call lowers the capacity. Rust's `VecDeque` doesn't promise
/// it, but does so; otherwise `push_back_reserved` would panic.
#[derive(Debug)]
pub struct VecDeque<T>(std_alloc::collections::VecDeque<T>);

impl<T> VecDeque<T> {
    /// `items`, `len`: it is empty. `capacity`: it allocates nothing.
    pub fn new(_: Global) -> Self {
        VecDeque(std_alloc::collections::VecDeque::new())
    }

    /// `len`: how many items there are.
    #[inline]
    pub fn len(&self) -> usize {
        self.0.len()
    }

    /// `len`: whether there are none.
    #[inline]
    pub fn is_empty(&self) -> bool {
        self.0.is_empty()
    }

    /// `items`: none is left. `capacity` stays.
    pub fn clear(&mut self) {
        self.0.clear();
    }

    /// `value`: the item at the place, if there is one.
    #[inline]
    pub fn get(&self, index: usize) -> Option<&T> {
        self.0.get(index)
    }

    /// `value`: the last item, if there is one.
    #[inline]
    pub fn back(&self) -> Option<&T> {
        self.0.back()
    }

    /// `value`: the first item, if there is one.
    #[inline]
    pub fn front(&self) -> Option<&T> {
        self.0.front()
    }

    /// `value`, `rest`: takes the first item, if there is one. `capacity`: it stays.
    #[inline]
    pub fn pop_front(&mut self) -> Option<T> {
        self.0.pop_front()
    }

    /// `value`, `rest`: takes the last item, if there is one. `capacity`: it stays.
    #[inline]
    pub fn pop_back(&mut self) -> Option<T> {
        self.0.pop_back()
    }

    /// `items`, `len`: nothing changes. `ok`: there is capacity for `additional` more. `capacity`: it doesn't
    /// fall. `full`: it fails only if capacity was missing.
    #[inline]
    pub fn reserve(&mut self, additional: usize) -> Result<(), AllocError> {
        if additional <= self.0.capacity() - self.0.len() {
            return Ok(());
        }
        self.grow(additional)
    }

    /// Apart from `reserve`, so that a caller for which there is room doesn't pay for what moves items.
    #[cold]
    #[inline(never)]
    fn grow(&mut self, additional: usize) -> Result<(), AllocError> {
        self.0.try_reserve(additional).map_err(|_| AllocError)
    }

    /// `items`, `len`: the value is last. `capacity`: it stays.
    #[inline]
    pub fn push_back_reserved(&mut self, value: T) {
        assert!(self.0.len() < self.0.capacity(), "{NOT_RESERVED}");
        self.0.push_back(value);
    }

    /// `items`, `len`: the value is at its place; or `value_returned`, `unchanged`. `full`: it fails only
    /// if capacity was missing.
    pub fn insert(&mut self, index: usize, value: T) -> Result<(), AllocFailed<T>> {
        match self.0.try_reserve(1) {
            Ok(()) => {
                self.0.insert(index, value);
                Ok(())
            }
            Err(_) => Err(AllocFailed { value }),
        }
    }
}

/// `value`: the item at the place, which has to be there; else a panic.
impl<T> Index<usize> for VecDeque<T> {
    type Output = T;

    #[inline]
    fn index(&self, index: usize) -> &T {
        &self.0[index]
    }
}

impl<T> IndexMut<usize> for VecDeque<T> {
    #[inline]
    fn index_mut(&mut self, index: usize) -> &mut T {
        &mut self.0[index]
    }
}

#[cfg(test)]
mod tests {
    use super::{Global, VecDeque};
    use std_alloc::vec::Vec;

    fn items(queue: &VecDeque<u32>) -> Vec<u32> {
        queue.0.iter().copied().collect()
    }

    #[test]
    fn capacity_for_as_many_more_as_were_reserved_and_it_stays() {
        let mut queue = VecDeque::new(Global);
        queue.reserve(3).unwrap();
        let capacity = queue.0.capacity();
        for item in 1..=3 {
            queue.push_back_reserved(item);
        }
        assert_eq!((queue.pop_front(), queue.pop_back()), (Some(1), Some(3)));
        queue.reserve(2).unwrap();
        assert_eq!(queue.0.capacity(), capacity);
        assert_eq!(items(&queue), [2]);
    }

    #[test]
    fn a_full_queue_gets_capacity() {
        let mut queue = VecDeque::new(Global);
        queue.reserve(2).unwrap();
        let capacity = queue.0.capacity();
        (0..capacity).for_each(|_| queue.push_back_reserved(0));
        queue.reserve(2).unwrap();
        (0..2).for_each(|_| queue.push_back_reserved(0));
        assert_eq!(queue.len(), capacity + 2);
    }

    #[test]
    #[should_panic = "no memory was reserved"]
    fn a_push_without_capacity() {
        VecDeque::new(Global).push_back_reserved(1);
    }

    #[test]
    fn an_inserted_item_is_at_its_place() {
        let mut queue = VecDeque::new(Global);
        for (index, item) in [(0, 1), (1, 4), (1, 2), (2, 3)] {
            queue.insert(index, item).unwrap();
        }
        assert_eq!(items(&queue), [1, 2, 3, 4]);
        assert_eq!(
            (queue.front(), queue.back(), queue.get(4)),
            (Some(&1), Some(&4), None)
        );
        queue[1] += 5;
        assert_eq!((queue[1], queue.len(), queue.is_empty()), (7, 4, false));
    }
}
