//! The kit's `std::vec`. Its readers are those of slices.

use super::NOT_RESERVED;
use super::alloc::{AllocError, Global};
use core::ops::{Deref, DerefMut, RangeBounds};

/// A vector that grows only by calls that return a `Result`.
#[derive(Debug)]
pub struct Vec<T>(pub std_alloc::vec::Vec<T>);

impl<T> Vec<T> {
    /// `items`, `len`: it is empty. `capacity`: it allocates nothing.
    pub fn new(_: Global) -> Self {
        Vec(std_alloc::vec::Vec::new())
    }

    /// The kit's `capacity`.
    #[inline]
    pub fn capacity(&self) -> usize {
        self.0.capacity()
    }

    /// `items`, `len`: nothing moves out. `ok`: on `Ok` there is capacity for `additional` more. `succeeds`:
    /// if there was before, it is `Ok`, and nothing is allocated.
    #[inline]
    pub fn reserve(&mut self, additional: usize) -> Result<(), AllocError> {
        if additional <= self.0.capacity() - self.0.len() {
            return Ok(());
        }
        self.grow(additional)
    }

    #[cold]
    #[inline(never)]
    fn grow(&mut self, additional: usize) -> Result<(), AllocError> {
        self.0.try_reserve(additional).map_err(|_| AllocError)
    }

    /// As `reserve`. The kit's clause `capacity_exact` isn't met: Rust doesn't promise it. The sources
    /// keep of a capacity only that it is enough.
    #[inline]
    pub fn reserve_exact(&mut self, additional: usize) -> Result<(), AllocError> {
        self.0.try_reserve_exact(additional).map_err(|_| AllocError)
    }

    /// `items`, `len`: nothing moves out. `frees`: an empty vector frees its memory, and nothing is allocated.
    #[inline]
    pub fn shrink_to_fit(&mut self) {
        self.0.shrink_to_fit();
    }

    /// `rest`: gives the values of the range, in order. `kept`: the others stay.
    #[inline]
    pub fn drain<R: RangeBounds<usize>>(&mut self, range: R) -> std_alloc::vec::Drain<'_, T> {
        self.0.drain(range)
    }

    /// `items`, `len`: the value is last. `capacity`, `in_place`: nothing moves.
    #[inline]
    pub fn push_reserved(&mut self, value: T) {
        assert!(self.0.len() < self.0.capacity(), "{NOT_RESERVED}");
        self.0.push(value);
    }

    /// `result`, `items`, `len`: takes the last value, if there is one.
    #[inline]
    pub fn pop(&mut self) -> Option<T> {
        self.0.pop()
    }
}

impl<T> Deref for Vec<T> {
    type Target = [T];

    #[inline]
    fn deref(&self) -> &[T] {
        &self.0
    }
}

impl<T> DerefMut for Vec<T> {
    #[inline]
    fn deref_mut(&mut self) -> &mut [T] {
        &mut self.0
    }
}

/// `remaining`: the values in their order.
impl<T> IntoIterator for Vec<T> {
    type Item = T;
    type IntoIter = std_alloc::vec::IntoIter<T>;

    #[inline]
    fn into_iter(self) -> Self::IntoIter {
        self.0.into_iter()
    }
}

#[cfg(test)]
mod tests {
    use super::{AllocError, Global, Vec};

    #[test]
    fn capacity_is_as_asked_and_nothing_moves() {
        let mut items = Vec::new(Global);
        items.reserve_exact(3).unwrap();
        let (first, capacity) = (items.as_ptr(), items.0.capacity());
        for item in 1..=3 {
            items.push_reserved(item);
        }
        assert!(capacity >= 3);
        assert_eq!((items.as_ptr(), items.0.capacity()), (first, capacity));
        assert_eq!(*items, [1, 2, 3]);
    }

    #[test]
    fn reserved_is_as_much_as_was_asked_for() {
        let mut items = Vec::new(Global);
        assert_eq!(items.capacity(), 0);
        items.reserve_exact(2).unwrap();
        items.push_reserved(1);
        items.reserve(2).unwrap();
        assert!(items.capacity() >= 3);
        let capacity = items.capacity();
        items.reserve(2).unwrap();
        items.reserve_exact(2).unwrap();
        assert_eq!((items.capacity(), &*items), (capacity, &[1][..]));
        assert_eq!(items.reserve(usize::MAX), Err(AllocError));
        assert_eq!(items.reserve_exact(usize::MAX), Err(AllocError));
        assert_eq!((items.capacity(), &*items), (capacity, &[1][..]));
    }

    #[test]
    fn an_empty_vector_frees_its_memory() {
        let mut items = Vec::new(Global);
        items.reserve(1000).unwrap();
        items.push_reserved(1);
        assert_eq!(items.pop(), Some(1));
        items.shrink_to_fit();
        assert_eq!(items.capacity(), 0);
    }

    #[test]
    fn a_drain_takes_a_range_in_order() {
        let mut items = Vec(std_alloc::vec![1, 2, 3, 4]);
        assert!(items.drain(2..).eq([3, 4]));
        assert_eq!(*items, [1, 2]);
        assert!(items.drain(2..).eq([]));
        assert!(items.drain(..).eq([1, 2]));
        assert!(items.is_empty());
    }

    #[test]
    #[should_panic = "no memory was reserved"]
    fn a_push_without_capacity() {
        Vec::new(Global).push_reserved(1);
    }

    #[test]
    fn last_values_come_first() {
        let mut items = Vec(std_alloc::vec![1, 2]);
        assert_eq!(items.pop(), Some(2));
        assert_eq!(items.into_iter().collect::<std_alloc::vec::Vec<_>>(), [1]);
    }

    #[test]
    fn capacity_for_as_many_more_as_were_reserved_and_it_stays() {
        let mut items = Vec::new(Global);
        assert_eq!(items.capacity(), 0);
        items.reserve(3).unwrap();
        let capacity = items.capacity();
        (0..capacity).for_each(|_| items.push_reserved(0));
        assert!(capacity >= 3);
        items.reserve(0).unwrap();
        assert_eq!(items.capacity(), capacity);
        for more in [2, 50] {
            items.reserve(more).unwrap();
            (0..more).for_each(|_| items.push_reserved(0));
        }
        assert_eq!(items.len(), capacity + 52);
        items.pop();
        items.reserve(1).unwrap();
        items.push_reserved(0);
    }
}
