//! What the line program takes of the kit's `std::vec` beyond the crate.

pub use crate::crate_kit::vec::Vec;
pub use std_alloc::vec::IntoIter;

use super::alloc::{AllocError, AllocFailed, Global};

/// So many copies of an item.
pub fn filled<T: Clone>(alloc: Global, item: T, count: usize) -> Result<Vec<T>, AllocError> {
    let mut items = Vec::with_capacity(alloc, count)?;
    items.0.resize(count, item);
    Ok(items)
}

impl<T> Vec<T> {
    pub fn with_capacity(alloc: Global, capacity: usize) -> Result<Self, AllocError> {
        let mut items = Vec::new(alloc);
        items.reserve_exact(capacity)?;
        Ok(items)
    }

    /// `items`, `len`: the value is last; or, if an allocation failed, nothing changed and the value
    /// is returned.
    pub fn push(&mut self, value: T) -> Result<(), AllocFailed<T>> {
        match self.0.try_reserve(1) {
            Ok(()) => {
                self.0.push(value);
                Ok(())
            }
            Err(_) => Err(AllocFailed { value }),
        }
    }
}

impl<T: PartialEq> PartialEq for Vec<T> {
    fn eq(&self, other: &Self) -> bool {
        self.0 == other.0
    }
}

impl<T: Eq> Eq for Vec<T> {}

impl<T> From<AllocFailed<T>> for AllocError {
    fn from(_: AllocFailed<T>) -> Self {
        AllocError
    }
}
