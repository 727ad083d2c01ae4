//! Arrays of handles for one call, without an abort if an allocation fails.

use std_alloc::vec::Vec;

/// Up to this number of handles, no allocation is needed.
const FEW: usize = 32;

/// An array of values, at first default ones.
pub(super) enum Scratch<T> {
    Few([T; FEW], usize),
    Many(Vec<T>),
}

impl<T: Copy + Default> Scratch<T> {
    /// An array of `len` values, or `None` if an allocation fails.
    pub(super) fn new(len: usize) -> Option<Self> {
        if len <= FEW {
            return Some(Scratch::Few([T::default(); FEW], len));
        }
        let mut values = Vec::new();
        values.try_reserve_exact(len).ok()?;
        values.resize(len, T::default());
        Some(Scratch::Many(values))
    }

    pub(super) fn as_mut_slice(&mut self) -> &mut [T] {
        match self {
            Scratch::Few(values, len) => &mut values[..*len],
            Scratch::Many(values) => values,
        }
    }
}

/// Writes values to a slice up to its end or theirs, and returns the places that were written.
pub(super) fn fill<T>(places: &mut [T], values: impl Iterator<Item = T>) -> &[T] {
    let count = places
        .iter_mut()
        .zip(values)
        .map(|(place, value)| *place = value)
        .count();
    &places[..count]
}
