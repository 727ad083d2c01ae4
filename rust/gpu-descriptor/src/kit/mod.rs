//! What the proved sources take of the kit's std, over Rust's `core` and `alloc`.
//!
//! The proofs of the sources rest on the contracts of the kit's own types. Each item here names the
//! clauses that it has to meet, and its tests show them. It has only what the sources call, so a call
//! that isn't here doesn't compile: above all, no call of Rust's that aborts if an allocation fails.
//! The rest of what the sources take of `std` is Rust's own, under the same names.

pub mod bitflags;
pub mod collections;
pub mod indexmap;
pub mod vec;

pub use core::{error, fmt, hash, mem, num, ops};

pub mod marker {
    pub use core::marker::PhantomData;
}

pub mod alloc {
    /// The allocator for memory: that of the program.
    #[derive(Clone, Copy, Debug)]
    pub struct Global;

    /// An allocation failed.
    #[derive(Clone, Copy, Debug, PartialEq, Eq)]
    pub struct AllocError;

    /// An allocation for a value failed. It returns the value.
    #[derive(Clone, Copy, Debug, PartialEq, Eq)]
    pub struct AllocFailed<T> {
        pub value: T,
    }
}

/// Why `push_reserved` panics. The kit requires `len < capacity` there, which is proved of each call;
/// the capacity here is checked in every build, so no push allocates.
const NOT_RESERVED: &str = "a push for which no memory was reserved";
