//! gpu-descriptor-proved under the name gpu-descriptor, for `[patch.crates-io]`. docs/MIGRATING.md of
//! its repository says how.
//!
//! A `DescriptorAllocator` of any crate in the build begins with a bound of 65,536 descriptors on each new pool.
//! The features `serde` and `tracing` do nothing.
#![no_std]

pub use proved::*;
