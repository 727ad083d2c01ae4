//! gpu-descriptor 0.3.2, over what its allocator uses of its crate of types.
#![cfg_attr(not(feature = "std"), no_std)]

extern crate alloc;

// The allocator names its types crate, which here is this one.
extern crate self as gpu_descriptor_types;

mod allocator;
mod types;

pub use {allocator::*, types::*};
