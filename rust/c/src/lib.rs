//! The C interface of the allocator. `include/gpu_descriptor.h` states what each function does.
//!
//! The modules `gpu_descriptor_types`, `gpu_descriptor`, `descriptor_table` and `descriptor_manager` are
//! generated from proved sources. They are files of rust/gpu-descriptor, and so are the `kit` that they use
//! and `statistics`. Written by hand are `device`, which calls the host's functions; `allocator`, a set
//! manager over it; `known`, which finds its layouts; `slot`, through which each call takes its turn
//! (`lock`); and `exports`.
#![cfg_attr(not(any(feature = "std", test)), no_std)]
#![deny(unsafe_code)]

extern crate alloc as std_alloc;

#[allow(unsafe_code)]
mod abi;
mod allocator;
#[path = "../../gpu-descriptor/src/descriptor_manager/mod.rs"]
#[allow(dead_code, unused_imports, clippy::all)]
#[forbid(unsafe_code)]
#[rustfmt::skip]
mod descriptor_manager;
#[path = "../../gpu-descriptor/src/descriptor_table/mod.rs"]
#[allow(dead_code, unused_imports, clippy::all)]
#[forbid(unsafe_code)]
#[rustfmt::skip]
mod descriptor_table;
#[allow(unsafe_code)]
mod device;
#[allow(unsafe_code)]
mod exports;
#[path = "../../gpu-descriptor/src/gpu_descriptor/mod.rs"]
#[allow(dead_code, unused_imports, clippy::all)]
#[rustfmt::skip]
mod gpu_descriptor;
#[path = "../../gpu-descriptor/src/gpu_descriptor_types/mod.rs"]
#[allow(dead_code, unused_imports, clippy::all)]
#[forbid(unsafe_code)]
#[rustfmt::skip]
mod gpu_descriptor_types;
#[path = "../../gpu-descriptor/src/kit/mod.rs"]
#[allow(dead_code, unused_imports)]
#[forbid(unsafe_code)]
mod kit;
mod known;
mod lock;
#[allow(unsafe_code)]
mod pool_created;
// Tests use the allocator and the panic handler of std.
#[cfg(not(any(feature = "std", test)))]
#[allow(unsafe_code)]
mod memory;
#[allow(unsafe_code)]
mod slot;
#[path = "../../gpu-descriptor/src/statistics.rs"]
#[allow(dead_code)]
#[forbid(unsafe_code)]
mod statistics;
