#![doc = include_str!("../README.md")]
#![cfg_attr(not(feature = "std"), no_std)]
#![cfg_attr(docsrs, feature(doc_cfg))]
#![deny(unsafe_op_in_unsafe_fn)]
#![warn(missing_docs, clippy::missing_panics_doc, clippy::must_use_candidate)]

extern crate alloc as std_alloc;

mod allocator;
mod cache;
#[cfg(doctest)]
mod compile_fail;
#[forbid(unsafe_code)]
mod counted;
#[forbid(unsafe_code)]
mod counts;
#[allow(clippy::all, missing_docs)]
#[warn(clippy::incompatible_msrv, clippy::missing_panics_doc, clippy::missing_safety_doc)]
#[forbid(unsafe_code)]
#[rustfmt::skip]
mod descriptor_frames;
#[allow(clippy::all, missing_docs)]
#[warn(clippy::incompatible_msrv, clippy::missing_panics_doc, clippy::missing_safety_doc)]
#[forbid(unsafe_code)]
#[rustfmt::skip]
mod descriptor_manager;
#[allow(clippy::all, missing_docs)]
#[warn(clippy::incompatible_msrv, clippy::missing_panics_doc, clippy::missing_safety_doc)]
#[forbid(unsafe_code)]
#[rustfmt::skip]
mod descriptor_table;
mod device;
pub mod frames;
#[allow(clippy::all, missing_docs)]
#[warn(clippy::incompatible_msrv, clippy::missing_panics_doc, clippy::missing_safety_doc)]
#[deny(unsafe_code)]
#[rustfmt::skip]
mod gpu_descriptor;
#[allow(clippy::all, missing_docs)]
#[warn(clippy::incompatible_msrv, clippy::missing_panics_doc, clippy::missing_safety_doc)]
#[forbid(unsafe_code)]
#[rustfmt::skip]
mod gpu_descriptor_types;
#[forbid(unsafe_code)]
mod ids;
#[forbid(unsafe_code)]
mod kit;
#[cfg(all(test, feature = "std"))]
mod kit_refusals;
pub mod manager;
#[forbid(unsafe_code)]
mod poison;
#[forbid(unsafe_code)]
mod statistics;
#[cfg(feature = "vulkan")]
pub mod vulkan;

pub use crate::gpu_descriptor::{
    AllocationError, DescriptorSet, DescriptorSetLayoutCreateFlags, PoolView, SetLayout,
};
pub use crate::gpu_descriptor_types::{
    CreatePoolError, DescriptorPoolCreateFlags, DescriptorTotalCount, DeviceAllocationError,
};
pub use allocator::DescriptorAllocator;
pub use device::DescriptorDevice;
pub use statistics::{LayoutStatistics, Statistics};
