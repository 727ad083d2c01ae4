//! The device trait of gpu-descriptor-proved and its types, under the name gpu-descriptor-types, for
//! `[patch.crates-io]`. They are those of the package gpu-descriptor beside it.
#![no_std]

pub use proved::{
    CreatePoolError, DescriptorDevice, DescriptorPoolCreateFlags, DescriptorTotalCount,
    DeviceAllocationError,
};
