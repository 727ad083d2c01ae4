//! A device over the functions of Vulkan.
//!
//! [`Device`] implements [`DescriptorDevice`](crate::DescriptorDevice) over four functions of Vulkan
//! and a handle of a `VkDevice`. It depends on no binding: pass the functions of your loader.
//! [`DescriptorAllocator`](crate::DescriptorAllocator), [`FrameManager`](crate::frames::FrameManager) and
//! [`SetManager`](crate::manager::SetManager) take it like any other device.
//!
//! The [crate's root](crate#over-vulkan-with-ash) has the device, a layout and a set over ash.
//!
//! # Results
//!
//! `VkResult` | a new pool | sets
//! ---|---|---
//! `VK_SUCCESS` | granted | granted
//! `VK_ERROR_OUT_OF_HOST_MEMORY` | `OutOfHostMemory` | `OutOfHostMemory`
//! `VK_ERROR_OUT_OF_DEVICE_MEMORY` | `OutOfDeviceMemory` | `OutOfDeviceMemory`
//! `VK_ERROR_FRAGMENTATION`, `VK_ERROR_FRAGMENTED_POOL` | `Fragmentation` | `FragmentedPool`
//! `VK_ERROR_OUT_OF_POOL_MEMORY` | `Fragmentation` | `OutOfPoolMemory`
//! any other | `OutOfHostMemory` | `OutOfHostMemory`
//!
//! Vulkan lists no other result for these calls, but a driver may return `VK_ERROR_UNKNOWN`, and some
//! return `VK_ERROR_DEVICE_LOST`, after which [`Device::is_lost`] is true. `OutOfHostMemory` ends the request
//! at once, and no other pool is asked. `vkFreeDescriptorSets` has no error.
//!
//! # Variable counts, and mutable types
//!
//! [`Device`] passes no `VkDescriptorSetVariableDescriptorCountAllocateInfo`; [`VariableDevice`] does, for layouts with
//! a count. Layouts with a mutable type aren't supported: their sets need pools with descriptors of
//! `VK_DESCRIPTOR_TYPE_MUTABLE_EXT`, for which [`DescriptorTotalCount`](crate::DescriptorTotalCount) has no count.

mod count;
mod device;
mod functions;
mod handles;
pub mod raw;
mod results;
mod scratch;
mod variable;

pub use count::{CountError, LayoutFlagsError, count_bindings, layout_flags};
pub use device::Device;
pub use functions::{Functions, MissingFunction};
pub use handles::{
    DescriptorPool, DescriptorSet, DescriptorSetLayout, DescriptorType, DeviceHandle,
};
pub use variable::{VariableDevice, VariableLayout};

/// A [`SetManager`](crate::manager::SetManager) over a [`Device`], or over a pointer to one: with
/// `SetManager<Arc<Device>>` several share a device.
pub type SetManager<D = Device> =
    crate::manager::SetManager<DescriptorSetLayout, DescriptorPool, DescriptorSet, D>;
