//! Handles and the descriptor type, as Vulkan passes them.

use core::ffi::c_void;
use core::ptr;

/// A `VkDescriptorSetLayout`.
#[repr(transparent)]
#[derive(Clone, Copy, Debug, Default, PartialEq, Eq, PartialOrd, Ord, Hash)]
pub struct DescriptorSetLayout(pub u64);

/// A `VkDescriptorPool`.
#[repr(transparent)]
#[derive(Clone, Copy, Debug, Default, PartialEq, Eq, PartialOrd, Ord, Hash)]
pub struct DescriptorPool(pub u64);

/// A `VkDescriptorSet`.
#[repr(transparent)]
#[derive(Clone, Copy, Debug, Default, PartialEq, Eq, PartialOrd, Ord, Hash)]
pub struct DescriptorSet(pub u64);

/// A `VkDevice`.
#[repr(transparent)]
#[derive(Clone, Copy, Debug, PartialEq, Eq, PartialOrd, Ord, Hash)]
pub struct DeviceHandle(pub *mut c_void);

impl DeviceHandle {
    /// Converts the number by which a binding stores the handle, as `ash::vk::Handle::as_raw` returns it.
    #[must_use]
    pub fn from_raw(raw: u64) -> Self {
        DeviceHandle(ptr::with_exposed_provenance_mut(raw as usize))
    }
}

// SAFETY: a handle only identifies a device. This crate never reads through the pointer, and Vulkan may be
// called with it from any thread.
unsafe impl Send for DeviceHandle {}

// SAFETY: as above.
unsafe impl Sync for DeviceHandle {}

/// A `VkDescriptorType`.
#[repr(transparent)]
#[derive(Clone, Copy, Debug, PartialEq, Eq, PartialOrd, Ord, Hash)]
pub struct DescriptorType(pub i32);

impl DescriptorType {
    /// `VK_DESCRIPTOR_TYPE_SAMPLER`.
    pub const SAMPLER: Self = Self(0);
    /// `VK_DESCRIPTOR_TYPE_COMBINED_IMAGE_SAMPLER`.
    pub const COMBINED_IMAGE_SAMPLER: Self = Self(1);
    /// `VK_DESCRIPTOR_TYPE_SAMPLED_IMAGE`.
    pub const SAMPLED_IMAGE: Self = Self(2);
    /// `VK_DESCRIPTOR_TYPE_STORAGE_IMAGE`.
    pub const STORAGE_IMAGE: Self = Self(3);
    /// `VK_DESCRIPTOR_TYPE_UNIFORM_TEXEL_BUFFER`.
    pub const UNIFORM_TEXEL_BUFFER: Self = Self(4);
    /// `VK_DESCRIPTOR_TYPE_STORAGE_TEXEL_BUFFER`.
    pub const STORAGE_TEXEL_BUFFER: Self = Self(5);
    /// `VK_DESCRIPTOR_TYPE_UNIFORM_BUFFER`.
    pub const UNIFORM_BUFFER: Self = Self(6);
    /// `VK_DESCRIPTOR_TYPE_STORAGE_BUFFER`.
    pub const STORAGE_BUFFER: Self = Self(7);
    /// `VK_DESCRIPTOR_TYPE_UNIFORM_BUFFER_DYNAMIC`.
    pub const UNIFORM_BUFFER_DYNAMIC: Self = Self(8);
    /// `VK_DESCRIPTOR_TYPE_STORAGE_BUFFER_DYNAMIC`.
    pub const STORAGE_BUFFER_DYNAMIC: Self = Self(9);
    /// `VK_DESCRIPTOR_TYPE_INPUT_ATTACHMENT`.
    pub const INPUT_ATTACHMENT: Self = Self(10);
    /// `VK_DESCRIPTOR_TYPE_INLINE_UNIFORM_BLOCK`. Its descriptor count is in bytes.
    pub const INLINE_UNIFORM_BLOCK: Self = Self(1_000_138_000);
    /// `VK_DESCRIPTOR_TYPE_ACCELERATION_STRUCTURE_KHR`.
    pub const ACCELERATION_STRUCTURE: Self = Self(1_000_150_000);
    /// `VK_DESCRIPTOR_TYPE_MUTABLE_EXT`, which no pool of this crate has.
    pub const MUTABLE: Self = Self(1_000_351_000);
}
