//! The structures and function types of Vulkan's C interface that [`Functions`](super::Functions) use.

use super::handles::{
    DescriptorPool, DescriptorSet, DescriptorSetLayout, DescriptorType, DeviceHandle,
};
use core::ffi::c_void;

/// `VK_STRUCTURE_TYPE_DESCRIPTOR_POOL_CREATE_INFO`.
pub const STRUCTURE_TYPE_DESCRIPTOR_POOL_CREATE_INFO: i32 = 33;

/// `VK_STRUCTURE_TYPE_DESCRIPTOR_SET_ALLOCATE_INFO`.
pub const STRUCTURE_TYPE_DESCRIPTOR_SET_ALLOCATE_INFO: i32 = 34;

/// `VK_STRUCTURE_TYPE_DESCRIPTOR_POOL_INLINE_UNIFORM_BLOCK_CREATE_INFO`.
pub const STRUCTURE_TYPE_DESCRIPTOR_POOL_INLINE_UNIFORM_BLOCK_CREATE_INFO: i32 = 1_000_138_003;

/// `VK_STRUCTURE_TYPE_DESCRIPTOR_SET_VARIABLE_DESCRIPTOR_COUNT_ALLOCATE_INFO`.
pub const STRUCTURE_TYPE_DESCRIPTOR_SET_VARIABLE_DESCRIPTOR_COUNT_ALLOCATE_INFO: i32 =
    1_000_161_003;

/// `VK_DESCRIPTOR_POOL_CREATE_FREE_DESCRIPTOR_SET_BIT`.
pub const DESCRIPTOR_POOL_CREATE_FREE_DESCRIPTOR_SET: u32 = 0x1;

/// `VK_DESCRIPTOR_POOL_CREATE_UPDATE_AFTER_BIND_BIT`.
pub const DESCRIPTOR_POOL_CREATE_UPDATE_AFTER_BIND: u32 = 0x2;

/// A `VkDescriptorPoolSize`.
#[repr(C)]
#[derive(Clone, Copy, Debug, PartialEq, Eq)]
pub struct DescriptorPoolSize {
    /// `type`.
    pub descriptor_type: DescriptorType,
    /// `descriptorCount`, in bytes for inline uniform blocks.
    pub descriptor_count: u32,
}

/// A `VkDescriptorPoolCreateInfo`.
#[repr(C)]
#[derive(Clone, Copy, Debug)]
pub struct DescriptorPoolCreateInfo {
    /// `sType`.
    pub s_type: i32,
    /// `pNext`.
    pub p_next: *const c_void,
    /// `flags`.
    pub flags: u32,
    /// `maxSets`.
    pub max_sets: u32,
    /// `poolSizeCount`.
    pub pool_size_count: u32,
    /// `pPoolSizes`.
    pub p_pool_sizes: *const DescriptorPoolSize,
}

/// A `VkDescriptorPoolInlineUniformBlockCreateInfo`.
#[repr(C)]
#[derive(Clone, Copy, Debug)]
pub struct DescriptorPoolInlineUniformBlockCreateInfo {
    /// `sType`.
    pub s_type: i32,
    /// `pNext`.
    pub p_next: *const c_void,
    /// `maxInlineUniformBlockBindings`.
    pub max_inline_uniform_block_bindings: u32,
}

/// A `VkDescriptorSetAllocateInfo`.
#[repr(C)]
#[derive(Clone, Copy, Debug)]
pub struct DescriptorSetAllocateInfo {
    /// `sType`.
    pub s_type: i32,
    /// `pNext`.
    pub p_next: *const c_void,
    /// `descriptorPool`.
    pub descriptor_pool: DescriptorPool,
    /// `descriptorSetCount`.
    pub descriptor_set_count: u32,
    /// `pSetLayouts`.
    pub p_set_layouts: *const DescriptorSetLayout,
}

/// A `VkDescriptorSetVariableDescriptorCountAllocateInfo`.
#[repr(C)]
#[derive(Clone, Copy, Debug)]
pub struct DescriptorSetVariableDescriptorCountAllocateInfo {
    /// `sType`.
    pub s_type: i32,
    /// `pNext`.
    pub p_next: *const c_void,
    /// `descriptorSetCount`.
    pub descriptor_set_count: u32,
    /// `pDescriptorCounts`.
    pub p_descriptor_counts: *const u32,
}

/// A `VkAllocationCallbacks`, which only the driver reads.
#[repr(C)]
#[derive(Debug)]
pub struct AllocationCallbacks {
    opaque: [u8; 0],
}

/// `PFN_vkVoidFunction`.
pub type VoidFunction = Option<unsafe extern "system" fn()>;

/// `PFN_vkCreateDescriptorPool`. It returns a `VkResult`.
pub type CreateDescriptorPool = unsafe extern "system" fn(
    device: DeviceHandle,
    create_info: *const DescriptorPoolCreateInfo,
    callbacks: *const AllocationCallbacks,
    pool: *mut DescriptorPool,
) -> i32;

/// `PFN_vkDestroyDescriptorPool`.
pub type DestroyDescriptorPool = unsafe extern "system" fn(
    device: DeviceHandle,
    pool: DescriptorPool,
    callbacks: *const AllocationCallbacks,
);

/// `PFN_vkAllocateDescriptorSets`. It returns a `VkResult`.
pub type AllocateDescriptorSets = unsafe extern "system" fn(
    device: DeviceHandle,
    allocate_info: *const DescriptorSetAllocateInfo,
    sets: *mut DescriptorSet,
) -> i32;

/// `PFN_vkFreeDescriptorSets`. It returns a `VkResult`.
pub type FreeDescriptorSets = unsafe extern "system" fn(
    device: DeviceHandle,
    pool: DescriptorPool,
    set_count: u32,
    sets: *const DescriptorSet,
) -> i32;
