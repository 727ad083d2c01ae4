//! The part of Vulkan's C interface that the example needs, as the specification has it.

use gpu_descriptor::vulkan::raw::AllocationCallbacks;
use gpu_descriptor::vulkan::{DescriptorSet, DescriptorSetLayout, DescriptorType, DeviceHandle};
use std::ffi::{c_char, c_int, c_void};

pub const API_VERSION_1_0: u32 = 1 << 22;
pub const API_VERSION_1_3: u32 = 1 << 22 | 3 << 12;
pub const SUCCESS: i32 = 0;
pub const INCOMPLETE: i32 = 5;

/// `VkStructureType` of the structures below, as it is in their first field.
pub const APPLICATION_INFO: i32 = 0;
pub const INSTANCE_CREATE_INFO: i32 = 1;
pub const DEVICE_QUEUE_CREATE_INFO: i32 = 2;
pub const DEVICE_CREATE_INFO: i32 = 3;
pub const SAMPLER_CREATE_INFO: i32 = 31;
pub const DESCRIPTOR_SET_LAYOUT_CREATE_INFO: i32 = 32;
pub const WRITE_DESCRIPTOR_SET: i32 = 35;
pub const PHYSICAL_DEVICE_FEATURES_2: i32 = 1_000_059_000;
pub const PHYSICAL_DEVICE_PROPERTIES_2: i32 = 1_000_059_001;
pub const DEBUG_UTILS_MESSENGER_CREATE_INFO: i32 = 1_000_128_004;
pub const PHYSICAL_DEVICE_INLINE_UNIFORM_BLOCK_FEATURES: i32 = 1_000_138_000;
pub const PHYSICAL_DEVICE_DESCRIPTOR_INDEXING_PROPERTIES: i32 = 1_000_161_002;

/// `VK_SHADER_STAGE_FRAGMENT_BIT`.
pub const SHADER_STAGE_FRAGMENT: u32 = 0x10;

/// Warnings and errors, of validation and of performance.
pub const MESSAGE_SEVERITIES: u32 = 0x100 | 0x1000;
pub const MESSAGE_TYPES: u32 = 0x2 | 0x4;

/// Handles: pointers for an instance and a physical device, 64 bits for the others.
#[repr(transparent)]
#[derive(Clone, Copy)]
pub struct Instance(pub *mut c_void);

#[repr(transparent)]
#[derive(Clone, Copy)]
pub struct PhysicalDevice(pub *mut c_void);

#[repr(transparent)]
#[derive(Clone, Copy, Default)]
pub struct Messenger(pub u64);

#[repr(transparent)]
#[derive(Clone, Copy, Default)]
pub struct Sampler(pub u64);

/// A function as a loader returns it.
pub type Function = unsafe extern "system" fn();

#[repr(C)]
pub struct ApplicationInfo {
    pub s_type: i32,
    pub p_next: *const c_void,
    pub application_name: *const c_char,
    pub application_version: u32,
    pub engine_name: *const c_char,
    pub engine_version: u32,
    pub api_version: u32,
}

#[repr(C)]
pub struct InstanceCreateInfo {
    pub s_type: i32,
    pub p_next: *const c_void,
    pub flags: u32,
    pub application_info: *const ApplicationInfo,
    pub layer_count: u32,
    pub layers: *const *const c_char,
    pub extension_count: u32,
    pub extensions: *const *const c_char,
}

pub type MessengerCallback =
    unsafe extern "system" fn(u32, u32, *const MessageData, *mut c_void) -> u32;

#[repr(C)]
pub struct MessengerCreateInfo {
    pub s_type: i32,
    pub p_next: *const c_void,
    pub flags: u32,
    pub severities: u32,
    pub types: u32,
    pub callback: MessengerCallback,
    pub user_data: *mut c_void,
}

/// A message of the layer. Only its first fields are declared.
#[repr(C)]
pub struct MessageData {
    pub s_type: i32,
    pub p_next: *const c_void,
    pub flags: u32,
    pub id_name: *const c_char,
    pub id_number: i32,
    pub message: *const c_char,
}

#[repr(C)]
pub struct QueueCreateInfo {
    pub s_type: i32,
    pub p_next: *const c_void,
    pub flags: u32,
    pub family: u32,
    pub count: u32,
    pub priorities: *const f32,
}

#[repr(C)]
pub struct DeviceCreateInfo {
    pub s_type: i32,
    pub p_next: *const c_void,
    pub flags: u32,
    pub queue_info_count: u32,
    pub queue_infos: *const QueueCreateInfo,
    pub layer_count: u32,
    pub layers: *const *const c_char,
    pub extension_count: u32,
    pub extensions: *const *const c_char,
    pub features: *const c_void,
}

#[repr(C)]
pub struct InlineUniformBlockFeatures {
    pub s_type: i32,
    pub p_next: *mut c_void,
    pub inline_uniform_block: u32,
    pub update_after_bind: u32,
}

#[repr(C)]
pub struct Features2 {
    pub s_type: i32,
    pub p_next: *mut c_void,
    pub features: [u32; 55],
}

/// `VkPhysicalDeviceProperties`, the first fields by name.
#[repr(C)]
pub struct Properties {
    pub api_version: u32,
    pub driver_version: u32,
    pub vendor_id: u32,
    pub device_id: u32,
    pub device_type: i32,
    pub device_name: [u8; 256],
    pub others: [u64; 68],
}

#[cfg(target_pointer_width = "64")]
const _: () = assert!(size_of::<Properties>() == 824);

#[repr(C)]
pub struct IndexingProperties {
    pub s_type: i32,
    pub p_next: *mut c_void,
    pub max_update_after_bind_descriptors_in_all_pools: u32,
    pub others: [u32; 22],
}

#[repr(C)]
pub struct Properties2 {
    pub s_type: i32,
    pub p_next: *mut c_void,
    pub properties: Properties,
}

#[repr(C)]
pub struct LayoutBinding {
    pub binding: u32,
    pub descriptor_type: DescriptorType,
    pub descriptor_count: u32,
    pub stages: u32,
    pub immutable_samplers: *const Sampler,
}

#[repr(C)]
pub struct LayoutCreateInfo {
    pub s_type: i32,
    pub p_next: *const c_void,
    pub flags: u32,
    pub binding_count: u32,
    pub bindings: *const LayoutBinding,
}

#[repr(C)]
pub struct SamplerCreateInfo {
    pub s_type: i32,
    pub p_next: *const c_void,
    pub flags: u32,

    /// Filters, modes, levels of detail and the like. Zeros are valid.
    pub others: [u32; 15],
}

#[repr(C)]
pub struct ImageInfo {
    pub sampler: Sampler,
    pub view: u64,
    pub layout: i32,
}

#[repr(C)]
pub struct WriteSet {
    pub s_type: i32,
    pub p_next: *const c_void,
    pub set: DescriptorSet,
    pub binding: u32,
    pub element: u32,
    pub count: u32,
    pub descriptor_type: DescriptorType,
    pub images: *const ImageInfo,
    pub buffers: *const c_void,
    pub texel_buffers: *const c_void,
}

/// `VkAllocationCallbacks`.
#[repr(C)]
pub struct Callbacks {
    pub user_data: *mut c_void,
    pub allocate: unsafe extern "system" fn(*mut c_void, usize, usize, i32) -> *mut c_void,
    pub reallocate:
        unsafe extern "system" fn(*mut c_void, *mut c_void, usize, usize, i32) -> *mut c_void,
    pub free: unsafe extern "system" fn(*mut c_void, *mut c_void),
    pub allocated: *const c_void,
    pub freed: *const c_void,
}

pub type CreateInstance = unsafe extern "system" fn(
    *const InstanceCreateInfo,
    *const AllocationCallbacks,
    *mut Instance,
) -> i32;
pub type GetInstanceProcAddr =
    unsafe extern "system" fn(Instance, *const c_char) -> Option<Function>;
pub type DestroyInstance = unsafe extern "system" fn(Instance, *const AllocationCallbacks);
pub type EnumeratePhysicalDevices =
    unsafe extern "system" fn(Instance, *mut u32, *mut PhysicalDevice) -> i32;
pub type GetProperties = unsafe extern "system" fn(PhysicalDevice, *mut Properties);
pub type GetProperties2 = unsafe extern "system" fn(PhysicalDevice, *mut Properties2);
pub type GetFeatures2 = unsafe extern "system" fn(PhysicalDevice, *mut Features2);
pub type CreateMessenger = unsafe extern "system" fn(
    Instance,
    *const MessengerCreateInfo,
    *const AllocationCallbacks,
    *mut Messenger,
) -> i32;
pub type DestroyMessenger =
    unsafe extern "system" fn(Instance, Messenger, *const AllocationCallbacks);
pub type CreateDevice = unsafe extern "system" fn(
    PhysicalDevice,
    *const DeviceCreateInfo,
    *const AllocationCallbacks,
    *mut DeviceHandle,
) -> i32;
pub type GetDeviceProcAddr =
    unsafe extern "system" fn(DeviceHandle, *const c_char) -> Option<Function>;
pub type DestroyDevice = unsafe extern "system" fn(DeviceHandle, *const AllocationCallbacks);
pub type CreateLayout = unsafe extern "system" fn(
    DeviceHandle,
    *const LayoutCreateInfo,
    *const AllocationCallbacks,
    *mut DescriptorSetLayout,
) -> i32;
pub type DestroyLayout =
    unsafe extern "system" fn(DeviceHandle, DescriptorSetLayout, *const AllocationCallbacks);
pub type CreateSampler = unsafe extern "system" fn(
    DeviceHandle,
    *const SamplerCreateInfo,
    *const AllocationCallbacks,
    *mut Sampler,
) -> i32;
pub type DestroySampler =
    unsafe extern "system" fn(DeviceHandle, Sampler, *const AllocationCallbacks);
pub type UpdateSets =
    unsafe extern "system" fn(DeviceHandle, u32, *const WriteSet, u32, *const c_void);

/// `RTLD_NOW`.
pub const NOW: c_int = 2;

// Of the C library.
unsafe extern "C" {
    pub fn dlopen(name: *const c_char, flags: c_int) -> *mut c_void;
    pub fn dlsym(library: *mut c_void, name: *const c_char) -> *mut c_void;
    pub fn aligned_alloc(alignment: usize, size: usize) -> *mut c_void;
    pub fn free(block: *mut c_void);
}
