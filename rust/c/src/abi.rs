//! The types of `gpu_descriptor.h`.

use crate::slot::GdAllocator;
use core::ffi::{CStr, c_void};

/// `GD_ABI`, which names the shared library, too.
pub const ABI: u64 = 5;

/// `GD_ABI_FINGERPRINT`.
pub const FINGERPRINT: u64 = (size_of::<GdLayoutStatistics>() as u64) << 56
    | ABI << 48
    | (size_of::<GdStatistics>() as u64) << 40
    | (size_of::<GdDevice>() as u64) << 32
    | (size_of::<GdPoolInfo>() as u64) << 24
    | (size_of::<GdAllocator>() as u64) << 16
    | (size_of::<GdLayout>() as u64) << 8
    | size_of::<GdSet>() as u64;

/// `gd_status`.
#[repr(transparent)]
#[derive(Clone, Copy, Debug, PartialEq, Eq)]
pub struct GdStatus(pub u32);

impl GdStatus {
    pub const OK: Self = GdStatus(0);
    pub const OUT_OF_DEVICE_MEMORY: Self = GdStatus(10);
    pub const OUT_OF_HOST_MEMORY: Self = GdStatus(11);
    pub const FRAGMENTATION: Self = GdStatus(12);
    pub const OUT_OF_POOL_MEMORY: Self = GdStatus(13);
    pub const DEVICE_LOST: Self = GdStatus(14);
    pub const NULL_POINTER: Self = GdStatus(20);
    pub const BAD_ALLOCATOR: Self = GdStatus(21);
    pub const BAD_LAYOUT: Self = GdStatus(22);
    pub const BAD_SET: Self = GdStatus(23);
    pub const BAD_FLAGS: Self = GdStatus(24);
    pub const BAD_COUNTS: Self = GdStatus(25);
    pub const BAD_RESULT: Self = GdStatus(26);
    pub const BUSY: Self = GdStatus(27);
    pub const OUTSTANDING: Self = GdStatus(28);
    pub const INTERNAL_ERROR: Self = GdStatus(29);
    pub const BAD_VERSION: Self = GdStatus(30);

    /// The name of the header.
    pub fn name(self) -> &'static CStr {
        match self.0 {
            0 => c"GD_OK",
            10 => c"GD_OUT_OF_DEVICE_MEMORY",
            11 => c"GD_OUT_OF_HOST_MEMORY",
            12 => c"GD_FRAGMENTATION",
            13 => c"GD_OUT_OF_POOL_MEMORY",
            14 => c"GD_DEVICE_LOST",
            20 => c"GD_NULL_POINTER",
            21 => c"GD_BAD_ALLOCATOR",
            22 => c"GD_BAD_LAYOUT",
            23 => c"GD_BAD_SET",
            24 => c"GD_BAD_FLAGS",
            25 => c"GD_BAD_COUNTS",
            26 => c"GD_BAD_RESULT",
            27 => c"GD_BUSY",
            28 => c"GD_OUTSTANDING",
            29 => c"GD_INTERNAL_ERROR",
            30 => c"GD_BAD_VERSION",
            _ => c"unknown status",
        }
    }
}

/// `GD_EXTERNALLY_SYNCHRONIZED`.
pub const EXTERNALLY_SYNCHRONIZED: u32 = 1;

/// `gd_pool_info`.
#[repr(C)]
pub struct GdPoolInfo {
    pub max_sets: u32,
    pub flags: u32,
    pub counts: [u32; 14],
}

pub type CreatePool = unsafe extern "C" fn(*mut c_void, *const GdPoolInfo, *mut u64) -> GdStatus;
pub type DestroyPool = unsafe extern "C" fn(*mut c_void, u64);
pub type AllocateSets =
    unsafe extern "C" fn(*mut c_void, u64, u32, *const u64, *mut u64) -> GdStatus;
pub type AllocateVariableSets =
    unsafe extern "C" fn(*mut c_void, u64, u32, *const u64, *const u32, *mut u64) -> GdStatus;
pub type PoolCreated = unsafe extern "C" fn(*mut c_void, u64, *const GdPoolInfo);
pub type FreeSets = unsafe extern "C" fn(*mut c_void, u64, u32, *const u64);

/// `gd_device`.
#[repr(C)]
#[derive(Clone, Copy)]
pub struct GdDevice {
    pub user: *mut c_void,
    pub create_pool: Option<CreatePool>,
    pub destroy_pool: Option<DestroyPool>,
    pub allocate_sets: Option<AllocateSets>,
    pub free_sets: Option<FreeSets>,
}

/// `gd_layout`.
#[repr(C)]
#[derive(Clone, Copy)]
pub struct GdLayout {
    pub index: u64,
    pub owner: u64,
}

/// `gd_set`. The two halves of its name are the numbers of the set manager's handle.
#[repr(C)]
#[derive(Clone, Copy)]
pub struct GdSet {
    pub handle: u64,
    pub place: u32,
    pub generation: u32,
    pub owner: u64,
}

impl GdSet {
    pub const NONE: Self = GdSet {
        handle: 0,
        place: 0,
        generation: 0,
        owner: 0,
    };
}

/// `gd_statistics`.
#[repr(C)]
#[derive(Clone, Copy)]
pub struct GdStatistics {
    pub outstanding: u64,
    pub waiting: u64,
    pub kept: u64,
    pub layouts: u64,
    pub pools: u64,
    pub pool_sets: u64,
    pub pool_descriptors: u64,
    pub peak_pools: u64,
    pub peak_pool_sets: u64,
    pub peak_pool_descriptors: u64,
    pub max_pool_descriptors: u64,
    pub update_after_bind_capacity: u64,
    pub update_after_bind_limit: u64,
}

/// `gd_layout_statistics`.
#[repr(C)]
#[derive(Clone, Copy)]
pub struct GdLayoutStatistics {
    pub kept: u64,
    pub pools: u64,
    pub pool_sets_used: u64,
    pub pool_sets_free: u64,
}

/// The sizes that C gives them.
const _: () = {
    assert!(size_of::<GdPoolInfo>() == 64);
    assert!(size_of::<GdDevice>() == 5 * size_of::<usize>());
    assert!(size_of::<GdLayout>() == 16 && size_of::<GdSet>() == 24);
    assert!(size_of::<GdStatistics>() == 104 && size_of::<GdLayoutStatistics>() == 32);
};

#[cfg(test)]
mod tests;
