//! The device.

use super::functions::Functions;
use super::handles::{
    DescriptorPool, DescriptorSet, DescriptorSetLayout, DescriptorType, DeviceHandle,
};
use super::raw::{self, AllocationCallbacks, DescriptorPoolSize};
use super::scratch::{Scratch, fill};
use super::{count, results};
use crate::{
    CreatePoolError, DescriptorDevice, DescriptorPoolCreateFlags, DescriptorTotalCount,
    DeviceAllocationError,
};
use core::ptr::{self, NonNull};
use core::sync::atomic::{AtomicBool, Ordering};

/// The max of the sets that one call frees. Their handles are on the stack.
const RELEASED_AT_ONCE: usize = 128;

/// A `VkDevice` with the functions that are called on it, as a [`DescriptorDevice`].
///
/// A request for more than 32 sets allocates memory for their handles, and returns `OutOfHostMemory` if that
/// fails. Freeing allocates no memory: one call of `vkFreeDescriptorSets` frees at most 128 sets.
///
/// Inline uniform blocks need Vulkan 1.3 or `VK_EXT_inline_uniform_block`, and update-after-bind layouts
/// need Vulkan 1.2 or `VK_EXT_descriptor_indexing`. A pool is created with 12 more bytes for each block, since
/// some drivers round the bytes of a set up; these don't count against the limit of the allocator.
///
/// It is `Send` and `Sync`: Vulkan requires synchronization only of a pool, and only the allocator that
/// created a pool uses it. Allocators of one `VkDevice` share a `Device` by reference; it isn't `Copy`, since
/// it stores whether the device is [lost](Self::is_lost).
///
/// ```
/// use gpu_descriptor::{DescriptorAllocator, DescriptorSetLayoutCreateFlags, vulkan};
/// use vulkan::{DescriptorType, Device, DeviceHandle, DescriptorSetLayout, Functions};
/// # use vulkan::{DescriptorPool, DescriptorSet, raw};
/// # unsafe extern "system" fn create_descriptor_pool(
/// #     _: DeviceHandle, _: *const raw::DescriptorPoolCreateInfo,
/// #     _: *const raw::AllocationCallbacks, pool: *mut DescriptorPool) -> i32 {
/// #     unsafe { *pool = DescriptorPool(1) };
/// #     0
/// # }
/// # unsafe extern "system" fn destroy_descriptor_pool(
/// #     _: DeviceHandle, _: DescriptorPool, _: *const raw::AllocationCallbacks) {}
/// # unsafe extern "system" fn allocate_descriptor_sets(
/// #     _: DeviceHandle, _: *const raw::DescriptorSetAllocateInfo, set: *mut DescriptorSet) -> i32 {
/// #     unsafe { *set = DescriptorSet(2) };
/// #     0
/// # }
/// # unsafe extern "system" fn free_descriptor_sets(
/// #     _: DeviceHandle, _: DescriptorPool, _: u32, _: *const DescriptorSet) -> i32 { 0 }
/// # let (device, layout) = (DeviceHandle::from_raw(3), DescriptorSetLayout(4));
///
/// let functions = Functions {
///     create_descriptor_pool,
///     destroy_descriptor_pool,
///     allocate_descriptor_sets,
///     free_descriptor_sets,
/// };
/// let gpu = unsafe { Device::new(device, functions) };
/// let mut allocator = DescriptorAllocator::new(0);
/// let counts = vulkan::count_bindings([(DescriptorType::UNIFORM_BUFFER, 1)])?;
/// let flags = DescriptorSetLayoutCreateFlags::empty();
/// let sets = unsafe { allocator.allocate(&gpu, &layout, flags, &counts, 1) }?;
/// assert_eq!(*sets[0].raw(), vulkan::DescriptorSet(2));
/// unsafe { allocator.free(&gpu, sets) };
/// unsafe { allocator.cleanup(&gpu) };
/// # Ok::<(), Box<dyn std::error::Error>>(())
/// ```
#[derive(Debug)]
pub struct Device {
    handle: DeviceHandle,
    functions: Functions,
    callbacks: Option<NonNull<AllocationCallbacks>>,
    is_lost: AtomicBool,
}

// SAFETY: `handle` is `Send`. The driver alone reads the callbacks, and `with_allocation_callbacks` asks
// that they may be called from each thread that uses the device.
unsafe impl Send for Device {}

// SAFETY: as above. The four functions need no synchronization of the `VkDevice`, only of the pool, and the
// caller has that by `&mut` or by value.
unsafe impl Sync for Device {}

impl Device {
    /// A device whose pools are created without allocation callbacks.
    ///
    /// # Safety
    ///
    /// As long as this value is used,
    ///
    /// * `handle` is a `VkDevice` that isn't destroyed;
    /// * `functions` are the functions of Vulkan by these names, and may be called with `handle`.
    #[must_use]
    pub const unsafe fn new(handle: DeviceHandle, functions: Functions) -> Self {
        Device {
            handle,
            functions,
            callbacks: None,
            is_lost: AtomicBool::new(false),
        }
    }

    /// Same as `new`, with `VkAllocationCallbacks` for creating and destroying pools.
    ///
    /// They aren't used for the allocator's own memory. Pass a pointer of another binding by
    /// `NonNull::from(&callbacks).cast()`.
    ///
    /// # Safety
    ///
    /// As long as the returned value is used,
    ///
    /// * `callbacks` points to valid `VkAllocationCallbacks`;
    /// * they may be called from each thread that uses the value, even at the same time.
    ///
    /// A pool must not be destroyed with other callbacks than it was created with, so an allocator is given
    /// the same `Device` in all calls.
    #[must_use]
    pub const unsafe fn with_allocation_callbacks(
        self,
        callbacks: NonNull<AllocationCallbacks>,
    ) -> Self {
        Device {
            callbacks: Some(callbacks),
            ..self
        }
    }

    /// The `VkDevice`.
    #[must_use]
    pub const fn handle(&self) -> DeviceHandle {
        self.handle
    }

    /// Whether a call failed with `VK_ERROR_DEVICE_LOST`, which the allocator returns as `OutOfHostMemory`.
    /// A lost device stays lost: requests may fail, and all other calls work as before. So free all sets,
    /// call `cleanup`, and destroy the device.
    #[must_use]
    pub fn is_lost(&self) -> bool {
        self.is_lost.load(Ordering::Relaxed)
    }

    /// The same result, after the device noted whether it is lost.
    fn noted(&self, result: i32) -> i32 {
        if results::is_lost(result) {
            self.is_lost.store(true, Ordering::Relaxed);
        }
        result
    }

    fn callbacks(&self) -> *const AllocationCallbacks {
        self.callbacks.map_or(ptr::null(), |it| it.as_ptr())
    }

    /// Allocates sets, each with its count of `variable` if that isn't empty.
    ///
    /// # Safety
    ///
    /// `pool` is of this device, and has places and descriptors for these layouts, which are of this device
    /// too. `sets` is as long as `layouts`, and so is `variable` unless it is empty.
    pub(super) unsafe fn allocate(
        &self,
        pool: DescriptorPool,
        layouts: &[DescriptorSetLayout],
        variable: &[u32],
        sets: &mut [DescriptorSet],
    ) -> Result<(), DeviceAllocationError> {
        let descriptor_set_count =
            u32::try_from(layouts.len()).map_err(|_| DeviceAllocationError::OutOfHostMemory)?;
        let counts = raw::DescriptorSetVariableDescriptorCountAllocateInfo {
            s_type: raw::STRUCTURE_TYPE_DESCRIPTOR_SET_VARIABLE_DESCRIPTOR_COUNT_ALLOCATE_INFO,
            p_next: ptr::null(),
            descriptor_set_count,
            p_descriptor_counts: variable.as_ptr(),
        };
        let info = raw::DescriptorSetAllocateInfo {
            s_type: raw::STRUCTURE_TYPE_DESCRIPTOR_SET_ALLOCATE_INFO,
            p_next: if variable.is_empty() {
                ptr::null()
            } else {
                (&raw const counts).cast()
            },
            descriptor_pool: pool,
            descriptor_set_count,
            p_set_layouts: layouts.as_ptr(),
        };
        let allocate = self.functions.allocate_descriptor_sets;
        // SAFETY: `new` and the caller say so. `info`, `counts` and the arrays live through the call.
        let result = unsafe { allocate(self.handle, &info, sets.as_mut_ptr()) };
        results::of_allocate(self.noted(result))
    }
}

/// `VkDescriptorPoolCreateFlags`.
fn pool_flags(flags: DescriptorPoolCreateFlags) -> u32 {
    let mut bits = 0;
    if flags.contains(DescriptorPoolCreateFlags::FREE_DESCRIPTOR_SET) {
        bits |= raw::DESCRIPTOR_POOL_CREATE_FREE_DESCRIPTOR_SET;
    }
    if flags.contains(DescriptorPoolCreateFlags::UPDATE_AFTER_BIND) {
        bits |= raw::DESCRIPTOR_POOL_CREATE_UPDATE_AFTER_BIND;
    }
    bits
}

impl DescriptorDevice<DescriptorSetLayout, DescriptorPool, DescriptorSet> for Device {
    unsafe fn create_descriptor_pool(
        &self,
        descriptor_count: &DescriptorTotalCount,
        max_sets: u32,
        flags: DescriptorPoolCreateFlags,
    ) -> Result<DescriptorPool, CreatePoolError> {
        let mut places = [DescriptorPoolSize {
            descriptor_type: DescriptorType::SAMPLER,
            descriptor_count: 0,
        }; count::TYPES.len()];
        let sizes = fill(&mut places, count::pool_sizes(*descriptor_count));
        let blocks = raw::DescriptorPoolInlineUniformBlockCreateInfo {
            s_type: raw::STRUCTURE_TYPE_DESCRIPTOR_POOL_INLINE_UNIFORM_BLOCK_CREATE_INFO,
            p_next: ptr::null(),
            max_inline_uniform_block_bindings: descriptor_count.inline_uniform_block_bindings,
        };
        let has_blocks = descriptor_count.inline_uniform_block_bindings > 0;
        let info = raw::DescriptorPoolCreateInfo {
            s_type: raw::STRUCTURE_TYPE_DESCRIPTOR_POOL_CREATE_INFO,
            p_next: if has_blocks {
                (&raw const blocks).cast()
            } else {
                ptr::null()
            },
            flags: pool_flags(flags),
            max_sets,
            pool_size_count: sizes.len() as u32,
            p_pool_sizes: sizes.as_ptr(),
        };
        let mut pool = DescriptorPool::default();
        let create = self.functions.create_descriptor_pool;
        // SAFETY: `new` says so. `info`, and what it points to, live through the call.
        let result = unsafe { create(self.handle, &info, self.callbacks(), &mut pool) };
        results::of_create(self.noted(result)).map(|()| pool)
    }

    unsafe fn destroy_descriptor_pool(&self, pool: DescriptorPool) {
        let destroy = self.functions.destroy_descriptor_pool;
        // SAFETY: `new` says so, and the caller that the pool is of this device and has no sets.
        unsafe { destroy(self.handle, pool, self.callbacks()) };
    }

    unsafe fn alloc_descriptor_sets<'a>(
        &self,
        pool: &mut DescriptorPool,
        layouts: impl ExactSizeIterator<Item = &'a DescriptorSetLayout>,
        sets: &mut impl Extend<DescriptorSet>,
    ) -> Result<(), DeviceAllocationError> {
        const NO_MEMORY: DeviceAllocationError = DeviceAllocationError::OutOfHostMemory;
        let mut wanted = Scratch::new(layouts.len()).ok_or(NO_MEMORY)?;
        let wanted = fill(wanted.as_mut_slice(), layouts.copied());
        let mut granted = Scratch::new(wanted.len()).ok_or(NO_MEMORY)?;
        let granted = granted.as_mut_slice();
        if wanted.is_empty() {
            return Ok(());
        }
        // SAFETY: the caller says so of the pool and the layouts. Both arrays have one length.
        unsafe { self.allocate(*pool, wanted, &[], granted) }?;
        sets.extend(granted.iter().copied());
        Ok(())
    }

    unsafe fn dealloc_descriptor_sets(
        &self,
        pool: &mut DescriptorPool,
        mut sets: impl Iterator<Item = DescriptorSet>,
    ) {
        let free = self.functions.free_descriptor_sets;
        let mut places = [DescriptorSet::default(); RELEASED_AT_ONCE];
        loop {
            let released = fill(&mut places, &mut sets);
            if !released.is_empty() {
                // SAFETY: `new` says so, and the caller that the sets are of this pool and not in use.
                // Its result is always VK_SUCCESS.
                unsafe { free(self.handle, *pool, released.len() as u32, released.as_ptr()) };
            }
            if released.len() < RELEASED_AT_ONCE {
                return;
            }
        }
    }
}
