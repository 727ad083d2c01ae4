//! A device that calls the functions of a host.

use crate::abi::{
    AllocateSets, AllocateVariableSets, CreatePool, DestroyPool, FreeSets, GdDevice, GdPoolInfo,
    GdStatus,
};
use crate::gpu_descriptor_types::{
    CreatePoolError, DescriptorDevice, DescriptorPoolCreateFlags, DescriptorTotalCount,
    DeviceAllocationError, Layouts, SetSink,
};
use crate::kit::alloc::AllocError;
use crate::lock::Lock;
use crate::pool_created::OnPoolCreated;
use crate::statistics::{PoolCounts, PoolSize};
use core::cell::Cell;
use core::ffi::c_void;
use std_alloc::vec::Vec;

/// A layout of the host, and the count of its binding with a variable count, if it has one.
#[derive(Clone, Copy, PartialEq, Eq)]
pub struct HostLayout {
    pub handle: u64,
    pub variable: Option<u32>,
}

/// A pool of the host, and what it can have.
pub struct HostPool {
    handle: u64,
    size: PoolSize,
}

/// A `gd_device` without `NULL` functions.
pub struct Host {
    user: *mut c_void,

    /// What `user` points to, if it is copied.
    #[allow(dead_code)]
    copied: Vec<u64>,
    create_pool: CreatePool,
    destroy_pool: DestroyPool,
    allocate_sets: AllocateSets,
    free_sets: FreeSets,
}

// SAFETY: `user` is the host's, and the header says that any thread may pass it to the functions.
unsafe impl Send for Host {}

impl Host {
    /// `None` if a function is `NULL`. It allocates no memory.
    pub fn new(device: &GdDevice) -> Option<Self> {
        Some(Host {
            user: device.user,
            copied: Vec::new(),
            create_pool: device.create_pool?,
            destroy_pool: device.destroy_pool?,
            allocate_sets: device.allocate_sets?,
            free_sets: device.free_sets?,
        })
    }

    pub fn has_no_user(&self) -> bool {
        self.user.is_null()
    }

    /// Copies `size` bytes that `user` points to. The copy is aligned as 64 bits are.
    ///
    /// # Safety
    ///
    /// `user` points to `size` bytes.
    pub unsafe fn copy_user(&mut self, size: usize) -> Result<(), AllocError> {
        let words = size.div_ceil(size_of::<u64>());
        self.copied
            .try_reserve_exact(words)
            .map_err(|_| AllocError)?;
        self.copied.resize(words, 0);
        let copy = self.copied.as_mut_ptr().cast();
        // SAFETY: the copy has no fewer bytes, and is new.
        unsafe { core::ptr::copy_nonoverlapping(self.user.cast::<u8>(), copy, size) };
        self.user = copy.cast();
        Ok(())
    }
}

/// A host, and memory for the handles of a call.
///
/// A call has at most the sets of the largest pool. This memory is reserved before a pool is created, so no
/// later call of the pool allocates.
pub struct HostDevice {
    host: Host,

    /// The allocator's, which is held while the host is called.
    lock: &'static Lock,

    /// The sets of a call.
    handles: Vec<u64>,

    /// The first `filled` of them are `layout`.
    layouts: Vec<u64>,
    layout: u64,
    filled: usize,

    /// The host's function for sets of variable counts, if it was set, and the counts of a call.
    pub allocate_variable_sets: Cell<Option<AllocateVariableSets>>,
    variables: Vec<u32>,

    /// The host's function for new pools, if it was set.
    pub on_pool_created: Cell<Option<OnPoolCreated>>,

    pub pools: PoolCounts,

    /// Why a request was refused, if the allocator has no error for it: `DEVICE_LOST`, or `BAD_RESULT` for an
    /// unknown status; else `OK`. The request is refused as if memory of the host had run out.
    pub cause: Cell<GdStatus>,
}

impl HostDevice {
    /// A device over a host. It allocates no memory.
    pub fn new(host: Host, lock: &'static Lock) -> Self {
        HostDevice {
            host,
            lock,
            handles: Vec::new(),
            layouts: Vec::new(),
            layout: 0,
            filled: 0,
            allocate_variable_sets: Cell::new(None),
            variables: Vec::new(),
            on_pool_created: Cell::new(None),
            pools: PoolCounts::default(),
            cause: Cell::new(GdStatus::OK),
        }
    }

    /// Calls a function of the host.
    #[inline]
    fn call<R>(&self, function: impl FnOnce(&Host) -> R) -> R {
        self.lock.as_owner(|| function(&self.host))
    }

    /// Reserves memory for the handles of `sets` sets.
    #[inline]
    fn reserve(&mut self, sets: usize) -> Result<(), AllocError> {
        if sets <= self.layouts.len() {
            Ok(())
        } else {
            self.grow(sets)
        }
    }

    /// The layouts grow last, since `reserve` checks only these.
    #[cold]
    fn grow(&mut self, sets: usize) -> Result<(), AllocError> {
        for list in [&mut self.handles, &mut self.layouts] {
            if list.len() < sets {
                let more = sets - list.len();
                list.try_reserve_exact(more).map_err(|_| AllocError)?;
                list.resize(sets, 0);
            }
        }
        Ok(())
    }

    /// Makes the first `count` layouts this one, and the first `count` handles 0.
    #[inline]
    fn prepare(&mut self, layout: u64, count: usize) {
        if self.layout != layout {
            (self.layout, self.filled) = (layout, 0);
        }
        if self.filled < count {
            self.layouts[self.filled..count].fill(layout);
            self.filled = count;
        }
        // Most requests are for one set, for which a call of `memset` is slower.
        match &mut self.handles[..count] {
            [handle] => *handle = 0,
            handles => handles.fill(0),
        }
    }

    /// The host's answer to a request of `count` sets, for which `prepare` was called.
    fn ask(&mut self, pool: u64, count: u32) -> GdStatus {
        let (layouts, handles) = (self.layouts.as_ptr(), self.handles.as_mut_ptr());
        // SAFETY: both arrays have at least `count` elements.
        self.call(|it| unsafe { (it.allocate_sets)(it.user, pool, count, layouts, handles) })
    }

    /// Same as `ask`, with a variable count for each set.
    #[cold]
    fn ask_variable(&mut self, pool: u64, count: u32, variable: u32) -> GdStatus {
        let function = self.allocate_variable_sets.get();
        let function = function.expect("no layout is variable before");
        self.variables.clear();
        if self.variables.try_reserve(count as usize).is_err() {
            return GdStatus::OUT_OF_HOST_MEMORY;
        }
        self.variables.resize(count as usize, variable);
        let (layouts, handles) = (self.layouts.as_ptr(), self.handles.as_mut_ptr());
        let variables = self.variables.as_ptr();
        // SAFETY: the arrays have at least `count` elements.
        self.call(|it| unsafe { function(it.user, pool, count, layouts, variables, handles) })
    }

    /// Tells the host that it created a pool.
    fn tell_created(&self, pool: u64, info: &GdPoolInfo) {
        if let Some(function) = self.on_pool_created.get() {
            self.call(|_| function.call(pool, info));
        }
    }

    /// Sets the cause to a status for which the allocator has no error. A lost device stays lost.
    #[cold]
    fn set_cause(&self, status: GdStatus) {
        if status == GdStatus::DEVICE_LOST {
            self.cause.set(status);
        } else if self.cause.get() == GdStatus::OK {
            self.cause.set(GdStatus::BAD_RESULT);
        }
    }

    /// Frees the sets of the first `count` handles.
    fn free_first(&mut self, pool: u64, count: usize) {
        if count > 0 {
            let (count, handles) = (count as u32, self.handles.as_ptr());
            // SAFETY: the pointer leads to `count` handles, which are sets of this pool.
            self.call(|it| unsafe { (it.free_sets)(it.user, pool, count, handles) });
        }
    }
}

impl DescriptorDevice<HostLayout, HostPool, u64> for HostDevice {
    fn create_descriptor_pool(
        &mut self,
        counts: &DescriptorTotalCount,
        max_sets: u32,
        flags: DescriptorPoolCreateFlags,
    ) -> Result<HostPool, CreatePoolError> {
        if self.reserve(max_sets as usize).is_err() {
            return Err(CreatePoolError::OutOfHostMemory);
        }
        let info = GdPoolInfo {
            max_sets,
            flags: flags.bits(),
            counts: counts.to_array(),
        };
        let mut pool = HostPool {
            handle: 0,
            size: PoolSize {
                sets: max_sets,
                descriptors: counts.total_u64(),
            },
        };
        // SAFETY: both pointers are valid during the call.
        let status = self.call(|it| unsafe { (it.create_pool)(it.user, &info, &mut pool.handle) });
        match status {
            GdStatus::OK => {
                self.pools.add(pool.size);
                self.tell_created(pool.handle, &info);
                Ok(pool)
            }
            GdStatus::OUT_OF_DEVICE_MEMORY => Err(CreatePoolError::OutOfDeviceMemory),
            GdStatus::OUT_OF_HOST_MEMORY => Err(CreatePoolError::OutOfHostMemory),
            GdStatus::FRAGMENTATION | GdStatus::OUT_OF_POOL_MEMORY => {
                Err(CreatePoolError::Fragmentation)
            }
            _ => {
                self.set_cause(status);
                Err(CreatePoolError::OutOfHostMemory)
            }
        }
    }

    fn destroy_descriptor_pool(&mut self, pool: HostPool) {
        self.pools.remove(pool.size);
        // SAFETY: the host created the pool, and it has no sets.
        self.call(|it| unsafe { (it.destroy_pool)(it.user, pool.handle) });
    }

    fn alloc_descriptor_sets<K: SetSink<u64>>(
        &mut self,
        pool: &mut HostPool,
        layouts: Layouts<'_, HostLayout>,
        sets: &mut K,
    ) -> Result<(), DeviceAllocationError> {
        let (layout, count) = (*layouts.layout(), layouts.len());
        if self.reserve(count as usize).is_err() {
            return Err(DeviceAllocationError::OutOfHostMemory);
        }
        self.prepare(layout.handle, count as usize);
        let status = match layout.variable {
            None => self.ask(pool.handle, count),
            Some(variable) => self.ask_variable(pool.handle, count, variable),
        };
        match status {
            GdStatus::OK => {
                for handle in &self.handles[..count as usize] {
                    sets.put(*handle);
                }
                Ok(())
            }
            GdStatus::OUT_OF_DEVICE_MEMORY => Err(DeviceAllocationError::OutOfDeviceMemory),
            GdStatus::OUT_OF_HOST_MEMORY => Err(DeviceAllocationError::OutOfHostMemory),
            GdStatus::FRAGMENTATION => Err(DeviceAllocationError::FragmentedPool),
            GdStatus::OUT_OF_POOL_MEMORY => Err(DeviceAllocationError::OutOfPoolMemory),
            _ => {
                self.set_cause(status);
                Err(DeviceAllocationError::OutOfHostMemory)
            }
        }
    }

    /// Frees the sets in one call: there are no more than the pool has, for which memory is reserved. If
    /// there were more, it would take several calls.
    fn dealloc_descriptor_sets<I: Iterator<Item = u64>>(
        &mut self,
        pool: &mut HostPool,
        sets: &mut I,
    ) {
        let mut count = 0;
        for set in sets {
            if let Some(handle) = self.handles.get_mut(count) {
                *handle = set;
                count += 1;
            } else {
                self.free_first(pool.handle, count);
                self.handles[0] = set;
                count = 1;
            }
        }
        self.free_first(pool.handle, count);
    }
}
