//! A frame manager: descriptor sets that are freed once the frame that used them last is done.
//!
//! A set that the device's work may still read is retired with the frame of that work. When the frame
//! is finished, the sets that were retired at it or before are freed. A manager has one order of frames: a
//! queue that counts frames for itself needs a manager of its own.
//!
//! ```
//! use gpu_descriptor::frames::FrameManager;
//! use gpu_descriptor::{DescriptorSetLayoutCreateFlags, SetLayout};
//! # include!(concat!(env!("CARGO_MANIFEST_DIR"), "/tests/numbers/device.rs"));
//! # fn main() -> Result<(), Box<dyn std::error::Error>> {
//! # let device = Device::default();
//! # let counts = DescriptorTotalCount { uniform_buffer: 1, ..Default::default() };
//! # let limit = 500_000;
//! let layout = SetLayout { layout: 7, counts, flags: DescriptorSetLayoutCreateFlags::empty() };
//! let mut manager = FrameManager::new(limit);
//!
//! let set = unsafe { manager.allocate_one(&device, &layout) }?;
//! // .. frame 1 is recorded with `set.raw()` and submitted ..
//! manager.retire(1, set)?;
//! // .. the fence of frame 1 is signalled ..
//! unsafe { manager.finish(&device, 1) };
//! assert_eq!(manager.outstanding(), 0);
//! unsafe { manager.cleanup(&device) };
//! # Ok(())
//! # }
//! ```

use crate::device::{Adapter, DescriptorDevice};
use crate::ids::Ids;
use crate::poison::{Guarded, SETS_LEFT, warn};
use crate::{
    AllocationError, DescriptorSet, DescriptorSetLayoutCreateFlags, DescriptorTotalCount, PoolView,
    SetLayout, descriptor_frames as inner, kit,
};
use core::error::Error;
use core::fmt;
use core::mem::take;
use std_alloc::vec::Vec;

/// Allocates descriptor sets, and frees them when the frame that used them last is done.
///
/// Each call that needs the device borrows it, and it has to be the same each time. `retire` and
/// `retire_all` make no device call and are safe: `finish` frees the sets, and its caller promises that the
/// device is done with them.
///
/// # Panics
///
/// If a device or an iterator of sets panics in a call, or a device breaks its contract, the manager is
/// poisoned: from then on every call that changes something panics, except `reserve`, `retire` and
/// `retire_all`. While the thread unwinds, `finish`, `free`, `cleanup`, `trim` and `trim_layout` do nothing
/// instead; without std they panic even then, which ends the program. See [After a panic](crate#after-a-panic).
///
/// A drop destroys no pools: see [At a drop](crate#at-a-drop).
#[derive(Debug)]
pub struct FrameManager<P, S> {
    inner: Guarded<inner::FrameManager<P, S>>,
    ids: Ids,
}

impl<P, S> FrameManager<P, S> {
    /// A manager without sets. It allocates no memory. The limit is that of
    /// [`DescriptorAllocator::new`](crate::DescriptorAllocator::new).
    #[must_use]
    pub fn new(max_update_after_bind_descriptors_in_all_pools: u32) -> Self {
        let ids = Ids::next();
        FrameManager {
            inner: Guarded::new(inner::FrameManager::with_ids(
                kit::alloc::Global,
                max_update_after_bind_descriptors_in_all_pools,
                ids.0.clone(),
            )),
            ids,
        }
    }

    /// Allocates sets. See [`DescriptorAllocator::allocate`](crate::DescriptorAllocator::allocate).
    ///
    /// # Safety
    ///
    /// * Every call of this manager gets the same device.
    /// * `layout` is a valid layout of that device, and `flags` and `layout_descriptor_count` are its own.
    ///
    /// # Errors
    ///
    /// Same as `DescriptorAllocator::allocate`.
    ///
    /// # Panics
    ///
    /// Same as `DescriptorAllocator::allocate`.
    pub unsafe fn allocate<L, D: DescriptorDevice<L, P, S>>(
        &mut self,
        device: &D,
        layout: &L,
        flags: DescriptorSetLayoutCreateFlags,
        layout_descriptor_count: &DescriptorTotalCount,
        count: u32,
    ) -> Result<Vec<DescriptorSet<S>>, AllocationError> {
        let device = &mut Adapter { device };
        let sets = self
            .inner
            .call(|inner| inner.allocate(device, layout, flags, layout_descriptor_count, count))?;
        Ok(sets.0)
    }

    /// Same as `allocate`, for a layout that is stored with its flags and counts.
    ///
    /// # Safety
    ///
    /// Same as `allocate`, for what `layout` has.
    ///
    /// # Errors
    ///
    /// Same as `allocate`.
    pub unsafe fn allocate_for<L, D: DescriptorDevice<L, P, S>>(
        &mut self,
        device: &D,
        layout: &SetLayout<L>,
        count: u32,
    ) -> Result<Vec<DescriptorSet<S>>, AllocationError> {
        let device = &mut Adapter { device };
        let sets = self
            .inner
            .call(|inner| inner.allocate_for(device, layout, count))?;
        Ok(sets.0)
    }

    /// Same as `allocate_for`, but appends the sets to a vector. It grows only if it has no capacity for
    /// `count` more. On an error it has the sets that it had. If the device panics, these are dropped too.
    ///
    /// # Safety
    ///
    /// Same as `allocate`, for what `layout` has.
    ///
    /// # Errors
    ///
    /// Same as `allocate`.
    pub unsafe fn allocate_into<L, D: DescriptorDevice<L, P, S>>(
        &mut self,
        device: &D,
        layout: &SetLayout<L>,
        count: u32,
        sets: &mut Vec<DescriptorSet<S>>,
    ) -> Result<(), AllocationError> {
        let device = &mut Adapter { device };
        self.inner.call(|inner| {
            let mut appended = kit::vec::Vec(take(sets));
            let answer = inner.allocate_into(device, layout, count, &mut appended);
            *sets = appended.0;
            answer
        })
    }

    /// Allocates one set of a layout that is stored with its flags and counts, and returns it without a
    /// vector.
    ///
    /// # Safety
    ///
    /// Same as `allocate`, for what `layout` has.
    ///
    /// # Errors
    ///
    /// Same as `allocate`.
    pub unsafe fn allocate_one<L, D: DescriptorDevice<L, P, S>>(
        &mut self,
        device: &D,
        layout: &SetLayout<L>,
    ) -> Result<DescriptorSet<S>, AllocationError> {
        let device = &mut Adapter { device };
        self.inner.call(|inner| inner.allocate_one(device, layout))
    }

    /// Reserves memory for `additional` more retired sets, so that retiring them can't fail with `Memory`.
    ///
    /// # Errors
    ///
    /// `OutOfHostMemory`. Nothing changes.
    pub fn reserve(&mut self, additional: usize) -> Result<(), AllocationError> {
        let reserved = self.inner.get_mut().reserve(additional);
        reserved.map_err(|_| AllocationError::OutOfHostMemory)
    }

    /// Retires a set: it is freed when this frame or a later one is finished.
    ///
    /// # Errors
    ///
    /// `FrameBack`: the frame is less than the greatest at which a set was ever retired. `Memory`: an
    /// allocation failed. `Foreign`: the set is another allocator's. The error has the set, and nothing
    /// changes.
    pub fn retire(
        &mut self,
        frame: u64,
        set: DescriptorSet<S>,
    ) -> Result<(), RetireError<DescriptorSet<S>>> {
        let set = self.own(set)?;
        Ok(self.inner.get_mut().retire(frame, set)?)
    }

    /// Retires sets, in their order, all or none.
    ///
    /// # Errors
    ///
    /// Same as `retire`, but the error has the vector. `FrameBack` is returned for an empty vector too.
    pub fn retire_all(
        &mut self,
        frame: u64,
        sets: Vec<DescriptorSet<S>>,
    ) -> Result<(), RetireError<Vec<DescriptorSet<S>>>> {
        if !sets.iter().all(|set| self.ids.has(set)) {
            return Err(RetireError::Foreign(sets));
        }
        let inner = self.inner.get_mut();
        if frame < inner.greatest() {
            return Err(RetireError::FrameBack(sets));
        }
        if inner.reserve(sets.len()).is_err() {
            return Err(RetireError::Memory(sets));
        }
        for set in sets {
            if inner.retire(frame, set).is_err() {
                unreachable!("the frame was tested, and memory reserved for all");
            }
        }
        Ok(())
    }

    /// The set, if it is this manager's.
    fn own(
        &self,
        set: DescriptorSet<S>,
    ) -> Result<DescriptorSet<S>, RetireError<DescriptorSet<S>>> {
        if self.ids.has(&set) {
            Ok(set)
        } else {
            Err(RetireError::Foreign(set))
        }
    }

    /// Frees all sets that were retired at this frame or before, and destroys pools as
    /// [`DescriptorAllocator::free`](crate::DescriptorAllocator::free) does. It allocates no memory and
    /// can't fail.
    ///
    /// The time is linear in the number of sets that are freed. If there are none it makes no device call.
    ///
    /// # Safety
    ///
    /// * Every call of this manager gets the same device.
    /// * No command buffer into which a set was bound that was retired at this frame or before is pending,
    ///   or is submitted again before it is recorded again.
    /// * The retired sets are this manager's. `retire` returns any other set if the process creates fewer
    ///   than 2^24 allocators and managers.
    /// * No raw set was replaced through `raw_mut`.
    ///
    /// # Panics
    ///
    /// The device left sets in the iterator that it was given, which poisons the manager.
    pub unsafe fn finish<L, D: DescriptorDevice<L, P, S>>(&mut self, device: &D, frame: u64) {
        let device = &mut Adapter { device };
        self.inner.call_in_drop(|inner| inner.finish(device, frame));
    }

    /// Frees sets at once that no frame uses any more. The retired sets stay.
    ///
    /// # Safety
    ///
    /// Same as [`DescriptorAllocator::free`](crate::DescriptorAllocator::free).
    ///
    /// # Panics
    ///
    /// Same as `DescriptorAllocator::free`.
    pub unsafe fn free<L, D, I>(&mut self, device: &D, sets: I)
    where
        D: DescriptorDevice<L, P, S>,
        I: IntoIterator<Item = DescriptorSet<S>>,
    {
        let mut own = self.ids.own(sets.into_iter());
        let device = &mut Adapter { device };
        self.inner
            .call_in_drop(|inner| inner.free_from(device, &mut own));
        own.refuse_foreign();
    }

    /// Destroys the oldest pools of each [key](crate), up to the first that has a set, retired or not. It
    /// allocates no memory. An empty pool after that one stays; [`trim`](Self::trim) destroys it.
    ///
    /// # Safety
    ///
    /// Every call of this manager gets the same device.
    pub unsafe fn cleanup<L>(&mut self, device: &impl DescriptorDevice<L, P, S>) {
        let device = &mut Adapter { device };
        self.inner.call_in_drop(|inner| inner.cleanup(device));
    }

    /// Destroys all pools that have no set, retired or not, wherever they are. It visits every pool and
    /// allocates no memory.
    ///
    /// # Safety
    ///
    /// Every call of this manager gets the same device.
    pub unsafe fn trim<L>(&mut self, device: &impl DescriptorDevice<L, P, S>) {
        let device = &mut Adapter { device };
        self.inner.call_in_drop(|inner| inner.trim(device));
    }

    /// Destroys the pools of the layout's [key](crate) that have no set, retired or not, wherever they are. See
    /// [`DescriptorAllocator::trim_layout`](crate::DescriptorAllocator::trim_layout).
    ///
    /// # Safety
    ///
    /// Every call of this manager gets the same device. The layout was created with these flags and descriptor
    /// counts.
    pub unsafe fn trim_layout<L>(
        &mut self,
        device: &impl DescriptorDevice<L, P, S>,
        layout: &SetLayout<L>,
    ) {
        let device = &mut Adapter { device };
        self.inner
            .call_in_drop(|inner| inner.trim_layout(device, layout));
    }

    /// Bounds the descriptors of each new pool. At first it is `None`, as in gpu-descriptor 0.3.2. See
    /// [`DescriptorAllocator::set_max_pool_descriptors`](crate::DescriptorAllocator::set_max_pool_descriptors).
    pub fn set_max_pool_descriptors(&mut self, max: Option<u64>) {
        self.inner.call(|inner| inner.set_max_pool_descriptors(max));
    }

    /// The bound on the descriptors of a new pool, `None` without one.
    #[must_use]
    pub fn max_pool_descriptors(&self) -> Option<u64> {
        self.inner.get().max_pool_descriptors()
    }

    /// How many sets are in use or retired.
    #[must_use]
    pub fn outstanding(&self) -> u64 {
        self.inner.get().outstanding()
    }

    /// How much of the limit is in use: the number of descriptors of the pools for update-after-bind
    /// layouts.
    #[must_use]
    pub fn update_after_bind_capacity(&self) -> u32 {
        self.inner.get().allocator().update_after_bind_capacity()
    }

    /// The limit on update-after-bind descriptors that `new` was given.
    #[must_use]
    pub fn update_after_bind_limit(&self) -> u32 {
        self.inner.get().allocator().update_after_bind_limit()
    }

    /// How many pools there are for sets of layouts with these counts and this flag.
    #[must_use]
    pub fn pool_count(&self, counts: &DescriptorTotalCount, update_after_bind: bool) -> usize {
        let allocator = self.inner.get().allocator();
        allocator.pool_count(counts, update_after_bind)
    }

    /// The books of a pool. See [`DescriptorAllocator::pool`](crate::DescriptorAllocator::pool).
    #[must_use]
    pub fn pool(
        &self,
        counts: &DescriptorTotalCount,
        update_after_bind: bool,
        index: usize,
    ) -> Option<PoolView> {
        let allocator = self.inner.get().allocator();
        allocator.pool(counts, update_after_bind, index)
    }

    /// How many sets are retired.
    #[must_use]
    pub fn retired(&self) -> u64 {
        self.inner.get().retired()
    }

    /// The greatest frame at which a set was ever retired, and 0 before the first.
    #[must_use]
    pub fn greatest(&self) -> u64 {
        self.inner.get().greatest()
    }

    /// Whether a call panicked: see [After a panic](crate#after-a-panic).
    #[must_use]
    pub fn is_poisoned(&self) -> bool {
        self.inner.is_poisoned()
    }
}

impl<P, S> Drop for FrameManager<P, S> {
    fn drop(&mut self) {
        if self.inner.get().outstanding() > 0 {
            warn(SETS_LEFT);
        }
    }
}

/// Why a set, or a vector of sets, was not retired. It has the set or the vector.
#[derive(Clone, Copy, PartialEq, Eq)]
#[non_exhaustive]
pub enum RetireError<T> {
    /// The frame is less than the greatest at which a set was retired.
    FrameBack(T),

    /// An allocation for the list of retired sets failed.
    Memory(T),

    /// A set is another allocator's.
    Foreign(T),
}

impl<T> RetireError<T> {
    /// The set or the vector that was not retired.
    #[must_use]
    pub fn into_inner(self) -> T {
        match self {
            RetireError::FrameBack(it) | RetireError::Memory(it) | RetireError::Foreign(it) => it,
        }
    }
}

impl<S> From<inner::RetireError<S>> for RetireError<DescriptorSet<S>> {
    fn from(error: inner::RetireError<S>) -> Self {
        match error {
            inner::RetireError::FrameBack(it) => RetireError::FrameBack(it),
            inner::RetireError::Memory(it) => RetireError::Memory(it),
        }
    }
}

impl<T> fmt::Debug for RetireError<T> {
    fn fmt(&self, f: &mut fmt::Formatter<'_>) -> fmt::Result {
        f.write_str(match self {
            RetireError::FrameBack(_) => "FrameBack(..)",
            RetireError::Memory(_) => "Memory(..)",
            RetireError::Foreign(_) => "Foreign(..)",
        })
    }
}

impl<T> fmt::Display for RetireError<T> {
    fn fmt(&self, f: &mut fmt::Formatter<'_>) -> fmt::Result {
        f.write_str(match self {
            RetireError::FrameBack(_) => "Frame before the last one",
            RetireError::Memory(_) => "Host memory exhausted",
            RetireError::Foreign(_) => "Set of another allocator",
        })
    }
}

impl<T> Error for RetireError<T> {}
