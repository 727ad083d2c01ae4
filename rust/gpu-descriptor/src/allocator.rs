//! The allocator, with the interface of gpu-descriptor 0.3.2.

use crate::device::{Adapter, DescriptorDevice};
use crate::ids::Ids;
use crate::poison::{Guarded, SETS_LEFT, warn};
use crate::{
    AllocationError, DescriptorSet, DescriptorSetLayoutCreateFlags, DescriptorTotalCount, PoolView,
    SetLayout, gpu_descriptor as inner, kit,
};
use core::fmt::Debug;
use core::mem::take;
use core::ops::Range;
use std_alloc::vec::Vec;

/// A new allocator's bound on the descriptors of a pool: none, as in gpu-descriptor 0.3.2, or that of a
/// new set manager.
const FIRST_BOUND: Option<u64> = if cfg!(feature = "bounded-pools") {
    Some(65_536)
} else {
    None
};

/// Allocates descriptor sets for any layout, from pools that it creates, sizes and destroys.
///
/// # Panics
///
/// If a device or an iterator of sets panics in a call, or a device breaks its contract, the allocator is
/// poisoned: from then on every call that changes something panics. While the thread unwinds, `free`,
/// `cleanup` and `trim` do nothing instead; without std they panic even then, which ends the program. See
/// [After a panic](crate#after-a-panic). The sets of a request that panicked are dropped, and their pools
/// stay with the device.
///
/// A drop destroys no pools: see [At a drop](crate#at-a-drop).
#[derive(Debug)]
pub struct DescriptorAllocator<P, S> {
    inner: Guarded<inner::DescriptorAllocator<P, S>>,
    ids: Ids,
}

impl<P, S> DescriptorAllocator<P, S> {
    /// An allocator without pools. It allocates no memory.
    ///
    /// The argument is the driver's limit `maxUpdateAfterBindDescriptorsInAllPools`; with a greater one the
    /// pools may exceed what the driver allows. All allocators of a device, and update-after-bind pools of
    /// your own, share that limit: give each a part. A program without update-after-bind layouts may pass
    /// 0.
    ///
    /// As in Vulkan, it limits the descriptors of the pools for update-after-bind layouts, whether their
    /// sets are live or not. A new pool is created for at least 64 sets, or for as many as the limit still
    /// allows, so one set can use up the limit: if that is 500,000, the first set of a layout with 10,000
    /// descriptors is from a pool of 50 sets. Requests for update-after-bind layouts with other counts then
    /// fail with `Fragmentation`, and no call destroys that pool while one of its sets is live. Allocate
    /// sets of the small layouts first, give each of two allocators a part of the limit, or bound the pools
    /// by [`set_max_pool_descriptors`](Self::set_max_pool_descriptors).
    /// [`update_after_bind_capacity`](Self::update_after_bind_capacity) says how much is in use.
    #[must_use]
    pub fn new(max_update_after_bind_descriptors_in_all_pools: u32) -> Self {
        let ids = Ids::next();
        let mut inner = inner::DescriptorAllocator::with_ids(
            kit::alloc::Global,
            max_update_after_bind_descriptors_in_all_pools,
            ids.0.clone(),
        );
        inner.set_max_pool_descriptors(FIRST_BOUND);
        DescriptorAllocator {
            inner: Guarded::new(inner),
            ids,
        }
    }

    /// Allocates `count` sets of a layout, all or none.
    ///
    /// The existing pools of the layout's [key](crate) are asked first, from the newest to the oldest, and
    /// then new pools are created. On an error all sets that the request took are freed.
    ///
    /// # Safety
    ///
    /// * Every call of this allocator gets the same device.
    /// * `layout` is a valid layout of that device, and `flags` and `layout_descriptor_count` are its own.
    ///
    /// # Errors
    ///
    /// On `OutOfDeviceMemory` or `OutOfHostMemory`, free memory and retry, but not without end: a device
    /// may report other errors as `OutOfHostMemory`, as `vulkan::Device` does if the device is lost (see
    /// its `is_lost`). `Fragmentation` has three causes in practice:
    ///
    /// * The limit leaves no room, which only concerns update-after-bind layouts. Free sets of such
    ///   layouts, call [`trim`](Self::trim), and retry. [`new`](Self::new) says how the limit is used up.
    /// * The device refused to create a pool, since its memory is fragmented. Free sets and call `trim`, or
    ///   destroy other resources of the device, and retry.
    /// * A new pool returned `FragmentedPool` or `OutOfPoolMemory`. It was destroyed, and a retry creates
    ///   another one. If that fails too, compare the counts and flags with those of the layout.
    ///
    /// # Panics
    ///
    /// The device gave more or fewer sets than it was asked for, or gave sets and returned an error. That
    /// poisons the allocator.
    pub unsafe fn allocate<L, D>(
        &mut self,
        device: &D,
        layout: &L,
        flags: DescriptorSetLayoutCreateFlags,
        layout_descriptor_count: &DescriptorTotalCount,
        count: u32,
    ) -> Result<Vec<DescriptorSet<S>>, AllocationError>
    where
        S: Debug,
        L: Debug,
        D: DescriptorDevice<L, P, S>,
    {
        let device = &mut Adapter { device };
        let sets = self
            .inner
            .call(|inner| inner.allocate(device, layout, flags, layout_descriptor_count, count))?;
        Ok(sets.0)
    }

    /// Same as [`allocate`](Self::allocate), for a layout that is stored with its flags and counts.
    ///
    /// # Safety
    ///
    /// Same as [`allocate`](Self::allocate), for what `layout` has.
    ///
    /// # Errors
    ///
    /// Same as `allocate`.
    pub unsafe fn allocate_for<L, D: DescriptorDevice<L, P, S>>(
        &mut self,
        device: &D,
        layout: &SetLayout<L>,
        count: u32,
    ) -> Result<Vec<DescriptorSet<S>>, AllocationError> {
        let device = &mut Adapter { device };
        let sets = self
            .inner
            .call(|inner| inner.allocate_for(device, layout, count))?;
        Ok(sets.0)
    }

    /// Same as [`allocate_for`](Self::allocate_for), but appends the sets to a vector. It grows only if it
    /// has no capacity for `count` more. On an error it has the sets that it had. If the call panics, these
    /// are dropped too.
    ///
    /// # Safety
    ///
    /// Same as [`allocate`](Self::allocate), for what `layout` has.
    ///
    /// # Errors
    ///
    /// Same as `allocate`.
    pub unsafe fn allocate_into<L, D: DescriptorDevice<L, P, S>>(
        &mut self,
        device: &D,
        layout: &SetLayout<L>,
        count: u32,
        sets: &mut Vec<DescriptorSet<S>>,
    ) -> Result<(), AllocationError> {
        let device = &mut Adapter { device };
        self.inner.call(|inner| {
            let mut appended = kit::vec::Vec(take(sets));
            let answer = inner.allocate_into(device, layout, count, &mut appended);
            *sets = appended.0;
            answer
        })
    }

    /// Allocates one set of a layout that is stored with its flags and counts, and returns it without a
    /// vector.
    ///
    /// # Safety
    ///
    /// Same as [`allocate`](Self::allocate), for what `layout` has.
    ///
    /// # Errors
    ///
    /// Same as `allocate`.
    pub unsafe fn allocate_one<L, D: DescriptorDevice<L, P, S>>(
        &mut self,
        device: &D,
        layout: &SetLayout<L>,
    ) -> Result<DescriptorSet<S>, AllocationError> {
        let device = &mut Adapter { device };
        self.inner.call(|inner| inner.allocate_one(device, layout))
    }

    /// Frees sets, with one device call per run of consecutive sets from one pool. It allocates no memory.
    ///
    /// The iterator is read during the device's calls. Whenever the oldest pools of a key have no sets
    /// left, they are destroyed, except the key's last pool.
    ///
    /// # Safety
    ///
    /// * Every call of this allocator gets the same device.
    /// * The sets are this allocator's. Another allocator's set is found (see Panics) if the process
    ///   creates fewer than 2^24 allocators and managers.
    /// * No raw set was replaced through `raw_mut`.
    /// * No command buffer into which one of the sets was bound is pending, or is submitted again before it
    ///   is recorded again.
    ///
    /// # Panics
    ///
    /// A set is another allocator's: the sets before it were freed, it is dropped, and this allocator isn't
    /// poisoned. Or the device left sets in the iterator that it was given, which poisons the allocator.
    pub unsafe fn free<L, D, I>(&mut self, device: &D, sets: I)
    where
        D: DescriptorDevice<L, P, S>,
        I: IntoIterator<Item = DescriptorSet<S>>,
    {
        let mut own = self.ids.own(sets.into_iter());
        let device = &mut Adapter { device };
        self.inner
            .call_in_drop(|inner| inner.free_from(device, &mut own));
        own.refuse_foreign();
    }

    /// Destroys the oldest pools of each [key](crate), up to the first that has a set. It allocates no
    /// memory. An empty pool after that one stays, as in the original; [`trim`](Self::trim) destroys it.
    ///
    /// # Safety
    ///
    /// Every call of this allocator gets the same device.
    pub unsafe fn cleanup<L>(&mut self, device: &impl DescriptorDevice<L, P, S>) {
        let device = &mut Adapter { device };
        self.inner.call_in_drop(|inner| inner.cleanup(device));
    }

    /// Destroys all pools that have no set, wherever they are. It visits every pool and allocates no
    /// memory. Call it when many sets were freed that won't be needed again soon. The original has no such
    /// call.
    ///
    /// # Safety
    ///
    /// Every call of this allocator gets the same device.
    pub unsafe fn trim<L>(&mut self, device: &impl DescriptorDevice<L, P, S>) {
        let device = &mut Adapter { device };
        self.inner.call_in_drop(|inner| inner.trim(device));
    }

    /// Destroys the pools of the layout's [key](crate) that have no set, wherever they are. It visits no other
    /// pools, and allocates no memory. Call it when the layout is removed. Layouts of the same key lose empty
    /// pools too. The original has no such call.
    ///
    /// # Safety
    ///
    /// Every call of this allocator gets the same device. The layout was created with these flags and descriptor
    /// counts.
    pub unsafe fn trim_layout<L>(
        &mut self,
        device: &impl DescriptorDevice<L, P, S>,
        layout: &SetLayout<L>,
    ) {
        let device = &mut Adapter { device };
        self.inner
            .call_in_drop(|inner| inner.trim_layout(device, layout));
    }

    /// Bounds new pools: each has at most `max` descriptors, of all kinds together, unless the sets that a
    /// request still needs have more. So it holds at most as many sets as have `max` descriptors, or as are
    /// still needed if these are more, and at least one. Existing pools stay as they are.
    ///
    /// At first it is `None`, or `Some(65_536)` if the feature `bounded-pools` is on anywhere in the build.
    /// With `None` pools are as in gpu-descriptor 0.3.2, where a new one is for at least 64 sets however
    /// many descriptors a set has, or for as many as the limit allows. That is 6,400,000 descriptors for
    /// one set of a layout with 100,000; with `Some(65_536)` its pool has the one set.
    pub fn set_max_pool_descriptors(&mut self, max: Option<u64>) {
        self.inner.call(|inner| inner.set_max_pool_descriptors(max));
    }

    /// The bound on the descriptors of a new pool, `None` without one.
    #[must_use]
    pub fn max_pool_descriptors(&self) -> Option<u64> {
        self.inner.get().max_pool_descriptors()
    }

    /// How many sets are live.
    #[must_use]
    pub fn outstanding(&self) -> u64 {
        self.inner.get().outstanding()
    }

    /// How many descriptors the live sets of update-after-bind layouts have.
    #[must_use]
    pub fn update_after_bind_descriptors(&self) -> u32 {
        self.inner.get().update_after_bind_descriptors()
    }

    /// How much of the limit is in use: the number of descriptors of the pools for update-after-bind
    /// layouts.
    #[must_use]
    pub fn update_after_bind_capacity(&self) -> u32 {
        self.inner.get().update_after_bind_capacity()
    }

    /// The limit on update-after-bind descriptors that `new` was given.
    #[must_use]
    pub fn update_after_bind_limit(&self) -> u32 {
        self.inner.get().update_after_bind_limit()
    }

    /// How many pools there are for sets of layouts with these counts and this flag.
    #[must_use]
    pub fn pool_count(&self, counts: &DescriptorTotalCount, update_after_bind: bool) -> usize {
        self.inner.get().pool_count(counts, update_after_bind)
    }

    /// The numbers of the pool at this index among those for sets of layouts with these counts and this flag,
    /// oldest first; `None` past the last.
    #[must_use]
    pub fn pool(
        &self,
        counts: &DescriptorTotalCount,
        update_after_bind: bool,
        index: usize,
    ) -> Option<PoolView> {
        self.inner.get().pool(counts, update_after_bind, index)
    }

    /// The ids of this allocator: `set.has_id_in(&allocator.ids())` says whether a set is from it. They
    /// repeat after 16,777,216 allocators of a program.
    #[must_use]
    pub fn ids(&self) -> Range<u64> {
        self.ids.0.clone()
    }

    /// Whether a call panicked: see [After a panic](crate#after-a-panic).
    #[must_use]
    pub fn is_poisoned(&self) -> bool {
        self.inner.is_poisoned()
    }
}

impl<P, S> Drop for DescriptorAllocator<P, S> {
    fn drop(&mut self) {
        if self.inner.get().outstanding() > 0 {
            warn(SETS_LEFT);
        }
    }
}
