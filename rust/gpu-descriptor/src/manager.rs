//! A set manager, which owns a device and its descriptor sets. Sets of a frame are freed once the device is
//! done with the frame; other sets are held until they are freed. Freed sets are reused.
//!
//! The example is a frame loop over a device of its own. A material is replaced while frames that read it
//! are in flight, so its set is freed once they are done.
//!
//! ```
//! use gpu_descriptor::manager::{Counts, SetManager};
//! use gpu_descriptor::*;
//! use std::cell::Cell;
//!
//! /// A device that only numbers its pools and sets, and counts the sets.
//! #[derive(Default)]
//! struct Gpu {
//!     last: Cell<u64>,
//!     sets: Cell<usize>,
//! }
//!
//! impl Gpu {
//!     fn number(&self) -> u64 {
//!         self.last.set(self.last.get() + 1);
//!         self.last.get()
//!     }
//! }
//!
//! // The types of a layout, of a pool and of a set.
//! impl DescriptorDevice<u64, u64, u64> for Gpu {
//!     unsafe fn create_descriptor_pool(
//!         &self,
//!         _counts: &DescriptorTotalCount,
//!         _max_sets: u32,
//!         _flags: DescriptorPoolCreateFlags,
//!     ) -> Result<u64, CreatePoolError> {
//!         Ok(self.number())
//!     }
//!
//!     unsafe fn destroy_descriptor_pool(&self, _pool: u64) {}
//!
//!     unsafe fn alloc_descriptor_sets<'a>(
//!         &self,
//!         _pool: &mut u64,
//!         layouts: impl ExactSizeIterator<Item = &'a u64>,
//!         sets: &mut impl Extend<u64>,
//!     ) -> Result<(), DeviceAllocationError> {
//!         self.sets.set(self.sets.get() + layouts.len());
//!         sets.extend(layouts.map(|_| self.number()));
//!         Ok(())
//!     }
//!
//!     unsafe fn dealloc_descriptor_sets(&self, _pool: &mut u64, sets: impl Iterator<Item = u64>) {
//!         self.sets.set(self.sets.get() - sets.count());
//!     }
//! }
//!
//! # fn main() -> Result<(), Box<dyn std::error::Error>> {
//! const IN_FLIGHT: u64 = 2;
//! let limit = 500_000; // maxUpdateAfterBindDescriptorsInAllPools of the driver
//! let mut manager = SetManager::new(Gpu::default(), limit);
//! let counts = DescriptorTotalCount { uniform_buffer: 1, ..Default::default() };
//! let flags = DescriptorSetLayoutCreateFlags::empty();
//! let layout = unsafe { manager.add_layout(SetLayout { layout: 7, counts, flags }) }?;
//! let mut materials = manager.allocate_many(layout, 3)?;
//!
//! for _ in 0..10 {
//!     let frame = manager.begin_frame()?;
//!     // .. the fence of frame - IN_FLIGHT is waited for ..
//!     unsafe { manager.frame_done(frame.saturating_sub(IN_FLIGHT)) };
//!     let frame_set = manager.allocate_for_frame(layout)?;
//!     // .. the sets that `set` returns are written and bound ..
//!     assert!(manager.set(frame_set).is_some() && manager.set(materials[0]).is_some());
//!     manager.end_frame();
//!     // .. the frame is submitted ..
//!
//!     let old = std::mem::replace(&mut materials[0], manager.allocate(layout)?);
//!     manager.free_after(&[old], frame)?;
//!     assert_eq!(manager.set(old), None);
//! }
//! // The frame set and the material of each of the last two frames wait.
//! assert_eq!(manager.counts(), Counts { held: 3, waiting: 4, kept: 0 });
//! // The device allocated no other sets: from the third frame on, each frame reuses two freed ones.
//! assert_eq!(manager.device().sets.get(), 7);
//!
//! // .. the device is idle ..
//! let gpu = unsafe { manager.shutdown() };
//! assert_eq!(gpu.sets.get(), 0);
//! # Ok(())
//! # }
//! ```

mod errors;
mod statistics;

use crate::counted::{Counted, CountedPool};
use crate::device::{Adapter, DescriptorDevice};
use crate::poison::{Guarded, is_panicking, refuse, warn};
use crate::statistics::PoolCounts;
use crate::{AllocationError, PoolView, SetLayout, descriptor_manager as inner, kit};
use core::fmt;
use core::sync::atomic::{AtomicU32, Ordering};
use std_alloc::vec::Vec;

pub use crate::cache::SetCache;
pub use crate::descriptor_manager::{
    BeginFrameError, Counts, FreeError, LayoutHandle, RequestError, SetHandle,
};
pub use errors::{AddLayoutError, RemoveLayoutError};

/// The number of set managers that were made. Each takes one, which marks its handles.
static MANAGERS: AtomicU32 = AtomicU32::new(0);

/// Allocates descriptor sets from a device that it owns, and reuses freed ones. `&D`, `Box<D>`, `Rc<D>` and
/// `Arc<D>` are devices too.
///
/// `begin_frame` opens a frame, `allocate_for_frame` allocates its sets, and `end_frame` ends it. Its sets
/// are freed by the `frame_done` of this frame or a later one; several frames may be in flight. A set from
/// `allocate`, `allocate_many` or `allocate_into` is held until `free` frees it at once, or `free_after`
/// has it freed by the `frame_done` of its last frame or a later one.
///
/// Only `add_layout`, `allocate_for_frame`, `allocate`, `allocate_many` and `allocate_into` allocate
/// memory: what freeing a set needs is reserved before the set is allocated. Memory follows the peak of the
/// number of sets, yet no handle is ever given twice.
///
/// # Kept sets
///
/// Freed sets are kept, up to [`set_max_kept`](Self::set_max_kept) sets of each layout (at first without a
/// bound); the device frees the others. Calls that allocate reuse kept sets of the layout, under new handles,
/// before they ask the device for new ones. In a frame loop the device therefore soon allocates and frees no
/// set.
///
/// A kept set has the descriptors that were written to it last, and what they refer to may be destroyed by
/// now. So write each set that you get before you bind it. A validation layer reports a new set that is
/// bound without being written, but can't report a reused one. So call `set_max_kept(0)` in a debug build:
/// then no set is kept, and the layer reports each that isn't written.
///
/// The device frees all kept sets in `cleanup`, `free_all` and `shutdown`, those of a layout in
/// `remove_layout`, and all when it refuses a new set. They stay if the request alone exceeds the limit:
/// see [`allocate_for_frame`](Self::allocate_for_frame).
///
/// # Two queues
///
/// A set manager has one order of frames, for all queues. If a compute queue counts frames for itself, its
/// `frame_done` also frees sets that the graphics queue still uses. So do one of these:
///
/// * Call `frame_done` once each queue is done with the frame.
/// * Make a set manager for each queue, over `&D` or `Arc<D>` of one device, with a part of the limit.
/// * `free` the sets of a submission once its fence or timeline semaphore has signaled.
///
/// # Which calls are unsafe
///
/// The device is the set manager's own, and handles are checked, so a wrong device or a set that isn't live
/// can't be passed. Unsafe calls make promises of which only the caller knows:
///
/// * `add_layout`: the layout is what it is said to be, as long as the set manager has it;
/// * `frame_done`: the device is done with these frames;
/// * `free`: the device is done with these sets;
/// * `free_all` and `shutdown`: the device is done with all sets, and no cache has one.
///
/// `free_after` is safe, since it frees no set itself. The promise of `frame_done` also covers the last
/// uses that were passed to `free_after`.
///
/// # Panics
///
/// If the device panics in a call, or breaks its contract (see
/// [`DescriptorAllocator::allocate`](crate::DescriptorAllocator::allocate)), the set manager is poisoned.
/// Then every later call that changes something panics, [`SetCache::allocate`] included; readers and
/// [`into_device`](Self::into_device) still work. While the thread unwinds, `end_frame`, `frame_done`,
/// `free`, `free_after`, `free_all`, `cleanup` and `trim` do nothing instead (`free` and `free_after` return
/// `Ok`), and `shutdown` is `into_device`. Without std they panic even then, which ends the program. See
/// [After a panic](crate#after-a-panic).
///
/// A drop without `shutdown` destroys no pools: see [At a drop](crate#at-a-drop). The raw layouts, pools
/// and sets are dropped before the device.
pub struct SetManager<L, P, S, D: DescriptorDevice<L, P, S>> {
    inner: Guarded<inner::SetManager<L, CountedPool<P>, S, Owned<D>>>,

    /// The number that marks its handles; and, for each place of a layout, the generation of its last
    /// handle, even if the layout was removed. With these all layouts can be listed.
    number: u64,
    generations: Vec<u32>,
}

impl<L, P, S, D: DescriptorDevice<L, P, S>> SetManager<L, P, S, D> {
    /// A set manager over a device, without layouts, sets or an open frame. It allocates no memory. The
    /// limit is that of [`DescriptorAllocator::new`](crate::DescriptorAllocator::new). Unlike with a
    /// `DescriptorAllocator`, a new pool has at most 65,536 descriptors, unless the sets still needed have
    /// more: see [`set_max_pool_descriptors`](Self::set_max_pool_descriptors).
    ///
    /// # Panics
    ///
    /// The process has made 2^32 - 1 set managers before, so no number is left.
    #[must_use]
    pub fn new(device: D, max_update_after_bind_descriptors_in_all_pools: u32) -> Self {
        let number = MANAGERS.fetch_update(Ordering::Relaxed, Ordering::Relaxed, |number| {
            number.checked_add(1)
        });
        let number = number.expect("no number is left for a manager").into();
        let device = Counted {
            device: Adapter { device },
            pools: Pools(PoolCounts::default()),
        };
        SetManager {
            inner: Guarded::new(inner::SetManager::new(
                kit::alloc::Global,
                device,
                max_update_after_bind_descriptors_in_all_pools,
                number,
            )),
            number,
            generations: Vec::new(),
        }
    }

    /// Adds a layout, and returns its handle. The layout stays yours: destroy it after `remove_layout` or
    /// `shutdown`. Memory of a removed layout is used again once all its sets are freed, and that
    /// can't fail.
    ///
    /// # Errors
    ///
    /// An allocation failed. The error has the layout. Empty pools of its [key](crate) may be destroyed.
    ///
    /// # Safety
    ///
    /// * It is a layout of the set manager's device, created with these flags and descriptor counts.
    /// * It stays valid until it is removed, or the set manager is shut down or dropped.
    pub unsafe fn add_layout(
        &mut self,
        layout: SetLayout<L>,
    ) -> Result<LayoutHandle, AddLayoutError<L>> {
        let generations = &mut self.generations;
        self.inner.call(|inner| {
            let added = inner.add_layout(layout);
            let handle = added.map_err(|failed| AddLayoutError(failed.value))?;
            let SetHandle {
                place, generation, ..
            } = handle.slot;
            let places = place as usize + 1;
            let missing = places.saturating_sub(generations.len());
            // Only now, since the place of a removed layout needs no memory.
            if generations.try_reserve(missing).is_err() {
                let Ok(back) = inner.remove_layout(handle) else {
                    unreachable!("it was just added")
                };
                return Err(AddLayoutError(back));
            }
            generations.resize(generations.len() + missing, 0);
            generations[place as usize] = generation;
            Ok(handle)
        })
    }

    /// Removes a layout, and returns it. Its handle is invalid from now on. Its kept sets are freed, and then
    /// the pools of its [key](crate) that have no set are destroyed. Its other sets stay, and aren't kept once
    /// they are freed: a pool that they leave empty may stay until `trim` or `cleanup`. Other layouts of the
    /// key lose empty pools, and keep their kept sets. It allocates no memory. The time is linear in the number
    /// of its kept sets and of the pools of its key.
    ///
    /// # Errors
    ///
    /// `NoLayout`: the handle is invalid. Nothing changes.
    pub fn remove_layout(
        &mut self,
        layout: LayoutHandle,
    ) -> Result<SetLayout<L>, RemoveLayoutError> {
        let removed = self.inner.call(|inner| inner.remove_layout(layout));
        // Its one cause.
        removed.map_err(|_| RemoveLayoutError::NoLayout)
    }

    /// Opens the next frame, and returns its number. The first frame has number 1.
    ///
    /// # Errors
    ///
    /// `FrameOpen`: a frame is open. `NoMoreFrames`: the last frame has the number `u64::MAX`.
    pub fn begin_frame(&mut self) -> Result<u64, BeginFrameError> {
        self.inner.call(|inner| inner.begin_frame())
    }

    /// Skips frames up to `frame`, so that the next one has a greater number. It is for a program that
    /// counts its frames itself. It does nothing if `frame` isn't after the last frame.
    ///
    /// # Errors
    ///
    /// `FrameOpen`: a frame is open. Nothing changes.
    pub fn skip_to(&mut self, frame: u64) -> Result<(), BeginFrameError> {
        self.inner.call(|inner| inner.skip_to(frame))
    }

    /// Allocates a set of a layout for the open frame: the set of the layout that was kept last, or else a
    /// new one. The handle is valid until the frame ends, and the set is freed by the `frame_done` of the
    /// frame.
    ///
    /// If the device or the limit refuses a new set while sets of any layout are kept, all kept sets are
    /// freed and empty pools are destroyed, as by [`cleanup`](Self::cleanup), and it retries once. It fails
    /// without that, and kept sets stay, if the set alone has more update-after-bind descriptors than the
    /// limit allows, or if an allocation for the set manager's own table fails.
    ///
    /// # Errors
    ///
    /// `NoFrame`: no frame is open. `NoLayout`: the layout's handle is invalid. `Allocation`: the request
    /// was refused; then free sets or memory, call `cleanup` and retry, but not without end:
    /// [`DescriptorAllocator::allocate`](crate::DescriptorAllocator::allocate) has the causes. On each
    /// error the set manager has the live sets that it had.
    // Inlined, so that a frame's loop reuses sets without a call.
    #[inline(always)]
    pub fn allocate_for_frame(&mut self, layout: LayoutHandle) -> Result<SetHandle, RequestError> {
        match self.inner.checked().reuse_for_frame(layout) {
            Some(set) => Ok(set),
            None => self.request_for_frame(layout),
        }
    }

    /// `allocate_for_frame` of a layout of which no set can be reused at once.
    #[inline(never)]
    fn request_for_frame(&mut self, layout: LayoutHandle) -> Result<SetHandle, RequestError> {
        self.inner.call(|inner| inner.allocate_for_frame(layout))
    }

    /// Ends the frame, if one is open: its sets wait for the device, and their handles are invalid from now
    /// on.
    pub fn end_frame(&mut self) {
        self.inner.call_in_drop(|inner| inner.end_frame());
    }

    /// States that the device is done with this frame and those before it, on [every
    /// queue](Self#two-queues). The sets that wait for these frames are kept or freed, and then pools are
    /// destroyed as by [`DescriptorAllocator::free`](crate::DescriptorAllocator::free). It allocates no
    /// memory.
    ///
    /// The device is never done with an open frame, even if `frame` is `u64::MAX`: its sets, and those
    /// whose last use it is, need another call after its `end_frame`. So do sets of later frames.
    ///
    /// # Safety
    ///
    /// * No pending command buffer refers to a set of a frame up to this one, nor to a set that was passed
    ///   to `free_after` with a last use up to this one.
    /// * All command buffers that refer to one of these sets become invalid.
    pub unsafe fn frame_done(&mut self, frame: u64) {
        self.inner.call_in_drop(|inner| inner.frame_done(frame));
    }

    /// Frees all kept sets, and destroys all pools that then have no set, wherever they are. Call it
    /// between levels, or when memory is short. Sets that are live now aren't kept once they are freed, so
    /// that their pools become empty. Later sets are kept again.
    pub fn cleanup(&mut self) {
        self.inner.call_in_drop(|inner| inner.cleanup());
    }

    /// Destroys all pools that have no set, wherever they are. Kept sets stay, and so do their pools:
    /// [`cleanup`](Self::cleanup) frees those first. It visits every pool and allocates no memory.
    pub fn trim(&mut self) {
        self.inner.call_in_drop(|inner| inner.trim());
    }

    /// Sets how many freed sets of each layout are kept at most; the device frees those above. At first it
    /// is `u32::MAX`; 0 keeps none. It allocates no memory. See [Kept sets](Self#kept-sets).
    pub fn set_max_kept(&mut self, max: u32) {
        self.inner.call(|inner| inner.set_max_kept(max));
    }

    /// Bounds the descriptors of each new pool. At first it is `Some(65_536)`. Existing pools stay as they
    /// are. See
    /// [`DescriptorAllocator::set_max_pool_descriptors`](crate::DescriptorAllocator::set_max_pool_descriptors).
    pub fn set_max_pool_descriptors(&mut self, max: Option<u64>) {
        self.inner.call(|inner| inner.set_max_pool_descriptors(max));
    }

    /// The bound on the descriptors of a new pool, `None` without one.
    #[must_use]
    pub fn max_pool_descriptors(&self) -> Option<u64> {
        self.inner.get().max_pool_descriptors()
    }

    /// Allocates a set of a layout, which is held until it is freed. A frame may be open or not. It takes
    /// the set of the layout that was kept last, or else a new one: see
    /// [`allocate_for_frame`](Self::allocate_for_frame).
    ///
    /// # Errors
    ///
    /// Same as [`allocate_for_frame`](Self::allocate_for_frame), but never `NoFrame`.
    #[inline]
    pub fn allocate(&mut self, layout: LayoutHandle) -> Result<SetHandle, RequestError> {
        self.inner.call(|inner| inner.allocate(layout))
    }

    /// Allocates `count` sets of a layout, all or none, and returns their handles in a new vector. See
    /// [`allocate_into`](Self::allocate_into).
    ///
    /// # Errors
    ///
    /// Same as [`allocate`](Self::allocate), and `OutOfHostMemory` if the vector can't be allocated; then
    /// nothing changes.
    pub fn allocate_many(
        &mut self,
        layout: LayoutHandle,
        count: u32,
    ) -> Result<Vec<SetHandle>, RequestError> {
        let mut sets = Vec::new();
        if sets.try_reserve_exact(count as usize).is_err() {
            return Err(match self.layout(layout) {
                Some(_) => RequestError::Allocation(AllocationError::OutOfHostMemory),
                None => RequestError::NoLayout,
            });
        }
        sets.resize(count as usize, SetHandle::NONE);
        self.allocate_into(layout, &mut sets)?;
        Ok(sets)
    }

    /// Allocates a set of a layout for each place of `sets`, all or none, and writes their handles there. Each
    /// is held until it is freed. Kept sets are taken first; the others are new, from one request. With kept
    /// sets alone it allocates no memory.
    ///
    /// If the new sets are refused while sets of any layout are kept, all kept sets are freed and empty pools
    /// are destroyed, as by [`cleanup`](Self::cleanup), and it retries once, for all sets. It fails without
    /// that, and kept sets stay, if all these sets alone have more update-after-bind descriptors than the limit
    /// allows, or if an allocation for the set manager's own table fails.
    ///
    /// ```
    /// # use gpu_descriptor::manager::{LayoutHandle, RequestError, SetManager, SetHandle};
    /// # use gpu_descriptor::DescriptorDevice;
    /// # fn draw<L, P, S, D: DescriptorDevice<L, P, S>>(manager: &mut SetManager<L, P, S, D>, layout: LayoutHandle)
    /// # -> Result<(), RequestError> {
    /// let mut sets = [SetHandle::NONE; 3];
    /// manager.allocate_into(layout, &mut sets)?;
    /// # Ok(())
    /// # }
    /// ```
    ///
    /// # Errors
    ///
    /// Same as [`allocate`](Self::allocate), and `OutOfHostMemory` for more than `u32::MAX` sets. On an error
    /// `sets` stays as it was.
    #[inline]
    pub fn allocate_into(
        &mut self,
        layout: LayoutHandle,
        sets: &mut [SetHandle],
    ) -> Result<(), RequestError> {
        self.inner.call(|inner| inner.allocate_into(layout, sets))
    }

    /// Frees sets at once, all or none: each is kept, or the device frees it, with one device call per run
    /// of consecutive sets from one pool. Then pools are destroyed as by
    /// [`DescriptorAllocator::free`](crate::DescriptorAllocator::free). The handles are invalid from now
    /// on. It allocates no memory.
    ///
    /// # Errors
    ///
    /// `NoSet`: a handle isn't that of a held set, or is in the list twice. Nothing changes.
    ///
    /// # Safety
    ///
    /// * No pending command buffer refers to one of the sets.
    /// * All command buffers that refer to one of them become invalid.
    #[inline]
    pub unsafe fn free(&mut self, sets: &[SetHandle]) -> Result<(), FreeError> {
        let answer = self.inner.call_in_drop(|inner| inner.free(sets));
        answer.unwrap_or(Ok(()))
    }

    /// Frees sets after the frame of their last use, all or none; `last_use` is 0 if no frame used them.
    /// They are freed by the next `frame_done` with that frame or a later one. Their handles are invalid
    /// from now on. It allocates no memory.
    ///
    /// # Errors
    ///
    /// `FrameAhead`: `last_use` is later than `frame()`. `NoSet`: a handle isn't that of a held set, or is
    /// in the list twice. Nothing changes.
    pub fn free_after(&mut self, sets: &[SetHandle], last_use: u64) -> Result<(), FreeError> {
        let answer = self
            .inner
            .call_in_drop(|inner| inner.free_after(sets, last_use));
        answer.unwrap_or(Ok(()))
    }

    /// Frees all sets at once: those that are held, those that wait for their frame, those that are kept,
    /// and those of the open frame, which is ended. It keeps none, and allocates no memory.
    ///
    /// # Safety
    ///
    /// * No pending command buffer refers to a set of the set manager.
    /// * All command buffers that refer to one of them become invalid.
    /// * No [`SetCache`] has a set of the set manager: [`flush`](SetCache::flush) it before.
    pub unsafe fn free_all(&mut self) {
        self.inner.call_in_drop(|inner| inner.free_all());
    }

    /// The raw set of a handle, to write and to bind: a held set, or one of the open frame. `None` if the
    /// set was freed, is of another frame, or is another set manager's.
    #[inline]
    #[must_use]
    pub fn set(&self, set: SetHandle) -> Option<&S> {
        self.inner.get().set(set)
    }

    /// The layout of a handle. `None` if it was removed, or if the handle is another set manager's.
    #[must_use]
    pub fn layout(&self, layout: LayoutHandle) -> Option<&SetLayout<L>> {
        self.inner.get().layout(layout)
    }

    /// Whether a layout's handle is of this set manager, be the layout removed or not.
    pub(crate) fn is_owner(&self, layout: LayoutHandle) -> bool {
        layout.slot.manager == self.number
    }

    /// The device, to write sets and to bind them.
    #[must_use]
    pub fn device(&self) -> &D {
        &self.inner.get().device().device.device
    }

    /// The number of the last frame that was opened, or skipped by `skip_to`; 0 before the first.
    #[must_use]
    pub fn frame(&self) -> u64 {
        self.inner.get().frame()
    }

    /// Whether a frame is open.
    #[must_use]
    pub fn is_frame_open(&self) -> bool {
        self.inner.get().is_frame_open()
    }

    /// Whether a call panicked, so that `shutdown` panics too, and `into_device` returns the device. See
    /// [After a panic](crate#after-a-panic).
    #[must_use]
    pub fn is_poisoned(&self) -> bool {
        self.inner.is_poisoned()
    }

    /// How many sets are held, wait for a frame (those of the open frame included), and are kept. The time
    /// is linear in the peak of the number of layouts, with the removed ones that have live sets.
    #[must_use]
    pub fn counts(&self) -> Counts {
        self.inner.get().counts()
    }

    /// How many sets of a layout are kept; 0 if the layout was removed, or if the handle is another set
    /// manager's.
    #[must_use]
    pub fn kept_count(&self, layout: LayoutHandle) -> u32 {
        self.inner.get().kept_count(layout)
    }

    /// How many sets are live: held or waiting, and not kept. The time is that of `counts`.
    #[must_use]
    pub fn outstanding(&self) -> u64 {
        let counts = self.counts();
        counts.held + counts.waiting
    }

    /// How much of the limit is in use: the number of descriptors of the pools for update-after-bind
    /// layouts.
    #[must_use]
    pub fn update_after_bind_capacity(&self) -> u32 {
        self.inner.get().update_after_bind_capacity()
    }

    /// The limit on update-after-bind descriptors that `new` was given.
    #[must_use]
    pub fn update_after_bind_limit(&self) -> u32 {
        self.inner.get().update_after_bind_limit()
    }

    /// How many pools there are for sets of a layout. Layouts with the same counts and flags share pools. 0
    /// if the layout was removed, or if the handle is another set manager's.
    #[must_use]
    pub fn pool_count(&self, layout: LayoutHandle) -> usize {
        self.inner.get().pool_count(layout)
    }

    /// The numbers of the pool at this index among those of [`pool_count`](Self::pool_count), oldest first;
    /// `None` past the last. Kept sets count as allocated from their pools.
    #[must_use]
    pub fn pool(&self, layout: LayoutHandle, index: usize) -> Option<PoolView> {
        self.inner.get().pool(layout, index)
    }

    /// Returns the device without a call to it. Pools and sets stay with the device, and nobody destroys
    /// them. It is for a device that is lost, and for a poisoned set manager.
    pub fn into_device(self) -> D {
        let Counted { device, pools } = self.inner.into_inner().into_device();
        core::mem::forget(pools);
        device.device
    }

    /// Frees all sets, kept ones too, destroys all pools, and returns the device. It allocates no memory
    /// and can't fail. If the set manager is poisoned it panics, and its pools stay with the device: use
    /// [`into_device`](Self::into_device) then.
    ///
    /// # Safety
    ///
    /// * No pending command buffer refers to a set of the set manager.
    /// * All command buffers that refer to one of them become invalid.
    /// * No [`SetCache`] has a set of the set manager: [`flush`](SetCache::flush) it before.
    pub unsafe fn shutdown(self) -> D {
        if !self.inner.is_poisoned() {
            return self.inner.into_inner().shutdown().device.device;
        }
        // The pools aren't dropped: without std that would panic too.
        let device = self.into_device();
        if !is_panicking() {
            refuse();
        }
        device
    }
}

impl<L, P, S, D: DescriptorDevice<L, P, S>> fmt::Debug for SetManager<L, P, S, D> {
    fn fmt(&self, f: &mut fmt::Formatter<'_>) -> fmt::Result {
        f.debug_struct("SetManager")
            .field("frame", &self.frame())
            .field("is_frame_open", &self.is_frame_open())
            .field("is_poisoned", &self.is_poisoned())
            .field("counts", &self.counts())
            .finish_non_exhaustive()
    }
}

/// The device of a set manager, and the counts of its pools.
type Owned<D> = Counted<Adapter<D>, Pools>;

struct Pools(PoolCounts);

impl AsMut<PoolCounts> for Pools {
    fn as_mut(&mut self) -> &mut PoolCounts {
        &mut self.0
    }
}

impl Drop for Pools {
    fn drop(&mut self) {
        if self.0.count() > 0 {
            warn("Descriptor pools were not destroyed");
        }
    }
}
