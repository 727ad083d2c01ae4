//! An allocator for C: a set manager over the host's device.
//!
//! The set manager handles sets, their names and their frames. It is proved that a name belongs to one set,
//! that a set is freed once, and that a name belongs to one layout. This module adds the form that they have
//! in C, and finds a layout by the host's handle.

use crate::abi::{AllocateVariableSets, GdLayout, GdSet, GdStatus};
use crate::descriptor_manager::{FreeError, RequestError, SetManager};
use crate::device::{HostDevice, HostLayout, HostPool};
use crate::gpu_descriptor::{
    AllocationError, DescriptorSetLayoutCreateFlags, DescriptorTotalCount, SetLayout,
};
use crate::kit::alloc::Global;
use crate::known::Known;
use crate::pool_created::OnPoolCreated;
use core::mem::MaybeUninit;

type HostManager = SetManager<HostLayout, HostPool, u64, HostDevice>;

mod names;
mod statistics;

use names::{layout_of, name_of};

pub struct Allocator {
    id: u64,
    manager: HostManager,

    /// How many sets are held.
    held: usize,

    /// The layouts, by the host's handles.
    known: Known,

    /// The host's current frame. Before the first frame it is one that no device is done with.
    frame: u64,
}

/// Returns the host's handle of a known layout by its name.
fn by_name(id: u64, manager: &HostManager) -> impl Fn(u64) -> u64 {
    move |name| {
        let it = manager.layout(layout_of(id, name));
        it.expect("a known layout is there").layout.handle
    }
}

impl Allocator {
    /// An allocator without layouts and sets. It allocates no memory.
    pub fn new(id: u64, device: HostDevice, limit: u32) -> Self {
        let mut manager = SetManager::new(Global, device, limit, id);
        // The host counts its frames itself: each may be the last use of a set.
        let skipped = manager.skip_to(u64::MAX);
        assert!(skipped.is_ok(), "a frame is open");
        Allocator {
            id,
            manager,
            held: 0,
            known: Known::new(),
            frame: u64::MAX,
        }
    }

    /// How many sets are live: those that wait included, kept ones not.
    pub fn outstanding(&self) -> u64 {
        self.held as u64 + self.waiting()
    }

    /// How many sets wait.
    pub fn waiting(&self) -> u64 {
        self.manager.counts().waiting
    }

    /// How many pools exist.
    pub fn pools(&self) -> u64 {
        self.manager.device().pools.count()
    }

    /// Sets the function that allocates sets of variable counts: from now on layouts with these may be added.
    pub fn set_allocate_variable_sets(&mut self, function: AllocateVariableSets) {
        let device = self.manager.device();
        device.allocate_variable_sets.set(Some(function));
    }

    /// Sets the function that is called for each new pool.
    pub fn set_pool_created(&mut self, function: Option<OnPoolCreated>) {
        self.manager.device().on_pool_created.set(function);
    }

    /// Adds a layout. One that was added before, with the same counts and flags, keeps its index.
    pub fn add_layout(
        &mut self,
        handle: HostLayout,
        counts: &[u32; 14],
        flags: u32,
    ) -> Result<GdLayout, GdStatus> {
        let device = self.manager.device();
        if handle.variable.is_some() && device.allocate_variable_sets.get().is_none() {
            return Err(GdStatus::BAD_COUNTS);
        }
        let flags = DescriptorSetLayoutCreateFlags::from_bits(flags).ok_or(GdStatus::BAD_FLAGS)?;
        let mut total = DescriptorTotalCount::default();
        for (kind, count) in counts.iter().enumerate() {
            total.set_kind(kind, *count);
        }
        let layout = SetLayout {
            layout: handle,
            counts: total,
            flags,
        };
        let index = match self.known_layout(&layout) {
            Some(name) => name,
            None => self.new_layout(layout)?,
        };
        Ok(GdLayout {
            index,
            owner: self.id,
        })
    }

    /// The name of a layout with this handle, these counts and flags.
    fn known_layout(&self, layout: &SetLayout<HostLayout>) -> Option<u64> {
        self.known.find(layout.layout.handle, |name| {
            let it = self.manager.layout(layout_of(self.id, name));
            it.is_some_and(|it| {
                (it.layout, it.flags, it.counts) == (layout.layout, layout.flags, layout.counts)
            })
        })
    }

    /// Adds a layout, and returns its name.
    fn new_layout(&mut self, layout: SetLayout<HostLayout>) -> Result<u64, GdStatus> {
        let (id, manager, handle) = (self.id, &self.manager, layout.layout.handle);
        if self.known.reserve(by_name(id, manager)).is_err() {
            return Err(GdStatus::OUT_OF_HOST_MEMORY);
        }
        let Ok(added) = self.manager.add_layout(layout) else {
            return Err(GdStatus::OUT_OF_HOST_MEMORY);
        };
        let name = name_of(added);
        self.known.put(handle, name);
        Ok(name)
    }

    /// Removes a layout. It allocates no memory.
    pub fn remove_layout(&mut self, layout: GdLayout) -> GdStatus {
        let handle = layout_of(layout.owner, layout.index);
        let Ok(removed) = self.manager.remove_layout(handle) else {
            return GdStatus::BAD_LAYOUT;
        };
        let handle_of = by_name(self.id, &self.manager);
        self.known
            .remove(removed.layout.handle, layout.index, handle_of);
        GdStatus::OK
    }

    /// Allocates a set for each place of `sets`, all or none, and writes it there.
    #[inline]
    pub fn allocate(&mut self, layout: GdLayout, sets: &mut [MaybeUninit<GdSet>]) -> GdStatus {
        self.manager.device().cause.set(GdStatus::OK);
        let layout = layout_of(layout.owner, layout.index);
        match self.manager.allocate_into(layout, sets) {
            Ok(()) => {
                self.held += sets.len();
                GdStatus::OK
            }
            Err(error) => self.status_of(error),
        }
    }

    /// The status of a refused request.
    fn status_of(&self, error: RequestError) -> GdStatus {
        let cause = self.manager.device().cause.get();
        if cause != GdStatus::OK {
            return cause;
        }
        match error {
            RequestError::Allocation(AllocationError::OutOfDeviceMemory) => {
                GdStatus::OUT_OF_DEVICE_MEMORY
            }
            RequestError::Allocation(AllocationError::Fragmentation) => GdStatus::FRAGMENTATION,
            RequestError::NoLayout => GdStatus::BAD_LAYOUT,
            _ => GdStatus::OUT_OF_HOST_MEMORY,
        }
    }

    /// How many sets are held.
    #[inline]
    pub fn held(&self) -> usize {
        self.held
    }

    /// The status of a call that frees all of these sets, or lets them wait, or fails. Adjusts the held count.
    #[inline]
    fn let_go(&mut self, sets: &[GdSet], result: Result<(), FreeError>) -> GdStatus {
        if result.is_err() {
            return GdStatus::BAD_SET;
        }
        self.held -= sets.len();
        GdStatus::OK
    }

    /// Frees sets. It allocates no memory.
    #[inline]
    pub fn free(&mut self, sets: &[GdSet]) -> GdStatus {
        let result = self.manager.free(sets);
        self.let_go(sets, result)
    }

    /// Frees all sets, waiting and kept ones too. It allocates no memory.
    pub fn free_all(&mut self) {
        self.manager.free_all();
        self.held = 0;
    }

    /// Frees sets once a frame is done. It allocates no memory.
    pub fn free_after(&mut self, sets: &[GdSet], frame: u64) -> GdStatus {
        let result = self.manager.free_after(sets, frame);
        self.let_go(sets, result)
    }

    /// Makes this frame the current one.
    pub fn begin_frame(&mut self, frame: u64) {
        self.frame = frame;
    }

    /// Frees sets once the current frame is done. It allocates no memory.
    pub fn free_after_current(&mut self, sets: &[GdSet]) -> GdStatus {
        self.free_after(sets, self.frame)
    }

    /// Keeps or frees the sets that wait for this frame or an earlier one. It allocates no memory.
    pub fn frame_done(&mut self, frame: u64) {
        self.manager.frame_done(frame);
    }

    /// Sets how many sets of a layout are kept at most. It allocates no memory.
    pub fn set_max_kept(&mut self, max: u32) {
        self.manager.set_max_kept(max);
    }

    /// Bounds the descriptors of new pools; `u64::MAX` removes the bound. It allocates no memory.
    pub fn set_max_pool_descriptors(&mut self, max: u64) {
        let max = (max < u64::MAX).then_some(max);
        self.manager.set_max_pool_descriptors(max);
    }

    /// Frees kept sets, and destroys empty pools. It allocates no memory.
    pub fn cleanup(&mut self) {
        self.manager.cleanup();
    }

    /// Destroys all pools without sets. It allocates no memory.
    pub fn trim(&mut self) {
        self.manager.trim();
    }
}
