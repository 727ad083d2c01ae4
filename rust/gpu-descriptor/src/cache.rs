//! A cache of sets, for threads that share a set manager behind a lock.

use crate::manager::{FreeError, LayoutHandle, RequestError, SetHandle, SetManager};
use crate::poison::{panics, refuse};
use crate::{AllocationError, DescriptorDevice};
use core::ops::DerefMut;
use std_alloc::vec::Vec;

/// Sets of one layout for one thread, over a set manager that threads share behind your lock. One call
/// allocates `refill` sets from the set manager, and one call frees as many, so that threads seldom wait.
///
/// Each set has its raw one next to it, so no lock is needed to read that. For the set manager the sets of a
/// cache are held: their pools stay, and dropping a cache frees none. So [`flush`](Self::flush) each cache
/// before a `cleanup`, `remove_layout`, `free_all` or `shutdown`. After the last two
/// [`allocate`](Self::allocate) would still return sets, which are freed by then. A set that has to wait for a
/// frame doesn't go into a cache: pass those of a thread and frame to one `free_after`.
///
/// ```
/// # use gpu_descriptor::manager::{LayoutHandle, SetManager, SetCache};
/// # use gpu_descriptor::DescriptorDevice;
/// # use std::sync::Mutex;
/// # fn draw<L, P, S: Copy, D: DescriptorDevice<L, P, S>>(manager: &Mutex<SetManager<L, P, S, D>>, layout: LayoutHandle)
/// # -> Result<(), Box<dyn std::error::Error>> {
/// let mut cache = SetCache::new(layout, 64)?;
/// let (set, raw) = cache.allocate(|| manager.lock().unwrap())?;
/// // .. `raw` is written and bound, and the device is done with it ..
/// unsafe { cache.free((set, raw), || manager.lock().unwrap()) }?;
/// unsafe { cache.flush(&mut manager.lock().unwrap()) }?;
/// # Ok(())
/// # }
/// ```
#[derive(Debug)]
pub struct SetCache<S> {
    layout: LayoutHandle,
    refill: usize,

    /// How many calls had panicked when the set manager was last seen healthy; `None` before.
    panics: Option<u32>,

    /// At most twice `refill` sets, and as many `handles` for calls of the set manager.
    sets: Vec<(SetHandle, S)>,
    handles: Vec<SetHandle>,
}

impl<S: Copy> SetCache<S> {
    /// A cache without sets. It allocates the memory for all sets that it may have, twice `refill`, which
    /// is taken as at least 1.
    ///
    /// # Errors
    ///
    /// `OutOfHostMemory`.
    pub fn new(layout: LayoutHandle, refill: usize) -> Result<Self, RequestError> {
        const NO_MEMORY: RequestError = RequestError::Allocation(AllocationError::OutOfHostMemory);
        let refill = refill.max(1);
        let places = refill.checked_mul(2).ok_or(NO_MEMORY)?;
        let (mut sets, mut handles) = (Vec::new(), Vec::new());
        sets.try_reserve_exact(places).map_err(|_| NO_MEMORY)?;
        handles.try_reserve_exact(places).map_err(|_| NO_MEMORY)?;
        handles.resize(places, SetHandle::NONE);
        Ok(SetCache {
            layout,
            refill,
            panics: None,
            sets,
            handles,
        })
    }

    /// How many sets are in the cache.
    #[must_use]
    pub fn count(&self) -> usize {
        self.sets.len()
    }

    /// Takes a set from the cache. An empty cache takes the lock and is refilled; if the set manager
    /// refuses `refill` sets, it asks for half as many, and so on. A new cache takes the lock too, and each
    /// cache does once after a call of an allocator of the process panicked: it sees whether its set manager
    /// is poisoned.
    ///
    /// # Errors
    ///
    /// Same as [`SetManager::allocate`]: not even one set could be allocated.
    ///
    /// # Panics
    ///
    /// Same as [`SetManager::allocate`]: a cache of a poisoned set manager gives none of its sets.
    #[inline]
    pub fn allocate<L, P, D: DescriptorDevice<L, P, S>, G>(
        &mut self,
        lock: impl FnOnce() -> G,
    ) -> Result<(SetHandle, S), RequestError>
    where
        G: DerefMut<Target = SetManager<L, P, S, D>>,
    {
        if self.panics == Some(panics()) {
            if let Some(set) = self.sets.pop() {
                return Ok(set);
            }
        }
        self.allocate_locked(&mut lock())
    }

    /// `allocate` of a cache that is new or empty, or after a panic.
    #[cold]
    fn allocate_locked<L, P, D: DescriptorDevice<L, P, S>>(
        &mut self,
        manager: &mut SetManager<L, P, S, D>,
    ) -> Result<(SetHandle, S), RequestError> {
        let panics = panics();
        if manager.is_poisoned() {
            refuse();
        }
        if !manager.is_owner(self.layout) {
            return Err(RequestError::NoLayout);
        }
        self.panics = Some(panics);
        match self.sets.pop() {
            Some(set) => Ok(set),
            None => self.fill(manager),
        }
    }

    /// Refills an empty cache, and takes a set.
    fn fill<L, P, D: DescriptorDevice<L, P, S>>(
        &mut self,
        manager: &mut SetManager<L, P, S, D>,
    ) -> Result<(SetHandle, S), RequestError> {
        let mut count = self.refill;
        while let Err(error) = manager.allocate_into(self.layout, &mut self.handles[..count]) {
            match error {
                RequestError::Allocation(_) if count > 1 => count /= 2,
                _ => return Err(error),
            }
        }
        let read = |handle: SetHandle| (handle, *manager.set(handle).expect("it is held"));
        let (first, others) = (self.handles[0], &self.handles[1..count]);
        self.sets.extend(others.iter().map(|it| read(*it)));
        Ok(read(first))
    }

    /// Puts a set of the cache's layout into the cache, even if it was taken from another cache. A full
    /// cache takes the lock and first frees `refill` sets. Only then does the set manager check the sets.
    ///
    /// # Errors
    ///
    /// `NoSet`: a set of the cache was freed elsewhere, so that none could be freed. The set is still
    /// yours, and [`flush`](Self::flush) repairs the cache.
    ///
    /// # Safety
    ///
    /// Same as [`SetManager::free`]. And the set is one of the layout, with its raw one, and is freed once.
    #[inline]
    pub unsafe fn free<L, P, D: DescriptorDevice<L, P, S>, G>(
        &mut self,
        set: (SetHandle, S),
        lock: impl FnOnce() -> G,
    ) -> Result<(), FreeError>
    where
        G: DerefMut<Target = SetManager<L, P, S, D>>,
    {
        if self.sets.len() == self.handles.len() {
            // SAFETY: the caller's, when the sets were passed.
            unsafe { self.give_back(self.refill, &mut lock()) }?;
        }
        self.sets.push(set);
        Ok(())
    }

    /// Frees all sets of the cache.
    ///
    /// # Errors
    ///
    /// `NoSet`: some were freed elsewhere. The others are freed all the same, and the cache is empty.
    ///
    /// # Safety
    ///
    /// Same as [`SetManager::free`].
    pub unsafe fn flush<L, P, D: DescriptorDevice<L, P, S>>(
        &mut self,
        manager: &mut SetManager<L, P, S, D>,
    ) -> Result<(), FreeError> {
        // SAFETY: the caller's.
        let answer = unsafe { self.give_back(self.sets.len(), manager) };
        for (handle, _) in self.sets.drain(..) {
            // SAFETY: the caller's. The handle of a set that was freed elsewhere is invalid.
            let _ = unsafe { manager.free(&[handle]) };
        }
        answer
    }

    /// Frees the last `count` sets by one call, or none.
    ///
    /// # Safety
    ///
    /// Same as [`SetManager::free`].
    unsafe fn give_back<L, P, D: DescriptorDevice<L, P, S>>(
        &mut self,
        count: usize,
        manager: &mut SetManager<L, P, S, D>,
    ) -> Result<(), FreeError> {
        let left = self.sets.len() - count;
        for (place, (handle, _)) in self.handles.iter_mut().zip(&self.sets[left..]) {
            *place = *handle;
        }
        // SAFETY: the caller's.
        unsafe { manager.free(&self.handles[..count]) }?;
        self.sets.truncate(left);
        Ok(())
    }
}
