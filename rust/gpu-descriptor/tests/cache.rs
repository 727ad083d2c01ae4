//! Caches of sets over a set manager: what they allocate and free, what they do if it refuses, and threads.

mod refuses;

use gpu_descriptor::manager::{FreeError, LayoutHandle, RequestError, SetCache, SetManager};
use gpu_descriptor::*;
use refuses::with_refused;
use std::cell::Cell;
use std::panic::{AssertUnwindSafe, catch_unwind};
use std::sync::{Mutex, PoisonError};

/// A device that numbers its sets, and has at most `most`. On demand its next call panics.
struct Device {
    last: Cell<u64>,
    sets: Cell<usize>,
    most: Cell<usize>,
    calls: Cell<usize>,
    panics: Cell<bool>,
}

impl DescriptorDevice<u64, u64, u64> for Device {
    unsafe fn create_descriptor_pool(
        &self,
        _: &DescriptorTotalCount,
        _: u32,
        _: DescriptorPoolCreateFlags,
    ) -> Result<u64, CreatePoolError> {
        Ok(0)
    }

    unsafe fn destroy_descriptor_pool(&self, _: u64) {}

    unsafe fn alloc_descriptor_sets<'a>(
        &self,
        _: &mut u64,
        layouts: impl ExactSizeIterator<Item = &'a u64>,
        sets: &mut impl Extend<u64>,
    ) -> Result<(), DeviceAllocationError> {
        assert!(!self.panics.take(), "on demand");
        if self.sets.get() + layouts.len() > self.most.get() {
            return Err(DeviceAllocationError::OutOfDeviceMemory);
        }
        self.sets.set(self.sets.get() + layouts.len());
        self.calls.set(self.calls.get() + 1);
        sets.extend(layouts.map(|_| {
            self.last.set(self.last.get() + 1);
            self.last.get()
        }));
        Ok(())
    }

    unsafe fn dealloc_descriptor_sets(&self, _: &mut u64, sets: impl Iterator<Item = u64>) {
        self.sets.set(self.sets.get() - sets.count());
        assert!(!self.panics.take(), "on demand");
    }
}

/// A cache of `refill` sets, with a refusal of the memory that is asked for by this number. Returns how often memory was
/// asked for, too.
fn new(refill: usize, refused: u64) -> (Result<SetCache<u64>, RequestError>, u64) {
    let (_, layout) = manager(1);
    with_refused(refused, || SetCache::new(layout, refill))
}

#[test]
fn a_cache_without_memory() {
    const NO_MEMORY: RequestError = RequestError::Allocation(AllocationError::OutOfHostMemory);
    let (made, allocations) = new(100, u64::MAX);
    assert_eq!((made.unwrap().count(), allocations), (0, 2));
    for refused in 0..2 {
        assert_eq!(new(100, refused).0.unwrap_err(), NO_MEMORY);
    }
    for refill in [usize::MAX / 2 + 1, usize::MAX] {
        assert_eq!(new(refill, u64::MAX).0.unwrap_err(), NO_MEMORY);
    }
}

type Shared = Mutex<SetManager<u64, u64, u64, Device>>;

/// A set manager that keeps no set, and a layout.
fn manager(most: usize) -> (Shared, LayoutHandle) {
    let mut it = SetManager::new(
        Device {
            last: Cell::new(0),
            sets: Cell::new(0),
            most: Cell::new(most),
            calls: Cell::new(0),
            panics: Cell::new(false),
        },
        0,
    );
    it.set_max_kept(0);
    let counts = DescriptorTotalCount {
        sampler: 1,
        ..Default::default()
    };
    let layout = SetLayout {
        layout: 7,
        counts,
        flags: DescriptorSetLayoutCreateFlags::empty(),
    };
    // SAFETY: the device knows no layouts.
    let layout = unsafe { it.add_layout(layout) }.unwrap();
    (Mutex::new(it), layout)
}

fn end(shared: Shared) {
    let it = shared.into_inner().unwrap();
    assert_eq!(it.outstanding(), 0);
    // SAFETY: the device isn't in use.
    assert_eq!(unsafe { it.shutdown() }.sets.get(), 0);
}

#[test]
fn refills_and_frees() {
    let (shared, layout) = manager(usize::MAX);
    let lock = || shared.lock().unwrap();
    let mut cache = SetCache::new(layout, 4).unwrap();
    let mut sets = Vec::new();
    for made in 0..12 {
        let (set, raw) = cache.allocate(lock).unwrap();
        assert_eq!(lock().set(set), Some(&raw));
        assert!(!sets.contains(&(set, raw)));
        sets.push((set, raw));
        assert_eq!(lock().device().sets.get(), (made / 4 + 1) * 4);
    }
    assert_eq!((lock().device().calls.get(), cache.count()), (3, 0));
    for (freed, set) in sets.into_iter().enumerate() {
        // SAFETY: the device doesn't use it.
        unsafe { cache.free(set, lock) }.unwrap();
        assert_eq!(cache.count(), if freed < 8 { freed + 1 } else { freed - 3 });
    }
    assert_eq!(lock().device().sets.get(), 8);
    // SAFETY: as above.
    unsafe { cache.flush(&mut lock()) }.unwrap();
    assert_eq!(cache.count(), 0);
    // No refill is one of 1, and one past all memory is refused.
    let mut small = SetCache::new(layout, 0).unwrap();
    let set = small.allocate(lock).unwrap();
    // SAFETY: as above.
    unsafe { lock().free(&[set.0]) }.unwrap();
    let refused = SetCache::<u64>::new(layout, usize::MAX / 2).map(|it| it.count());
    let no_memory = RequestError::Allocation(AllocationError::OutOfHostMemory);
    assert_eq!(refused, Err(no_memory));
    end(shared);
}

/// If a refill is refused, fewer sets are requested, down to one.
#[test]
fn asks_for_fewer() {
    let (shared, layout) = manager(11);
    let lock = || shared.lock().unwrap();
    let mut cache = SetCache::new(layout, 64).unwrap();
    let mut sets: Vec<_> = (0..11).map(|_| cache.allocate(lock).unwrap()).collect();
    let refused = RequestError::Allocation(AllocationError::OutOfDeviceMemory);
    assert_eq!(cache.allocate(lock), Err(refused));
    assert_eq!(lock().outstanding(), 11);
    assert_eq!(lock().device().calls.get(), 3);
    // SAFETY: the device doesn't use them.
    unsafe { cache.free(sets.pop().unwrap(), lock) }.unwrap();
    sets.push(cache.allocate(lock).unwrap());
    for set in sets {
        // SAFETY: as above.
        unsafe { cache.free(set, lock) }.unwrap();
    }
    // SAFETY: as above.
    unsafe { cache.flush(&mut lock()) }.unwrap();
    lock().remove_layout(layout).unwrap();
    assert_eq!(cache.allocate(lock), Err(RequestError::NoLayout));
    end(shared);
}

/// A set that was freed elsewhere is refused, and so are the others of its call, until the cache is flushed.
#[test]
fn a_set_that_was_freed_elsewhere() {
    let (shared, layout) = manager(usize::MAX);
    let lock = || shared.lock().unwrap();
    let mut cache = SetCache::new(layout, 2).unwrap();
    let sets: Vec<_> = (0..5).map(|_| cache.allocate(lock).unwrap()).collect();
    // SAFETY: the device doesn't use them.
    unsafe {
        cache.flush(&mut lock()).unwrap();
        sets[..4]
            .iter()
            .for_each(|it| cache.free(*it, lock).unwrap());
        lock().free(&[sets[3].0]).unwrap();
        assert_eq!(cache.free(sets[4], lock), Err(FreeError::NoSet));
        assert_eq!((cache.count(), lock().outstanding()), (4, 4));
        assert_eq!(cache.flush(&mut lock()), Err(FreeError::NoSet));
        assert_eq!((cache.count(), lock().outstanding()), (0, 1));
        cache.free(sets[4], lock).unwrap();
        cache.flush(&mut lock()).unwrap();
    }
    end(shared);
}

#[test]
fn threads_lose_no_set() {
    let (shared, layout) = manager(usize::MAX);
    let lock = || shared.lock().unwrap();
    std::thread::scope(|scope| {
        for refill in [1, 5, 64] {
            scope.spawn(move || {
                let mut cache = SetCache::new(layout, refill).unwrap();
                for turn in 0..500 {
                    let sets: Vec<_> = (0..turn % 9)
                        .map(|_| cache.allocate(lock).unwrap())
                        .collect();
                    for set in sets {
                        // SAFETY: the device doesn't use it.
                        unsafe { cache.free(set, lock) }.unwrap();
                    }
                }
                // SAFETY: as above.
                unsafe { cache.flush(&mut lock()) }.unwrap();
            });
        }
    });
    end(shared);
}

type Sets = SetManager<u64, u64, u64, Device>;

/// Held by each test that has a device panic, since that concerns all caches.
static PANICS: Mutex<()> = Mutex::new(());

/// Makes a call of which the device panics.
fn poison<R>(it: &mut Sets, call: impl FnOnce(&mut Sets) -> R) {
    it.device().panics.set(true);
    assert!(catch_unwind(AssertUnwindSafe(|| call(it))).is_err());
    assert!(it.is_poisoned());
}

/// A cache of a poisoned set manager gives none of its sets.
fn gives_nothing(cache: &mut SetCache<u64>, it: &mut Sets) {
    assert!(cache.count() > 0);
    let panic = catch_unwind(AssertUnwindSafe(|| cache.allocate(|| it))).unwrap_err();
    let why = panic.downcast::<&str>().unwrap();
    assert_eq!(*why, "an earlier call of this allocator panicked");
}

/// The device may have freed sets of the cache by then: the last one did.
#[test]
fn a_cache_of_a_poisoned_set_manager() {
    let _alone = PANICS.lock().unwrap_or_else(PoisonError::into_inner);
    let (shared, layout) = manager(usize::MAX);
    let mut it = shared.into_inner().unwrap();
    let mut cache = SetCache::new(layout, 4).unwrap();
    let set = cache.allocate(|| &mut it).unwrap();
    poison(&mut it, |it| it.allocate(layout));
    gives_nothing(&mut cache, &mut it);
    // A set that is freed into a cache which never saw the set manager.
    let mut new = SetCache::new(layout, 4).unwrap();
    // SAFETY: the device doesn't use it.
    unsafe { new.free(set, || &mut it) }.unwrap();
    gives_nothing(&mut new, &mut it);
    // Nor does a healthy one in its place help.
    let mut other = manager(1).0.into_inner().unwrap();
    let answer = new.allocate(|| &mut other);
    assert_eq!(answer, Err(RequestError::NoLayout));
    gives_nothing(&mut new, &mut it);
    it.into_device();

    let (shared, layout) = manager(usize::MAX);
    let mut it = shared.into_inner().unwrap();
    let mut cache = SetCache::new(layout, 4).unwrap();
    let _set = cache.allocate(|| &mut it).unwrap();
    // SAFETY: as above.
    poison(&mut it, |it| unsafe { cache.flush(it) });
    gives_nothing(&mut cache, &mut it);
    assert_eq!(it.into_device().sets.get(), 1);
}

/// A panic elsewhere costs a cache one lock.
#[test]
fn a_cache_after_a_panic_elsewhere() {
    let _alone = PANICS.lock().unwrap_or_else(PoisonError::into_inner);
    let ((shared, layout), (other, others)) = (manager(usize::MAX), manager(usize::MAX));
    let mut cache = SetCache::new(layout, 4).unwrap();
    let locks = Cell::new(0);
    let lock = || {
        locks.set(locks.get() + 1);
        shared.lock().unwrap()
    };
    let mut sets = vec![cache.allocate(lock).unwrap()];
    let mut other = other.into_inner().unwrap();
    poison(&mut other, |it| it.allocate(others));
    other.into_device();
    for left in (0..3).rev() {
        sets.push(cache.allocate(lock).unwrap());
        assert_eq!((locks.get(), cache.count()), (2, left));
    }
    for set in sets {
        // SAFETY: the device doesn't use it.
        unsafe { cache.free(set, lock) }.unwrap();
    }
    // SAFETY: as above.
    unsafe { cache.flush(&mut lock()) }.unwrap();
    end(shared);
}
