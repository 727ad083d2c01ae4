//! The interface of a device, and a device as the proved sources call it.

use crate::gpu_descriptor_types::{self as inner, Layouts, SetSink};
use crate::{
    CreatePoolError, DescriptorPoolCreateFlags, DescriptorTotalCount, DeviceAllocationError,
};
use core::marker::PhantomData;
use std_alloc::boxed::Box;
use std_alloc::rc::Rc;
use std_alloc::sync::Arc;

/// A device that can create pools and allocate sets from them.
///
/// The allocator asks for pools of at least one set and one descriptor, always with
/// [`FREE_DESCRIPTOR_SET`](DescriptorPoolCreateFlags::FREE_DESCRIPTOR_SET). It never asks a pool for more
/// sets or descriptors than the pool has left. If an existing pool returns `FragmentedPool` or
/// `OutOfPoolMemory`, the next pool is asked. A new pool that returns one of them is destroyed and ends the
/// request with `Fragmentation`; every other error ends the request. Return any other result of the driver
/// as `OutOfHostMemory`. A panic poisons the allocator.
///
/// A device may hold a lock or a `RefCell` borrow while it reads `layouts` and extends `sets`: neither runs
/// code of a device or of a caller. But `dealloc_descriptor_sets` may run the caller's code: in a call of
/// `free` its `sets` read the iterator that the caller passed. So the caller's iterator must not take a
/// lock or a borrow that the device holds there.
pub trait DescriptorDevice<L, P, S> {
    /// Creates a pool for at most `max_sets` sets, which together have at most these descriptors.
    ///
    /// # Safety
    ///
    /// Only the allocator calls it.
    unsafe fn create_descriptor_pool(
        &self,
        descriptor_count: &DescriptorTotalCount,
        max_sets: u32,
        flags: DescriptorPoolCreateFlags,
    ) -> Result<P, CreatePoolError>;

    /// Destroys a pool.
    ///
    /// # Safety
    ///
    /// The pool is of this device, and has no sets.
    unsafe fn destroy_descriptor_pool(&self, pool: P);

    /// Allocates a set for each layout and extends `sets` by them; or returns an error and gives none.
    ///
    /// # Safety
    ///
    /// The pool is of this device, and has room for the sets. The layouts are of this device.
    unsafe fn alloc_descriptor_sets<'a>(
        &self,
        pool: &mut P,
        layouts: impl ExactSizeIterator<Item = &'a L>,
        sets: &mut impl Extend<S>,
    ) -> Result<(), DeviceAllocationError>
    where
        L: 'a;

    /// Frees all sets of the iterator.
    ///
    /// # Safety
    ///
    /// The pool is of this device. The sets were allocated from it and not freed, and the device is done with
    /// them.
    unsafe fn dealloc_descriptor_sets(&self, pool: &mut P, sets: impl Iterator<Item = S>);
}

/// A device behind a pointer is a device.
macro_rules! of_pointers {
    ($($pointer:ty),*) => {$(
        impl<L, P, S, D: DescriptorDevice<L, P, S>> DescriptorDevice<L, P, S> for $pointer {
            #[inline]
            unsafe fn create_descriptor_pool(
                &self,
                descriptor_count: &DescriptorTotalCount,
                max_sets: u32,
                flags: DescriptorPoolCreateFlags,
            ) -> Result<P, CreatePoolError> {
                // SAFETY: here and below, the caller keeps the same conditions.
                unsafe { (**self).create_descriptor_pool(descriptor_count, max_sets, flags) }
            }

            #[inline]
            unsafe fn destroy_descriptor_pool(&self, pool: P) {
                unsafe { (**self).destroy_descriptor_pool(pool) }
            }

            #[inline]
            unsafe fn alloc_descriptor_sets<'a>(
                &self,
                pool: &mut P,
                layouts: impl ExactSizeIterator<Item = &'a L>,
                sets: &mut impl Extend<S>,
            ) -> Result<(), DeviceAllocationError>
            where
                L: 'a,
            {
                unsafe { (**self).alloc_descriptor_sets(pool, layouts, sets) }
            }

            #[inline]
            unsafe fn dealloc_descriptor_sets(&self, pool: &mut P, sets: impl Iterator<Item = S>) {
                unsafe { (**self).dealloc_descriptor_sets(pool, sets) }
            }
        }
    )*};
}

of_pointers!(&D, Box<D>, Rc<D>, Arc<D>);

/// A device as the proved sources call it. Their proofs rest on the contract of that trait. The adapter
/// ensures what the contract requires of numbers of sets, and the rest is up to the device.
pub(crate) struct Adapter<D> {
    pub(crate) device: D,
}

impl<L, P, S, D: DescriptorDevice<L, P, S>> inner::DescriptorDevice<L, P, S> for Adapter<D> {
    #[inline]
    fn create_descriptor_pool(
        &mut self,
        counts: &DescriptorTotalCount,
        max_sets: u32,
        flags: DescriptorPoolCreateFlags,
    ) -> Result<P, CreatePoolError> {
        // SAFETY: the caller of `allocate` promises that it is the device of all calls.
        unsafe { self.device.create_descriptor_pool(counts, max_sets, flags) }
    }

    #[inline]
    fn destroy_descriptor_pool(&mut self, pool: P) {
        // SAFETY: as above; it is proved that the pool is of this allocator and has no sets.
        unsafe { self.device.destroy_descriptor_pool(pool) }
    }

    #[inline]
    fn alloc_descriptor_sets<K: SetSink<S>>(
        &mut self,
        pool: &mut P,
        layouts: Layouts<'_, L>,
        sets: &mut K,
    ) -> Result<(), DeviceAllocationError> {
        let layout = layouts.layout();
        let before = sets.room();
        let floor = before - layouts.len() as usize;
        let mut puts = Puts {
            sink: sets,
            floor,
            set: PhantomData,
        };
        // SAFETY: as above; it is proved that the pool has sets and descriptors left for them.
        let result = unsafe {
            let layouts = (0..layouts.len()).map(|_| layout);
            self.device.alloc_descriptor_sets(pool, layouts, &mut puts)
        };
        match result {
            Ok(()) => assert!(
                sets.room() == floor,
                "a device granted fewer sets than were asked for"
            ),
            Err(_) => assert!(sets.room() == before, "a device put sets, and refused"),
        }
        result
    }

    #[inline]
    fn dealloc_descriptor_sets<I: Iterator<Item = S>>(&mut self, pool: &mut P, sets: &mut I) {
        let mut taken = Taken {
            sets,
            is_at_end: false,
        };
        // SAFETY: as above; it is proved that the sets are of this pool, if each is freed once.
        unsafe { self.device.dealloc_descriptor_sets(pool, &mut taken) };
        if !taken.is_at_end {
            taken.refuse_rest();
        }
    }
}

/// A sink that takes the sets that were requested, and no more.
struct Puts<'a, K, S> {
    sink: &'a mut K,

    /// How much room is left after all sets were put.
    floor: usize,
    set: PhantomData<S>,
}

impl<S, K: SetSink<S>> Extend<S> for Puts<'_, K, S> {
    #[inline]
    fn extend<T: IntoIterator<Item = S>>(&mut self, iter: T) {
        iter.into_iter().for_each(|set| {
            assert!(
                self.sink.room() > self.floor,
                "a device gave more sets than were asked for"
            );
            self.sink.put(set);
        })
    }
}

/// The sets of an iterator, whose end is reached once.
struct Taken<'a, I> {
    sets: &'a mut I,
    is_at_end: bool,
}

impl<I: Iterator> Taken<'_, I> {
    /// Panics if sets are left. It is a call of its own, so that a device which reads to the end has
    /// the iterator inlined once.
    #[cold]
    #[inline(never)]
    fn refuse_rest(mut self) {
        assert!(
            self.next().is_none(),
            "a device left sets that were to be released"
        );
    }
}

impl<I: Iterator> Iterator for Taken<'_, I> {
    type Item = I::Item;

    #[inline]
    fn next(&mut self) -> Option<I::Item> {
        if self.is_at_end {
            return None;
        }
        let set = self.sets.next();
        self.is_at_end = set.is_none();
        set
    }
}
