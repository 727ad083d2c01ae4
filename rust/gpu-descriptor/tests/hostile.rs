//! Devices and iterators that do what they may not, or panic. No set is allocated twice and none is freed
//! to a wrong pool; what is lost stands at each test. Without std a drop with live sets panics, which
//! ends the program in a panic.
#![cfg(feature = "std")]

mod hostile_device;

use gpu_descriptor::*;
use hostile_device::{Device, Fault, PANICKED, PANICS, Set};
use std::collections::BTreeSet;
use std::panic::{AssertUnwindSafe, catch_unwind, resume_unwind};

type Allocator = DescriptorAllocator<u64, Set>;
type Sets = Vec<DescriptorSet<Set>>;

fn take_of(
    allocator: &mut Allocator,
    device: &Device,
    sampler: u32,
    count: u32,
) -> Result<Sets, AllocationError> {
    let counts = DescriptorTotalCount {
        sampler,
        ..Default::default()
    };
    let flags = DescriptorSetLayoutCreateFlags::empty();
    // SAFETY: each test has one device for an allocator, and the layouts are what they are said to be.
    unsafe { allocator.allocate(device, &String::new(), flags, &counts, count) }
}

fn take(allocator: &mut Allocator, device: &Device, count: u32) -> Result<Sets, AllocationError> {
    take_of(allocator, device, 1, count)
}

fn numbers(sets: &Sets) -> BTreeSet<u64> {
    sets.iter().map(|set| set.raw().1).collect()
}

/// The message of a panic.
fn panic_of<R>(run: impl FnOnce() -> R) -> String {
    match catch_unwind(AssertUnwindSafe(run)) {
        Ok(_) => panic!("it did not panic"),
        Err(why) => match why.downcast::<String>() {
            Ok(why) => *why,
            Err(why) => why.downcast::<&str>().unwrap().to_string(),
        },
    }
}

const BROKEN: &str = "an earlier call of this allocator panicked";

/// From now on each call is a panic, and makes no call of the device.
fn assert_broken(allocator: &mut Allocator, device: &Device, held: Sets) {
    device.fault.set(Fault::None);
    let (granted, released) = (device.granted.borrow().len(), device.released());
    assert_eq!(panic_of(|| take(allocator, device, 5)), BROKEN);
    assert_eq!(panic_of(|| take(allocator, device, 0)), BROKEN);
    let free = || unsafe { allocator.free(device, held) };
    assert_eq!(panic_of(free), BROKEN);
    let cleanup = || unsafe { allocator.cleanup(device) };
    assert_eq!(panic_of(cleanup), BROKEN);
    assert_eq!(device.granted.borrow().len(), granted);
    assert_eq!(device.released(), released);
}

/// The sets of the request are dropped, and stay with the device.
#[test]
fn wrong_numbers_of_sets() {
    let more = "a device gave more sets than were asked for";
    let fewer = "a device granted fewer sets than were asked for";
    let puts = "a device put sets, and refused";
    for (fault, why) in [
        (Fault::OneMore, more),
        (Fault::OneFewer, fewer),
        (Fault::Nothing, fewer),
        (
            Fault::PutsAndRefuses(DeviceAllocationError::OutOfPoolMemory),
            puts,
        ),
        (
            Fault::PutsAndRefuses(DeviceAllocationError::FragmentedPool),
            puts,
        ),
        (
            Fault::PutsAndRefuses(DeviceAllocationError::OutOfHostMemory),
            puts,
        ),
        (
            Fault::PutsAndRefuses(DeviceAllocationError::OutOfDeviceMemory),
            puts,
        ),
    ] {
        // At a new pool, at one that is there, and at one that is there with a new one after it.
        for (before, count) in [(0, 5), (3, 5), (60, 50)] {
            let (device, mut allocator) = (Device::new(), Allocator::new(0));
            let held = take(&mut allocator, &device, before).unwrap();
            device.fault.set(fault);
            assert_eq!(panic_of(|| take(&mut allocator, &device, count)), why);
            assert_eq!(device.alive(), before as usize, "{fault:?}");
            assert_broken(&mut allocator, &device, held);
            assert_eq!(device.alive(), 0);
        }
    }
}

/// A device that catches the panic of the set too many has that set lost, and no other.
#[test]
fn one_set_more_in_silence() {
    for before in [0, 3] {
        let (device, mut allocator) = (Device::new(), Allocator::new(0));
        let mut held = take(&mut allocator, &device, before).unwrap();
        device.fault.set(Fault::OneMoreInSilence);
        held.extend(take(&mut allocator, &device, 5).unwrap());
        device.fault.set(Fault::None);
        held.extend(take(&mut allocator, &device, 5).unwrap());
        let count = before as usize + 10;
        assert_eq!((numbers(&held).len(), held.len()), (count, count));
        assert_eq!(
            (device.alive(), device.granted.borrow().len()),
            (count, count + 1)
        );
        unsafe { allocator.free(&device, held) };
        unsafe { allocator.cleanup(&device) };
        assert_eq!((device.released(), device.pools.borrow().len()), (count, 0));
    }
}

/// The sets of the call are dropped.
#[test]
fn panics_of_a_device() {
    for fault in PANICS {
        for count in [1, 5, 100] {
            let (device, mut allocator) = (Device::new(), Allocator::new(0));
            let held = take(&mut allocator, &device, 5).unwrap();
            let other = take_of(&mut allocator, &device, 2, 5).unwrap();
            device.fault.set(fault);
            let why = panic_of(|| {
                let mut sets = take(&mut allocator, &device, count)?;
                sets.extend(take_of(&mut allocator, &device, 3, 5)?);
                unsafe { allocator.free(&device, held.into_iter().chain(sets)) };
                unsafe { allocator.cleanup(&device) };
                Ok::<(), AllocationError>(())
            });
            assert_eq!(why, PANICKED, "{fault:?}");
            assert_eq!(device.alive(), 5);
            assert_broken(&mut allocator, &device, other);
        }
    }
}

/// Allocates sets of three keys, from several pools, and frees them in turns.
fn run_program(allocator: &mut Allocator, device: &Device) {
    let mut held: Sets = Vec::new();
    for sampler in [1, u32::MAX / 2, 7, u32::MAX / 2] {
        held.extend(take_of(allocator, device, sampler, 3).unwrap());
        let oldest: Sets = held.drain(..1).collect();
        unsafe { allocator.free(device, oldest) };
    }
    assert_eq!(numbers(&held).len(), 8);
    unsafe { allocator.free(device, held) };
    unsafe { allocator.cleanup(device) };
}

#[test]
fn a_panic_at_each_call() {
    for number in 0.. {
        let (device, mut allocator) = (Device::new(), Allocator::new(0));
        device.panicking.set(number);
        let ran = catch_unwind(AssertUnwindSafe(|| run_program(&mut allocator, &device)));
        assert_eq!(device.alive(), 0);
        if ran.is_ok() {
            assert_eq!(device.calls.get(), number);
            assert!(number > 20 && device.pools.borrow().is_empty());
            return;
        }
        assert_broken(&mut allocator, &device, Vec::new());
        assert_eq!(device.calls.get(), number + 1);
    }
}

/// A request that is refused frees its sets. A device that panics then has kept them.
#[test]
fn a_panic_in_a_rollback() {
    let (device, mut allocator) = (Device::new(), Allocator::new(0));
    device.fault.set(Fault::PanicsAfterTwoPools);
    let counts = DescriptorTotalCount {
        // Two sets go to a pool.
        sampler: u32::MAX / 2,
        ..Default::default()
    };
    let flags = DescriptorSetLayoutCreateFlags::empty();
    let take = || unsafe { allocator.allocate(&device, &String::new(), flags, &counts, 6) };
    assert_eq!(panic_of(take), PANICKED);
    // Two pools gave two sets each. All four are dropped, and stay with the device.
    assert_eq!((device.alive(), device.granted.borrow().len()), (0, 4));
    assert_broken(&mut allocator, &device, Vec::new());
}

/// What the vector had is dropped too.
#[test]
fn a_panic_while_sets_are_appended() {
    let counts = DescriptorTotalCount {
        sampler: 1,
        ..Default::default()
    };
    let layout = SetLayout {
        layout: String::new(),
        counts,
        flags: DescriptorSetLayoutCreateFlags::empty(),
    };
    for fault in [Fault::PanicsAtAlloc, Fault::PanicsAmongSets] {
        let (device, mut allocator) = (Device::new(), Allocator::new(0));
        let held = take(&mut allocator, &device, 5).unwrap();
        let mut sets = Vec::new();
        let mut append = || unsafe { allocator.allocate_into(&device, &layout, 3, &mut sets) };
        append().unwrap();
        assert_eq!(device.alive(), 8);
        device.fault.set(fault);
        assert_eq!(panic_of(append), PANICKED);
        assert_eq!((sets.len(), device.alive()), (0, 5));
        assert_broken(&mut allocator, &device, held);
    }
}

/// The sets that were left are dropped.
#[test]
fn sets_that_a_device_leaves() {
    for fault in [Fault::LeavesOne, Fault::LeavesAll] {
        let (device, mut allocator) = (Device::new(), Allocator::new(0));
        let held = take(&mut allocator, &device, 5).unwrap();
        let other = take(&mut allocator, &device, 5).unwrap();
        device.fault.set(fault);
        let free = || unsafe { allocator.free(&device, held) };
        assert_eq!(
            panic_of(free),
            "a device left sets that were to be released"
        );
        assert_broken(&mut allocator, &device, other);
    }
}

/// After the last set of a release it gets none of the next one.
#[test]
fn a_device_that_reads_past_the_end() {
    let (device, mut allocator) = (Device::new(), Allocator::new(0));
    device.fault.set(Fault::ReadsPastTheEnd);
    let mut sets = take(&mut allocator, &device, 5).unwrap();
    sets.extend(take_of(&mut allocator, &device, 2, 5).unwrap());
    sets.extend(take(&mut allocator, &device, 5).unwrap());
    unsafe { allocator.free(&device, sets) };
    unsafe { allocator.cleanup(&device) };
    assert_eq!((device.released(), device.pools.borrow().len()), (15, 0));
}

/// The sets that the iterator didn't give are lost with it.
#[test]
fn panics_of_an_iterator() {
    for given in [0, 1, 4, 7] {
        let (device, mut allocator) = (Device::new(), Allocator::new(0));
        let mut sets = take(&mut allocator, &device, 4).unwrap();
        sets.extend(take_of(&mut allocator, &device, 2, 4).unwrap());
        let held = take(&mut allocator, &device, 4).unwrap();
        let panicking = sets.into_iter().enumerate().map(|(place, set)| {
            if place == given {
                resume_unwind(Box::new(PANICKED));
            }
            set
        });
        let free = || unsafe { allocator.free(&device, panicking) };
        assert_eq!(panic_of(free), PANICKED);
        assert_eq!((device.released(), device.alive()), (given, 4));
        assert_broken(&mut allocator, &device, held);
    }
}

/// A set of another allocator is lost, and those after it too, unless the iterator was lent.
#[test]
fn a_set_of_another_allocator() {
    for place in [0, 3, 5] {
        for is_lent in [false, true] {
            let (device, other_device) = (Device::new(), Device::new());
            let (mut allocator, mut other) = (Allocator::new(0), Allocator::new(0));
            let held = take(&mut allocator, &device, 5).unwrap();
            let mut sets = take(&mut allocator, &device, 5).unwrap();
            let mut others = take(&mut other, &other_device, 5).unwrap();
            sets.insert(place, others.pop().unwrap());
            let mut sets = sets.into_iter();
            let why = panic_of(|| match is_lent {
                true => unsafe { allocator.free(&device, &mut sets) },
                false => unsafe { allocator.free(&device, std::mem::take(&mut sets)) },
            });
            assert_eq!(why, "Set must be allocated from this allocator");
            // Those before it were freed, and the allocator still works.
            assert_eq!(
                (device.released(), sets.len()),
                (place, if is_lent { 5 - place } else { 0 })
            );
            assert_eq!(other_device.released(), 0);
            let lost = 5 - place - sets.len();
            unsafe { allocator.free(&device, sets.chain(held)) };
            let again = take(&mut allocator, &device, 5).unwrap();
            unsafe { allocator.free(&device, again) };
            assert_eq!(device.released(), 15 - lost);
            unsafe { other.free(&other_device, others) };
            assert_eq!(other_device.released(), 4);
        }
    }
}

/// A raw set whose drop panics, if it is a foreign one, poisons nothing.
#[test]
fn a_foreign_set_that_panics_at_its_drop() {
    #[derive(Debug)]
    struct Raw(bool);

    impl Drop for Raw {
        fn drop(&mut self) {
            assert!(!self.0, "{PANICKED}");
        }
    }

    struct Gives;

    impl DescriptorDevice<bool, (), Raw> for Gives {
        unsafe fn create_descriptor_pool(
            &self,
            _: &DescriptorTotalCount,
            _: u32,
            _: DescriptorPoolCreateFlags,
        ) -> Result<(), CreatePoolError> {
            Ok(())
        }

        unsafe fn destroy_descriptor_pool(&self, _: ()) {}

        unsafe fn alloc_descriptor_sets<'a>(
            &self,
            _: &mut (),
            layouts: impl ExactSizeIterator<Item = &'a bool>,
            sets: &mut impl Extend<Raw>,
        ) -> Result<(), DeviceAllocationError> {
            sets.extend(layouts.map(|panics| Raw(*panics)));
            Ok(())
        }

        unsafe fn dealloc_descriptor_sets(&self, _: &mut (), sets: impl Iterator<Item = Raw>) {
            sets.for_each(drop);
        }
    }

    let layout = |panics| SetLayout {
        layout: panics,
        counts: DescriptorTotalCount::default(),
        flags: DescriptorSetLayoutCreateFlags::empty(),
    };
    let (mut allocator, mut other) = (DescriptorAllocator::new(0), DescriptorAllocator::new(0));
    let set = unsafe { allocator.allocate_one(&Gives, &layout(false)) }.unwrap();
    let foreign = unsafe { other.allocate_one(&Gives, &layout(true)) }.unwrap();
    let free = || unsafe { allocator.free(&Gives, [set, foreign]) };
    assert_eq!(panic_of(free), PANICKED);
    assert!(!allocator.is_poisoned());
    assert_eq!(allocator.outstanding(), 0);
    unsafe { allocator.cleanup(&Gives) };
    assert_eq!(allocator.pool_count(&layout(false).counts, false), 0);
}

/// Frees its sets and cleans up when it is dropped, as the devices of programs do.
struct Owner<'a>(Allocator, &'a Device, Sets);

impl<'a> Owner<'a> {
    fn new(device: &'a Device) -> Self {
        let mut allocator = Allocator::new(0);
        let sets = take(&mut allocator, device, 5).unwrap();
        Owner(allocator, device, sets)
    }
}

impl Drop for Owner<'_> {
    fn drop(&mut self) {
        unsafe { self.0.free(self.1, self.2.drain(..)) };
        unsafe { self.0.cleanup(self.1) };
    }
}

/// After a panic of the device nothing is freed, and the program isn't ended.
#[test]
fn a_drop_in_a_panic_of_a_device() {
    for fault in PANICS {
        let device = Device::new();
        let why = panic_of(|| {
            let mut owner = Owner::new(&device);
            device.fault.set(fault);
            let sets = take(&mut owner.0, &device, 100).unwrap();
            unsafe { owner.0.free(&device, sets) };
            unsafe { owner.0.free(&device, owner.2.drain(..)) };
            unsafe { owner.0.cleanup(&device) };
        });
        assert_eq!(why, PANICKED, "{fault:?}");
        assert_eq!(device.alive(), 0);
    }
}

/// If the panic has nothing to do with the allocator, all is freed.
#[test]
fn a_drop_in_another_panic() {
    let device = Device::new();
    let why = panic_of(|| {
        let _owner = Owner::new(&device);
        panic!("{PANICKED}");
    });
    assert_eq!(why, PANICKED);
    assert_eq!((device.released(), device.pools.borrow().len()), (5, 0));
}
