//! Where memory is lacking for the handles of a call. The functions here take none, and their `unsafe`
//! rests on calls that are made as Vulkan asks.

use crate::driver::{EachDevice, each_device, layouts};
use crate::refuses::{calls, counted, refuse};
use gpu_descriptor::vulkan::raw::{
    AllocationCallbacks, DescriptorPoolCreateInfo, DescriptorSetAllocateInfo,
};
use gpu_descriptor::vulkan::{
    DescriptorPool, DescriptorSet, DescriptorSetLayout, Device, DeviceHandle, Functions,
    VariableDevice,
};
use gpu_descriptor::*;
use std::cell::Cell;
use std::ptr::null_mut;

thread_local! {
    /// How many sets the functions gave, and how many they have back.
    static ALLOCATED: Cell<u32> = const { Cell::new(0) };
    static FREED: Cell<u32> = const { Cell::new(0) };
}

unsafe extern "system" fn create_descriptor_pool(
    _: DeviceHandle,
    _: *const DescriptorPoolCreateInfo,
    _: *const AllocationCallbacks,
    pool: *mut DescriptorPool,
) -> i32 {
    unsafe { *pool = DescriptorPool(1) };
    0
}

unsafe extern "system" fn destroy_descriptor_pool(
    _: DeviceHandle,
    _: DescriptorPool,
    _: *const AllocationCallbacks,
) {
}

unsafe extern "system" fn allocate_descriptor_sets(
    _: DeviceHandle,
    info: *const DescriptorSetAllocateInfo,
    sets: *mut DescriptorSet,
) -> i32 {
    let count = unsafe { (*info).descriptor_set_count };
    ALLOCATED.set(ALLOCATED.get() + count);
    for place in 0..count {
        unsafe { *sets.add(place as usize) = DescriptorSet(u64::from(place)) };
    }
    0
}

unsafe extern "system" fn free_descriptor_sets(
    _: DeviceHandle,
    _: DescriptorPool,
    count: u32,
    _: *const DescriptorSet,
) -> i32 {
    FREED.set(FREED.get() + count);
    0
}

fn device<D: EachDevice>() -> D {
    let functions = Functions {
        create_descriptor_pool,
        destroy_descriptor_pool,
        allocate_descriptor_sets,
        free_descriptor_sets,
    };
    // SAFETY: the functions don't read through the handle.
    D::over(unsafe { Device::new(DeviceHandle(null_mut()), functions) })
}

/// Allocates sets from a pool, with a refusal of the memory that is asked for by this number, and
/// returns how often memory was asked for, too.
fn allocate<D: EachDevice>(
    count: usize,
    refused: u64,
) -> (Result<(), DeviceAllocationError>, usize, u64) {
    let layouts = layouts::<D::Layout>(count);
    let mut sets = Vec::with_capacity(count);
    refuse(refused);
    let answer = counted(|| unsafe {
        device::<D>().alloc_descriptor_sets(&mut DescriptorPool(1), layouts.iter(), &mut sets)
    });
    (answer, sets.len(), calls())
}

/// More than 32 handles take so many allocations.
fn a_refusal<D: EachDevice>(allocations: u64) {
    let error = Err(DeviceAllocationError::OutOfHostMemory);
    assert_eq!(allocate::<D>(33, u64::MAX), (Ok(()), 33, allocations));
    assert_eq!(ALLOCATED.take(), 33);
    for refused in 0..allocations {
        assert_eq!(allocate::<D>(33, refused), (error, 0, refused + 1));
    }
    assert_eq!(ALLOCATED.take(), 0, "the driver isn't asked");
}

/// The handles of the layouts, and those of the sets; for a variable device the counts too.
#[test]
fn a_refusal_of_memory_is_out_of_host_memory() {
    a_refusal::<Device>(2);
    a_refusal::<VariableDevice>(3);
}

fn few_sets<D: EachDevice>() {
    for count in [1, 32] {
        assert_eq!(allocate::<D>(count, u64::MAX), (Ok(()), count, 0));
    }
}

#[test]
fn few_sets_take_no_memory() {
    each_device!(few_sets);
}

fn a_release<D: EachDevice>() {
    for count in [1, 128, 1000] {
        refuse(u64::MAX);
        counted(|| unsafe {
            let sets = (0..count).map(DescriptorSet);
            device::<D>().dealloc_descriptor_sets(&mut DescriptorPool(1), sets);
        });
        assert_eq!((FREED.take(), calls()), (count as u32, 0));
    }
}

#[test]
fn a_release_takes_no_memory() {
    each_device!(a_release);
}

/// Each allocation of memory in a request of the allocator fails in turn.
fn a_request<D: EachDevice>() {
    let counts = DescriptorTotalCount {
        sampler: 1,
        ..Default::default()
    };
    let flags = DescriptorSetLayoutCreateFlags::empty();
    for refused in 0.. {
        let mut allocator = DescriptorAllocator::new(0);
        let layout = DescriptorSetLayout(1).into();
        refuse(refused);
        // SAFETY: the functions are the same in all calls.
        let answer =
            counted(|| unsafe { allocator.allocate(&device::<D>(), &layout, flags, &counts, 200) });
        let is_refused = calls() > refused;
        match answer {
            Ok(sets) => unsafe { allocator.free(&device::<D>(), sets) },
            Err(error) => assert_eq!(error, AllocationError::OutOfHostMemory),
        }
        unsafe { allocator.cleanup(&device::<D>()) };
        assert_eq!(ALLOCATED.take(), FREED.take());
        if !is_refused {
            assert!(refused >= 2);
            return;
        }
    }
}

#[test]
fn a_request_without_memory_leaves_no_set() {
    each_device!(a_request);
}
