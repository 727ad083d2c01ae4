//! How sets are allocated and released.

use crate::driver::{Call, Driver, EachDevice, each_device, layouts};
use gpu_descriptor::vulkan::{DescriptorPool, DescriptorSet, DescriptorSetLayout};
use gpu_descriptor::*;

fn in_order<D: EachDevice>() {
    for count in [1, 2, 31, 32, 33, 500, 5_000] {
        let (driver, wanted) = (Driver::new(), layouts::<D::Layout>(count));
        let mut sets = vec![DescriptorSet(9)];
        let mut pool = DescriptorPool(5);
        // SAFETY: the functions are the test's.
        let answer = unsafe {
            let layouts = wanted.iter();
            driver
                .over::<D>()
                .alloc_descriptor_sets(&mut pool, layouts, &mut sets)
        };
        assert_eq!(answer, Ok(()));
        let wanted = layouts::<DescriptorSetLayout>(count);
        let wanted = wanted.iter().map(|layout| layout.0).collect();
        assert_eq!(driver.take_calls(), [Call::Allocate(5, wanted)]);
        let granted = (1..=count as u64).map(|it| DescriptorSet(0x5000_0000_0000 + 16 * it));
        assert_eq!(sets[0], DescriptorSet(9));
        assert_eq!(sets[1..], granted.collect::<Vec<_>>());
    }
}

#[test]
fn sets_of_one_request_are_from_one_call_in_order() {
    each_device!(in_order);
}

fn for_no_sets<D: EachDevice>() {
    let driver = Driver::new();
    let (device, mut pool, mut sets) = (driver.over::<D>(), DescriptorPool(5), Vec::new());
    unsafe {
        let answer = device.alloc_descriptor_sets(&mut pool, [].iter(), &mut sets);
        assert_eq!(answer, Ok(()));
        device.dealloc_descriptor_sets(&mut pool, std::iter::empty());
    }
    assert!(sets.is_empty() && driver.take_calls().is_empty());
}

#[test]
fn for_no_sets_no_call_is_made() {
    each_device!(for_no_sets);
}

fn a_release<D: EachDevice>() {
    for (count, parts) in [
        (1, vec![1]),
        (127, vec![127]),
        (128, vec![128]),
        (129, vec![128, 1]),
        (300, vec![128, 128, 44]),
    ] {
        let driver = Driver::new();
        let sets: Vec<u64> = (1..=count).collect();
        let released = sets.iter().map(|set| DescriptorSet(*set));
        unsafe {
            driver
                .over::<D>()
                .dealloc_descriptor_sets(&mut DescriptorPool(5), released);
        }
        let mut rest = sets.as_slice();
        let calls = parts.into_iter().map(|part| {
            let (first, others) = rest.split_at(part);
            rest = others;
            Call::Free(5, first.to_vec())
        });
        assert_eq!(driver.take_calls(), calls.collect::<Vec<_>>());
    }
}

#[test]
fn a_release_is_split_after_128_sets() {
    each_device!(a_release);
}

/// Pools that live and sets that live, from calls that were all granted.
fn left(calls: &[Call]) -> (i64, i64) {
    calls.iter().fold((0, 0), |(pools, sets), call| match call {
        Call::Create(..) => (pools + 1, sets),
        Call::Destroy(..) => (pools - 1, sets),
        Call::Allocate(_, layouts) => (pools, sets + layouts.len() as i64),
        Call::Free(_, freed) => (pools, sets - freed.len() as i64),
    })
}

fn frees_all<D: EachDevice>() {
    let driver = Driver::new();
    let (device, layout) = (driver.over::<D>(), DescriptorSetLayout(7).into());
    let mut allocator = DescriptorAllocator::new(1000);
    let counts = vulkan::count_bindings([(vulkan::DescriptorType::SAMPLED_IMAGE, 2)]).unwrap();
    let flags = DescriptorSetLayoutCreateFlags::UPDATE_AFTER_BIND;
    // SAFETY: it is the device of all calls.
    unsafe {
        let sets = allocator.allocate(&device, &layout, flags, &counts, 500);
        let sets = sets.unwrap();
        assert_eq!(left(&driver.calls.borrow()), (1, 500));
        let more = allocator.allocate(&device, &layout, flags, &counts, 1);
        assert_eq!(more.unwrap_err(), AllocationError::Fragmentation);
        allocator.free(&device, sets);
        allocator.cleanup(&device);
    }
    let calls = driver.take_calls();
    assert_eq!(left(&calls), (0, 0));
    let Call::Create(pool, 0) = &calls[0] else {
        panic!("{calls:?}")
    };
    assert_eq!((pool.flags, pool.max_sets), (3, 500));
    assert_eq!(pool.sizes, [(2, 1000)]);
}

#[test]
fn an_allocator_frees_all() {
    each_device!(frees_all);
}
