//! The limit on update-after-bind descriptors: as many sets as it has descriptors, and not one more. The
//! pools together never have more descriptors either: they are cut to it.

use gpu_descriptor::AllocationError::Fragmentation;
use gpu_descriptor::frames::FrameManager;
use gpu_descriptor::manager::{RequestError, SetManager};
use gpu_descriptor::*;

include!("numbers/device.rs");

/// Nothing, and fewer and more than the 64 sets of a first pool.
const LIMITS: [u32; 4] = [0, 1, 63, 200];

/// An update-after-bind layout with one descriptor.
fn layout() -> SetLayout<u64> {
    let counts = DescriptorTotalCount {
        sampler: 1,
        ..Default::default()
    };
    SetLayout {
        layout: 0,
        counts,
        flags: DescriptorSetLayoutCreateFlags::UPDATE_AFTER_BIND,
    }
}

#[test]
fn of_an_allocator() {
    for limit in LIMITS {
        let (mut it, device) = (DescriptorAllocator::new(limit), Device::default());
        assert_eq!(it.update_after_bind_limit(), limit);
        let refused = unsafe { it.allocate_for(&device, &layout(), limit + 1) };
        assert!(matches!(refused, Err(Fragmentation)));
        let sets = unsafe { it.allocate_for(&device, &layout(), limit) }.unwrap();
        assert!(matches!(
            unsafe { it.allocate_one(&device, &layout()) },
            Err(Fragmentation)
        ));
        assert_eq!(it.update_after_bind_descriptors(), limit);
        assert_eq!(it.update_after_bind_capacity(), limit);
        unsafe { it.free(&device, sets) };
    }
}

#[test]
fn of_a_manager() {
    for limit in LIMITS {
        let (mut it, device) = (FrameManager::new(limit), Device::default());
        assert_eq!(it.update_after_bind_limit(), limit);
        let refused = unsafe { it.allocate_for(&device, &layout(), limit + 1) };
        assert!(matches!(refused, Err(Fragmentation)));
        let sets = unsafe { it.allocate_for(&device, &layout(), limit) }.unwrap();
        assert!(matches!(
            unsafe { it.allocate_one(&device, &layout()) },
            Err(Fragmentation)
        ));
        assert_eq!(it.update_after_bind_capacity(), limit);
        unsafe { it.free(&device, sets) };
        unsafe { it.cleanup(&device) };
        assert_eq!(it.update_after_bind_capacity(), 0);
    }
}

#[test]
fn of_a_set_manager() {
    for limit in LIMITS {
        let mut it = SetManager::new(Device::default(), limit);
        assert_eq!(it.update_after_bind_limit(), limit);
        let layout = unsafe { it.add_layout(layout()) }.unwrap();
        let refused = RequestError::Allocation(Fragmentation);
        assert_eq!(it.allocate_many(layout, limit + 1), Err(refused));
        assert_eq!(
            it.allocate_many(layout, limit).unwrap().len(),
            limit as usize
        );
        assert_eq!(it.allocate(layout), Err(refused));
        assert_eq!(it.update_after_bind_capacity(), limit);
        unsafe { it.shutdown() };
    }
}

/// An update-after-bind layout with so many images, as bindless programs have them.
fn bindless(images: u32) -> SetLayout<u64> {
    let counts = DescriptorTotalCount {
        sampled_image: images,
        ..Default::default()
    };
    SetLayout { counts, ..layout() }
}

/// Two bindless layouts under the least limit that Vulkan allows. The original serves both, as its limit is on
/// live sets alone, and drivers grant its pools of 640,000 and 512,000 images. Here the first pool uses the limit up,
/// unless pools are bounded.
#[test]
fn of_two_bindless_layouts() {
    let (first, second) = (bindless(10_000), bindless(8_000));
    for (most, is_granted, capacity) in [
        (None, false, 500_000),
        (Some(65_536), true, 6 * 10_000 + 8 * 8_000),
    ] {
        let (mut it, device) = (DescriptorAllocator::new(500_000), Device::default());
        it.set_max_pool_descriptors(most);
        let mut sets = vec![unsafe { it.allocate_one(&device, &first) }.unwrap()];
        match unsafe { it.allocate_one(&device, &second) } {
            Ok(set) => sets.push(set),
            Err(error) => assert_eq!(error, Fragmentation),
        }
        assert_eq!(sets.len() == 2, is_granted, "{most:?}");
        assert_eq!(it.update_after_bind_capacity(), capacity, "{most:?}");
        unsafe { it.free(&device, sets) };
        unsafe { it.cleanup(&device) };
    }
}

/// What a manager says of its pools: as an allocator, 64 sets for the first.
#[test]
fn pools_of_a_manager() {
    let (mut it, device) = (FrameManager::new(0), Device::default());
    let SetLayout { layout, counts, .. } = layout();
    let flags = DescriptorSetLayoutCreateFlags::empty();
    assert_eq!(
        (it.pool_count(&counts, false), it.pool(&counts, false, 0)),
        (0, None)
    );
    let sets = unsafe { it.allocate(&device, &layout, flags, &counts, 3) }.unwrap();
    assert_eq!(
        (it.pool_count(&counts, false), it.pool_count(&counts, true)),
        (1, 0)
    );
    assert_eq!(it.update_after_bind_capacity(), 0);
    let view = PoolView {
        number: 0,
        allocated: 3,
        available: 61,
    };
    assert_eq!(it.pool(&counts, false, 0), Some(view));
    assert_eq!(
        (it.pool(&counts, true, 0), it.pool(&counts, false, 1)),
        (None, None)
    );
    unsafe { it.free(&device, sets) };
    // One set of 64 is live.
    let (mut it, layout) = (FrameManager::new(1000), self::layout());
    let set = unsafe { it.allocate_one(&device, &layout) }.unwrap();
    assert_eq!(it.update_after_bind_capacity(), 64);
    unsafe { it.free(&device, [set]) };
}

fn view(number: u64, allocated: u32, available: u32) -> Option<PoolView> {
    Some(PoolView {
        number,
        allocated,
        available,
    })
}

/// Layouts with the same counts and flag share pools, of 64 sets each. Kept sets are allocated from them.
#[test]
fn pools_of_a_set_manager() {
    let (mut it, plain) = (SetManager::new(Device::default(), 1000), layout());
    let flags = DescriptorSetLayoutCreateFlags::empty();
    let first = unsafe { it.add_layout(layout()) }.unwrap();
    let second = unsafe { it.add_layout(layout()) }.unwrap();
    let plain = unsafe { it.add_layout(SetLayout { flags, ..plain }) }.unwrap();
    assert_eq!((it.pool_count(first), it.pool(first, 0)), (0, None));
    let sets = it.allocate_many(first, 3).unwrap();
    it.allocate_many(second, 2).unwrap();
    unsafe { it.free(&sets[1..]) }.unwrap();
    for layout in [first, second] {
        assert_eq!((it.pool_count(layout), it.pool(layout, 1)), (1, None));
        assert_eq!(it.pool(layout, 0), view(0, 5, 59));
    }
    assert_eq!((it.pool_count(plain), it.pool(plain, 0)), (0, None));
    assert!(it.allocate(plain).is_ok());
    assert_eq!(it.pool(plain, 0), view(0, 1, 63));
    assert_eq!(it.update_after_bind_capacity(), 64);
    // The two that are kept, 59 more of this pool, and three of a new one.
    it.allocate_many(first, 64).unwrap();
    assert_eq!(it.pool(second, 0), view(0, 64, 0));
    assert_eq!(it.pool(second, 1), view(1, 3, 61));
    assert_eq!(it.update_after_bind_capacity(), 128);
    it.remove_layout(first).unwrap();
    assert_eq!((it.pool_count(first), it.pool(first, 0)), (0, None));
    assert_eq!((it.pool_count(second), it.pool_count(plain)), (2, 1));
    let other: SetManager<u64, u64, u64, Device> = SetManager::new(Device::default(), 7);
    assert_eq!((other.pool_count(second), other.pool(second, 0)), (0, None));
    assert_eq!(other.update_after_bind_limit(), 7);
    unsafe { it.shutdown() };
}
