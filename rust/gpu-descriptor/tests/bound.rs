//! The bound on the descriptors of new pools, by hand: how many sets each pool is created for.

mod gpu;

use gpu::Gpu;
use gpu_descriptor::frames::FrameManager;
use gpu_descriptor::manager::SetManager;
use gpu_descriptor::*;

/// The pools that came since the last call, by their sets of so many images.
fn pools_of(device: &Gpu, images: u32) -> Vec<u32> {
    let created = device.created().into_iter();
    let sets = created.map(|(sets, descriptors)| {
        // One without descriptors has one.
        assert_eq!(descriptors, (u64::from(images) * u64::from(sets)).max(1));
        sets
    });
    sets.collect()
}

/// A layout with so many images, update-after-bind or not.
fn layout(images: u32, is_marked: bool) -> SetLayout<u32> {
    let mut flags = DescriptorSetLayoutCreateFlags::empty();
    flags.set(DescriptorSetLayoutCreateFlags::UPDATE_AFTER_BIND, is_marked);
    let counts = DescriptorTotalCount {
        sampled_image: images,
        ..Default::default()
    };
    SetLayout {
        layout: 0,
        counts,
        flags,
    }
}

/// The bound with which a set manager begins.
const BOUND: Option<u64> = Some(65_536);

/// The pools of these requests to an allocator. With a limit the layout is update-after-bind.
fn pools(most: Option<u64>, limit: u32, images: u32, requests: &[u32]) -> Vec<u32> {
    let (mut it, device) = (DescriptorAllocator::new(limit), Gpu::new());
    it.set_max_pool_descriptors(most);
    assert_eq!(it.max_pool_descriptors(), most);
    let layout = layout(images, limit > 0);
    let mut sets = Vec::new();
    for count in requests {
        unsafe { it.allocate_into(&device, &layout, *count, &mut sets) }.unwrap();
    }
    unsafe { it.free(&device, sets) };
    unsafe { it.cleanup(&device) };
    pools_of(&device, images)
}

/// Without the feature an allocator begins without a bound, and with it as a set manager does.
#[test]
fn an_allocator_begins_as_its_feature_says() {
    let it = DescriptorAllocator::<(), ()>::new(0);
    let first = if cfg!(feature = "bounded-pools") {
        BOUND
    } else {
        None
    };
    assert_eq!(it.max_pool_descriptors(), first);
}

/// A pool is for as many sets as the bound leaves, but at least for those that are needed.
#[test]
fn of_100_000_images() {
    assert_eq!(pools(None, 0, 100_000, &[1]), [64]);
    assert_eq!(pools(BOUND, 0, 100_000, &[1]), [1]);
    assert_eq!(pools(BOUND, 0, 100_000, &[3]), [3]);
    assert_eq!(pools(BOUND, 0, 100_000, &[1, 3, 1]), [1, 3, 1]);
    assert_eq!(pools(Some(299_999), 0, 100_000, &[1]), [2]);
    assert_eq!(pools(Some(300_000), 0, 100_000, &[1]), [3]);
}

#[test]
fn of_100_000_images_under_a_limit() {
    assert_eq!(pools(None, 500_000, 100_000, &[1]), [5]);
    assert_eq!(pools(BOUND, 500_000, 100_000, &[1]), [1]);
    assert_eq!(pools(BOUND, 500_000, 100_000, &[3, 1, 1]), [3, 1, 1]);
}

/// 65 sets of 2,000 images: of these 32 are in a pool.
#[test]
fn of_some_images() {
    assert_eq!(pools(None, 0, 2_000, &[1; 65]), [64, 64]);
    assert_eq!(pools(BOUND, 0, 2_000, &[1; 65]), [32; 3]);
}

/// A pool of small sets is below the bound. Without descriptors a set counts as one.
#[test]
fn of_few_images() {
    for images in [0, 1, 1_024] {
        assert_eq!(pools(BOUND, 0, images, &[1]), [64]);
    }
    assert_eq!(pools(BOUND, 0, 1_025, &[1]), [63]);
    assert_eq!(pools(Some(10), 0, 0, &[1]), [10]);
    assert_eq!(pools(Some(10), 0, 1, &[1]), [10]);
    assert_eq!(pools(Some(0), 0, 1, &[1, 5]), [1, 5]);
    assert_eq!(pools(Some(u64::MAX), 0, 1, &[1]), [64]);
}

/// Pools that exist stay, with all their sets, when the bound changes.
#[test]
fn pools_stay() {
    let (mut it, device) = (DescriptorAllocator::new(0), Gpu::new());
    let layout = layout(100_000, false);
    it.set_max_pool_descriptors(None);
    let mut sets = unsafe { it.allocate_for(&device, &layout, 1) }.unwrap();
    assert_eq!(pools_of(&device, 100_000), [64]);
    it.set_max_pool_descriptors(BOUND);
    assert_eq!(it.pool_count(&layout.counts, false), 1);
    unsafe { it.allocate_into(&device, &layout, 63, &mut sets) }.unwrap();
    assert_eq!(pools_of(&device, 100_000), []);
    unsafe { it.allocate_into(&device, &layout, 1, &mut sets) }.unwrap();
    assert_eq!(pools_of(&device, 100_000), [1]);
    it.set_max_pool_descriptors(Some(200_000));
    unsafe { it.allocate_into(&device, &layout, 1, &mut sets) }.unwrap();
    assert_eq!(pools_of(&device, 100_000), [2]);
    unsafe { it.free(&device, sets) };
}

#[test]
fn of_a_manager() {
    let (mut it, device) = (FrameManager::new(0), Gpu::new());
    assert_eq!(it.max_pool_descriptors(), None);
    it.set_max_pool_descriptors(BOUND);
    assert_eq!(it.max_pool_descriptors(), BOUND);
    let layout = layout(100_000, false);
    let mut sets = unsafe { it.allocate_for(&device, &layout, 1) }.unwrap();
    it.set_max_pool_descriptors(None);
    unsafe { it.allocate_into(&device, &layout, 1, &mut sets) }.unwrap();
    assert_eq!(pools_of(&device, 100_000), [1, 64]);
    unsafe { it.free(&device, sets) };
}

#[test]
fn a_set_manager_begins_with_one() {
    let device = Gpu::new();
    let mut it = SetManager::new(&device, 500_000);
    assert_eq!(it.max_pool_descriptors(), BOUND);
    let plain = unsafe { it.add_layout(layout(100_000, false)) }.unwrap();
    let marked = unsafe { it.add_layout(layout(100_000, true)) }.unwrap();
    let _ = it.allocate(plain).unwrap();
    let _ = it.allocate(marked).unwrap();
    let _ = it.allocate_many(marked, 2).unwrap();
    assert_eq!(pools_of(&device, 100_000), [1, 1, 2]);
    it.set_max_pool_descriptors(None);
    assert_eq!(it.max_pool_descriptors(), None);
    let _ = it.allocate(plain).unwrap();
    let _ = it.allocate(marked).unwrap();
    // Two more marked sets would fit.
    assert_eq!(pools_of(&device, 100_000), [64, 2]);
    unsafe { it.shutdown() };
}
