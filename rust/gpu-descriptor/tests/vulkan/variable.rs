//! Layouts with a variable count: each set has its count, and no other layout has one.

use crate::driver::{Call, Driver};
use gpu_descriptor::manager::{LayoutHandle, SetManager};
use gpu_descriptor::vulkan::{
    DescriptorPool, DescriptorSet, DescriptorSetLayout, DescriptorType, VariableDevice,
    VariableLayout, count_bindings,
};
use gpu_descriptor::*;

const LAYOUT: DescriptorSetLayout = DescriptorSetLayout(7 << 33);

type Owner = SetManager<VariableLayout, DescriptorPool, DescriptorSet, VariableDevice>;

/// A layout with a uniform buffer and so many images.
fn add(manager: &mut Owner, images: u32, variable_count: Option<u32>) -> LayoutHandle {
    let counts = count_bindings([
        (DescriptorType::UNIFORM_BUFFER, 1),
        (DescriptorType::SAMPLED_IMAGE, images),
    ]);
    let layout = SetLayout {
        layout: VariableLayout {
            layout: LAYOUT,
            variable_count,
        },
        counts: counts.unwrap(),
        flags: DescriptorSetLayoutCreateFlags::UPDATE_AFTER_BIND,
    };
    // SAFETY: the functions are the test's.
    unsafe { manager.add_layout(layout) }.unwrap()
}

#[test]
fn sets_of_each_count() {
    let driver = Driver::new();
    let mut manager = SetManager::new(VariableDevice(driver.device()), 500_000);
    let small = add(&mut manager, 100, Some(100));
    let large = add(&mut manager, 60_000, Some(60_000));
    let fixed = add(&mut manager, 100, None);
    let sets = manager.allocate_many(small, 40).unwrap();
    assert_eq!(driver.variable_counts.take(), Some(vec![100; 40]));
    let [Call::Create(pool, _), Call::Allocate(_, layouts)] = &driver.take_calls()[..] else {
        panic!("a pool and a request");
    };
    assert_eq!(pool.sizes, [(2, 100 * pool.max_sets), (6, pool.max_sets)]);
    assert_eq!((layouts, pool.flags), (&vec![LAYOUT.0; 40], 3));
    let other = manager.allocate(fixed).unwrap();
    assert_eq!(driver.variable_counts.take(), None);
    // Sets are kept for their count alone.
    // SAFETY: the device isn't in use.
    unsafe { manager.free(&sets) }.unwrap();
    driver.take_calls();
    let two = manager.allocate_many(large, 2).unwrap();
    assert_eq!(driver.variable_counts.take(), Some(vec![60_000; 2]));
    assert_eq!(driver.take_calls().len(), 2);
    let again = manager.allocate_many(small, 40).unwrap();
    assert!(driver.take_calls().is_empty() && manager.set(again[0]).is_some());
    for held in [&[other][..], &two, &again] {
        // SAFETY: as above.
        unsafe { manager.free(held) }.unwrap();
    }
    driver.take_calls();
    let pools = manager.statistics().pools;
    // SAFETY: as above.
    unsafe { manager.shutdown() };
    let calls = driver.take_calls();
    let destroyed = calls.iter().filter(|it| matches!(it, Call::Destroy(..)));
    assert_eq!(destroyed.count() as u64, pools);
}

/// A request of several layouts, which only a caller of the device makes.
#[test]
fn counts_of_a_request() {
    let driver = Driver::new();
    let device = VariableDevice(driver.device());
    let (mut pool, mut sets) = (DescriptorPool(5), Vec::new());
    for count in [1, 32, 34, 500] {
        let wanted: Vec<_> = (0..count)
            .map(|it| VariableLayout {
                layout: LAYOUT,
                variable_count: (it % 3 > 0).then_some(it),
            })
            .collect();
        // SAFETY: the functions are the test's.
        unsafe { device.alloc_descriptor_sets(&mut pool, wanted.iter(), &mut sets) }.unwrap();
        let counts = (0..count).map(|it| if it % 3 > 0 { it } else { 0 });
        let counts = (count > 1).then(|| counts.collect::<Vec<_>>());
        assert_eq!(driver.variable_counts.take(), counts);
        assert_eq!(
            driver.take_calls(),
            [Call::Allocate(5, vec![LAYOUT.0; count as usize])]
        );
    }
    assert_eq!(sets.len(), 567);
    let none: [VariableLayout; 0] = [];
    // SAFETY: as above.
    unsafe { device.alloc_descriptor_sets(&mut pool, none.iter(), &mut sets) }.unwrap();
    assert!(driver.take_calls().is_empty() && !device.0.is_lost());
    assert_eq!(VariableLayout::from(LAYOUT).variable_count, None);
}
