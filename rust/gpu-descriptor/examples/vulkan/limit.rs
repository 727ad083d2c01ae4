//! The limit on the descriptors of all update-after-bind pools.

use crate::counted;
use crate::frames::{Allocator, allocate};
use crate::gpu::Gpu;
use crate::layouts::Layout;
use gpu_descriptor::vulkan::Device;
use gpu_descriptor::{AllocationError, DescriptorSetLayoutCreateFlags};

/// A request for more sets than the driver's limit allows is refused without a call.
fn pass_the_drivers_limit(gpu: &Gpu, device: &Device, layout: &Layout) {
    let mut allocator = Allocator::new(gpu.limit);
    let before = counted::summary();
    let count = gpu.limit / layout.counts.total() + 1;
    let answer = allocate(&mut allocator, device, layout, count);
    assert_eq!(answer.unwrap_err(), AllocationError::Fragmentation);
    assert_eq!(counted::summary(), before);
}

/// Under a limit for a hundred sets all of them are granted, but not one more; after some are freed, others
/// are.
fn reach_a_small_limit(device: &Device, layout: &Layout) {
    let mut allocator = Allocator::new(100 * layout.counts.total());
    let mut sets = allocate(&mut allocator, device, layout, 60).unwrap();
    sets.extend(allocate(&mut allocator, device, layout, 40).unwrap());
    let refused = allocate(&mut allocator, device, layout, 1);
    assert_eq!(refused.unwrap_err(), AllocationError::Fragmentation);
    // SAFETY: here and below, the sets are this allocator's, and nothing reads them.
    unsafe { allocator.free(device, sets.drain(..10)) };
    sets.extend(allocate(&mut allocator, device, layout, 10).unwrap());
    assert_eq!(counted::left().1, 100);
    unsafe {
        allocator.free(device, sets);
        allocator.cleanup(device);
    }
}

pub fn run(gpu: &Gpu, device: &Device, layouts: &[Layout]) {
    let flag = DescriptorSetLayoutCreateFlags::UPDATE_AFTER_BIND;
    let marked = layouts.iter().find(|layout| layout.flags.contains(flag));
    let Some(layout) = marked else {
        println!("no limit: there is no update-after-bind layout");
        return;
    };
    println!("limit of update-after-bind descriptors: {}", gpu.limit);
    pass_the_drivers_limit(gpu, device, layout);
    reach_a_small_limit(device, layout);
}
