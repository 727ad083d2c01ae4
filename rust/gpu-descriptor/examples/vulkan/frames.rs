//! A frame loop with two frames in flight.

use crate::counted;
use crate::ffi::*;
use crate::gpu::Gpu;
use crate::layouts::Layout;
use gpu_descriptor::vulkan::{DescriptorPool, DescriptorSet, DescriptorType, Device};
use gpu_descriptor::{AllocationError, DescriptorAllocator};
use std::collections::VecDeque;
use std::mem::zeroed;
use std::ptr::null;

const FRAMES: u32 = 40;
const IN_FLIGHT: usize = 2;

/// The allocator for a Vulkan device, and a set of it.
pub type Allocator = DescriptorAllocator<DescriptorPool, DescriptorSet>;
pub type Set = gpu_descriptor::DescriptorSet<DescriptorSet>;

/// How many sets of each layout a frame allocates. Some fit into one pool, and some don't.
fn sets_in(frame: u32, layout: usize) -> u32 {
    match (frame as usize + layout) % 4 {
        0 => 1,
        1 => 20,
        2 => 70,
        _ => 300,
    }
}

pub fn allocate(
    allocator: &mut Allocator,
    device: &Device,
    layout: &Layout,
    count: u32,
) -> Result<Vec<Set>, AllocationError> {
    // SAFETY: the device is the one of all calls. The flags and counts are those of the layout.
    unsafe { allocator.allocate(device, &layout.handle, layout.flags, &layout.counts, count) }
}

fn create_sampler(gpu: &Gpu) -> Sampler {
    // SAFETY: zeros are valid in all fields.
    let mut info: SamplerCreateInfo = unsafe { zeroed() };
    info.s_type = SAMPLER_CREATE_INFO;
    let mut sampler = Sampler::default();
    // SAFETY: the structure is complete.
    let result = unsafe { (gpu.functions.create_sampler)(gpu.device, &info, null(), &mut sampler) };
    assert_eq!(result, SUCCESS, "a sampler");
    sampler
}

/// Writes to a set, so that the layer checks that its layout has a sampler.
fn write_sampler(gpu: &Gpu, set: DescriptorSet, sampler: Sampler) {
    let image = ImageInfo {
        sampler,
        view: 0,
        layout: 0,
    };
    let write = WriteSet {
        s_type: WRITE_DESCRIPTOR_SET,
        p_next: null(),
        set,
        binding: 0,
        element: 0,
        count: 1,
        descriptor_type: DescriptorType::SAMPLER,
        images: &image,
        buffers: null(),
        texel_buffers: null(),
    };
    // SAFETY: the structures are complete, and nothing reads the set.
    unsafe { (gpu.functions.update_sets)(gpu.device, 1, &write, 0, null()) };
}

/// Allocates the sets of a frame. A request that is refused leaves no set.
fn record(
    gpu: &Gpu,
    allocator: &mut Allocator,
    device: &Device,
    layouts: &[Layout],
    frame: u32,
    sampler: Sampler,
) -> Vec<Set> {
    let mut taken = Vec::new();
    for (place, layout) in layouts.iter().enumerate() {
        let count = sets_in(frame, place);
        let (before, refused) = (counted::left().1, counted::refused());
        match allocate(allocator, device, layout, count) {
            Ok(sets) => {
                assert_eq!(sets.len(), count as usize);
                assert_eq!(counted::left().1, before + i64::from(count));
                if layout.has_sampler {
                    sets.iter()
                        .for_each(|set| write_sampler(gpu, *set.raw(), sampler));
                }
                taken.extend(sets);
            }
            Err(error) => {
                assert!(counted::refused() > refused, "{error}");
                assert_eq!(counted::left().1, before);
            }
        }
    }
    taken
}

pub fn run(gpu: &Gpu, device: &Device, layouts: &[Layout]) {
    let mut allocator = Allocator::new(gpu.limit);
    let sampler = create_sampler(gpu);
    let mut frames = VecDeque::new();
    for frame in 0..FRAMES {
        // Here a real program waits for the fence of the oldest frame.
        if frames.len() == IN_FLIGHT {
            let sets: Vec<Set> = frames.pop_front().unwrap();
            // SAFETY: the sets are this allocator's, and nothing reads them.
            unsafe { allocator.free(device, sets) };
        }
        if frame % 8 == 7 {
            // SAFETY: it is the device of all calls.
            unsafe { allocator.cleanup(device) };
        }
        let sets = record(gpu, &mut allocator, device, layouts, frame, sampler);
        // Here it submits the frame, which binds the sets.
        frames.push_back(sets);
    }
    // Here it waits until the device is idle.
    // SAFETY: as above, and no set has the sampler any more.
    unsafe {
        allocator.free(device, frames.into_iter().flatten());
        allocator.cleanup(device);
        (gpu.functions.destroy_sampler)(gpu.device, sampler, null());
    }
    assert_eq!(counted::left(), (0, 0), "a frame loop gives all back");
}
