//! Layouts, with the counts and flags that the allocator needs of each.

use crate::ffi::*;
use crate::gpu::Gpu;
use gpu_descriptor::vulkan::{self, DescriptorSetLayout, DescriptorType};
use gpu_descriptor::{DescriptorSetLayoutCreateFlags, DescriptorTotalCount};
use std::ptr::null;

/// `VK_DESCRIPTOR_SET_LAYOUT_CREATE_UPDATE_AFTER_BIND_POOL_BIT`.
const UPDATE_AFTER_BIND_POOL: u32 = 0x2;

pub struct Layout {
    pub handle: DescriptorSetLayout,
    pub flags: DescriptorSetLayoutCreateFlags,
    pub counts: DescriptorTotalCount,

    /// Whether binding 0 is one sampler.
    pub has_sampler: bool,
}

type Bindings<'a> = &'a [(DescriptorType, u32)];

/// Bindings of common kinds; below, bindings of all other kinds, none, and those that a device may lack.
const PLAIN: Bindings = &[
    (DescriptorType::SAMPLER, 1),
    (DescriptorType::UNIFORM_BUFFER, 2),
    (DescriptorType::UNIFORM_BUFFER_DYNAMIC, 1),
    (DescriptorType::COMBINED_IMAGE_SAMPLER, 3),
];
const OTHERS: Bindings = &[
    (DescriptorType::STORAGE_IMAGE, 1),
    (DescriptorType::UNIFORM_TEXEL_BUFFER, 3),
    (DescriptorType::STORAGE_TEXEL_BUFFER, 4),
    (DescriptorType::STORAGE_BUFFER, 2),
    (DescriptorType::STORAGE_BUFFER_DYNAMIC, 2),
    (DescriptorType::INPUT_ATTACHMENT, 1),
];
const EMPTY: Bindings = &[];
const UPDATE_AFTER_BIND: Bindings = &[
    (DescriptorType::SAMPLER, 1),
    (DescriptorType::SAMPLED_IMAGE, 4),
];
const BLOCKS: Bindings = &[
    (DescriptorType::SAMPLER, 1),
    (DescriptorType::INLINE_UNIFORM_BLOCK, 16),
    (DescriptorType::INLINE_UNIFORM_BLOCK, 8),
];

fn create_one(gpu: &Gpu, flags: u32, described: Bindings) -> Layout {
    let bindings: Vec<LayoutBinding> = (0..)
        .zip(described)
        .map(
            |(binding, &(descriptor_type, descriptor_count))| LayoutBinding {
                binding,
                descriptor_type,
                descriptor_count,
                stages: SHADER_STAGE_FRAGMENT,
                immutable_samplers: null(),
            },
        )
        .collect();
    let info = LayoutCreateInfo {
        s_type: DESCRIPTOR_SET_LAYOUT_CREATE_INFO,
        p_next: null(),
        flags,
        binding_count: bindings.len() as u32,
        bindings: bindings.as_ptr(),
    };
    let mut handle = DescriptorSetLayout::default();
    // SAFETY: the structures are complete, and live through the call.
    let result = unsafe { (gpu.functions.create_layout)(gpu.device, &info, null(), &mut handle) };
    assert_eq!(result, SUCCESS, "a layout");
    Layout {
        handle,
        flags: vulkan::layout_flags(flags).unwrap(),
        counts: vulkan::count_bindings(described.iter().copied()).unwrap(),
        has_sampler: described.first() == Some(&(DescriptorType::SAMPLER, 1)),
    }
}

/// The layouts that the device supports. With a limit of 0 it supports no update-after-bind layout.
pub fn create(gpu: &Gpu) -> Vec<Layout> {
    let mut layouts: Vec<_> = [PLAIN, OTHERS, EMPTY]
        .map(|bindings| create_one(gpu, 0, bindings))
        .into();
    if gpu.limit > 0 {
        layouts.push(create_one(gpu, UPDATE_AFTER_BIND_POOL, UPDATE_AFTER_BIND));
    }
    if gpu.has_inline_uniform_blocks {
        layouts.push(create_one(gpu, 0, BLOCKS));
    }
    layouts
}

pub fn destroy(gpu: &Gpu, layouts: &[Layout]) {
    for layout in layouts {
        // SAFETY: no set of it is left.
        unsafe { (gpu.functions.destroy_layout)(gpu.device, layout.handle, null()) };
    }
}
