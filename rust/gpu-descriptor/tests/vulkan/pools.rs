//! How pools are created and destroyed.

use crate::driver::{Call, Driver, EachDevice, Pool, each_device};
use gpu_descriptor::vulkan::{DescriptorPool, Device, VariableDevice};
use gpu_descriptor::*;
use std::mem::MaybeUninit;
use std::ptr::NonNull;

fn create(
    device: &impl EachDevice,
    counts: &DescriptorTotalCount,
    flags: DescriptorPoolCreateFlags,
) {
    // SAFETY: the functions are the test's.
    let pool = unsafe { device.create_descriptor_pool(counts, 70, flags) };
    assert_ne!(pool, Ok(DescriptorPool(0)));
}

fn created_by<D: EachDevice>(
    counts: &DescriptorTotalCount,
    flags: DescriptorPoolCreateFlags,
) -> Pool {
    let driver = Driver::new();
    create(&driver.over::<D>(), counts, flags);
    match driver.take_calls().as_slice() {
        [Call::Create(pool, 0)] => pool.clone(),
        calls => panic!("{calls:?}"),
    }
}

/// What a pool of these counts is created from, by both devices.
fn created(counts: &DescriptorTotalCount, flags: DescriptorPoolCreateFlags) -> Pool {
    let pool = created_by::<Device>(counts, flags);
    assert_eq!(created_by::<VariableDevice>(counts, flags), pool);
    pool
}

#[test]
fn each_type_has_its_number() {
    let counts = DescriptorTotalCount {
        sampler: 11,
        combined_image_sampler: 12,
        sampled_image: 13,
        storage_image: 14,
        uniform_texel_buffer: 15,
        storage_texel_buffer: 16,
        uniform_buffer: 17,
        storage_buffer: 18,
        uniform_buffer_dynamic: 19,
        storage_buffer_dynamic: 20,
        input_attachment: 21,
        acceleration_structure: 22,
        inline_uniform_block_bytes: 24,
        inline_uniform_block_bindings: 5,
    };
    let mut pool = created(&counts, DescriptorPoolCreateFlags::FREE_DESCRIPTOR_SET);
    pool.sizes.sort_unstable();
    // The numbers of VkDescriptorType: kinds 0 to 10, inline uniform blocks and acceleration structures.
    let types = (0..11).chain([1_000_138_000, 1_000_150_000]);
    let counts = (11..22).chain([24 + 5 * 12, 22]);
    assert_eq!(pool.sizes, types.zip(counts).collect::<Vec<_>>());
    assert_eq!((pool.max_sets, pool.blocks), (70, Some(5)));
}

#[test]
fn types_without_descriptors_and_blocks_are_left_out() {
    let counts = DescriptorTotalCount {
        storage_image: 1,
        acceleration_structure: u32::MAX,
        ..Default::default()
    };
    let pool = Pool {
        flags: 1,
        max_sets: 70,
        sizes: vec![(3, 1), (1_000_150_000, u32::MAX)],
        blocks: None,
    };
    let flags = DescriptorPoolCreateFlags::FREE_DESCRIPTOR_SET;
    assert_eq!(created(&counts, flags), pool);
    assert!(created(&Default::default(), flags).sizes.is_empty());
}

/// A driver may round the bytes of each block up to a multiple of 16: the pool holds its sets all the same.
#[test]
fn blocks_may_be_rounded_up() {
    const INLINE_UNIFORM_BLOCK: i32 = 1_000_138_000;
    for (bytes, blocks, asked) in [
        (64 * (4 + 4 + 16), 64 * 3, 64 * (16 + 16 + 28)),
        (0, 5, 0),
        (8, u32::MAX, u32::MAX),
        (u32::MAX - 24, 2, u32::MAX),
        (u32::MAX - 23, 2, u32::MAX),
    ] {
        let counts = DescriptorTotalCount {
            inline_uniform_block_bytes: bytes,
            inline_uniform_block_bindings: blocks,
            ..Default::default()
        };
        let pool = created(&counts, DescriptorPoolCreateFlags::FREE_DESCRIPTOR_SET);
        let sizes = [(INLINE_UNIFORM_BLOCK, asked)].into_iter();
        let sizes: Vec<_> = sizes.filter(|(_, bytes)| *bytes > 0).collect();
        assert_eq!((pool.sizes, pool.blocks), (sizes, Some(blocks)));
    }
}

#[test]
fn flags_have_their_numbers() {
    let (free, bind) = (
        DescriptorPoolCreateFlags::FREE_DESCRIPTOR_SET,
        DescriptorPoolCreateFlags::UPDATE_AFTER_BIND,
    );
    for (flags, number) in [
        (DescriptorPoolCreateFlags::empty(), 0),
        (free, 1),
        (bind, 2),
        (free | bind, 3),
    ] {
        assert_eq!(created(&Default::default(), flags).flags, number);
    }
}

fn callbacks<D: EachDevice>() {
    let driver = Driver::new();
    let mut callbacks = MaybeUninit::<[usize; 6]>::uninit();
    let callbacks = NonNull::from(&mut callbacks).cast();
    // SAFETY: the test's functions don't call them.
    let device = unsafe {
        driver
            .device()
            .with_allocation_callbacks(NonNull::dangling())
    };
    // SAFETY: as above. They replace the first ones.
    let device = D::over(unsafe { device.with_allocation_callbacks(callbacks) });
    create(
        &device,
        &Default::default(),
        DescriptorPoolCreateFlags::empty(),
    );
    unsafe { device.destroy_descriptor_pool(DescriptorPool(77)) };
    unsafe {
        driver
            .over::<D>()
            .destroy_descriptor_pool(DescriptorPool(78))
    };
    let place = callbacks.addr().get();
    let calls = driver.take_calls();
    assert!(matches!(&calls[0], Call::Create(_, at) if *at == place));
    assert_eq!(calls[1..], [Call::Destroy(77, place), Call::Destroy(78, 0)]);
}

#[test]
fn callbacks_are_passed_to_both_calls() {
    each_device!(callbacks);
}
