//! What bindings and flags of a layout become.

use gpu_descriptor::vulkan::{CountError, DescriptorType, count_bindings, layout_flags};
use gpu_descriptor::*;

/// Counts bindings, whose types are numbers.
fn count(bindings: &[(i32, u32)]) -> Result<DescriptorTotalCount, CountError> {
    count_bindings(bindings.iter().map(|it| (DescriptorType(it.0), it.1)))
}

#[test]
fn each_type_is_counted_at_its_place() {
    let bindings: Vec<(i32, u32)> = (0..11)
        .chain([1_000_150_000, 1_000_138_000])
        .zip(31..)
        .collect();
    let counts = DescriptorTotalCount {
        sampler: 31,
        combined_image_sampler: 32,
        sampled_image: 33,
        storage_image: 34,
        uniform_texel_buffer: 35,
        storage_texel_buffer: 36,
        uniform_buffer: 37,
        storage_buffer: 38,
        uniform_buffer_dynamic: 39,
        storage_buffer_dynamic: 40,
        input_attachment: 41,
        acceleration_structure: 42,
        inline_uniform_block_bytes: 43,
        inline_uniform_block_bindings: 1,
    };
    assert_eq!(count(&bindings), Ok(counts));
}

#[test]
fn bindings_of_one_type_add_up() {
    let counts = DescriptorTotalCount {
        sampler: 5,
        inline_uniform_block_bytes: 88,
        inline_uniform_block_bindings: 2,
        ..Default::default()
    };
    let bindings = [(0, 2), (1_000_138_000, 64), (0, 3), (1_000_138_000, 24)];
    assert_eq!(count(&bindings), Ok(counts));
    assert_eq!(count(&[]), Ok(DescriptorTotalCount::default()));
}

#[test]
fn a_binding_without_descriptors_counts_nothing() {
    let bindings = [
        (6, 0),
        (1_000_138_000, 0),
        (1_000_351_000, 0),
        (1_000_440_000, 0),
    ];
    assert_eq!(count(&bindings), Ok(DescriptorTotalCount::default()));
}

#[test]
fn what_cannot_be_counted_is_named() {
    let mutable = count(&[(0, 1), (1_000_351_000, 1)]).unwrap_err();
    assert_eq!(mutable, CountError::MutableType);
    assert_eq!(
        mutable.to_string(),
        "A binding has a mutable descriptor type"
    );
    // Nothing, VK_DESCRIPTOR_TYPE_ACCELERATION_STRUCTURE_NV, _SAMPLE_WEIGHT_IMAGE_QCOM, nothing.
    for number in [11, 1_000_165_000, 1_000_440_000, -1] {
        let error = CountError::UnknownType(DescriptorType(number));
        assert_eq!(count(&[(number, 1)]), Err(error));
        let text = format!("Descriptors of type {number} are not counted");
        assert_eq!(error.to_string(), text);
    }
    for number in (0..11).chain([1_000_138_000, 1_000_150_000]) {
        let error = CountError::Overflow(DescriptorType(number));
        assert_eq!(count(&[(number, u32::MAX), (number, 1)]), Err(error));
        let text = format!("The descriptors of type {number} pass 32 bits");
        assert_eq!(error.to_string(), text);
        assert!(count(&[(number, u32::MAX - 1), (number, 1)]).is_ok());
    }
}

#[test]
fn flags_of_a_layout() {
    let bind = DescriptorSetLayoutCreateFlags::UPDATE_AFTER_BIND;
    assert_eq!(layout_flags(0), Ok(DescriptorSetLayoutCreateFlags::empty()));
    assert_eq!(layout_flags(2), Ok(bind));
    // Push descriptors, the host alone, descriptor buffers.
    for flag in [0x1, 0x4, 0x10, 0x8000_0000] {
        let error = layout_flags(flag).unwrap_err();
        assert_eq!(error.unknown, flag);
        assert_eq!(layout_flags(flag | 2), Err(error));
        let text = format!("Layouts with the flags {flag:#x} are not served");
        assert_eq!(error.to_string(), text);
    }
}
