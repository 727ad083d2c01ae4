//! What a layout was created from, in the form that the allocator takes.

use super::handles::DescriptorType;
use super::raw::DescriptorPoolSize;
use crate::{DescriptorSetLayoutCreateFlags, DescriptorTotalCount};
use core::error::Error;
use core::fmt;

/// The types that are counted.
pub(super) const TYPES: [DescriptorType; 13] = [
    DescriptorType::SAMPLER,
    DescriptorType::COMBINED_IMAGE_SAMPLER,
    DescriptorType::SAMPLED_IMAGE,
    DescriptorType::STORAGE_IMAGE,
    DescriptorType::UNIFORM_TEXEL_BUFFER,
    DescriptorType::STORAGE_TEXEL_BUFFER,
    DescriptorType::UNIFORM_BUFFER,
    DescriptorType::STORAGE_BUFFER,
    DescriptorType::UNIFORM_BUFFER_DYNAMIC,
    DescriptorType::STORAGE_BUFFER_DYNAMIC,
    DescriptorType::INPUT_ATTACHMENT,
    DescriptorType::ACCELERATION_STRUCTURE,
    DescriptorType::INLINE_UNIFORM_BLOCK,
];

/// The count of a type, which is in bytes for inline uniform blocks.
fn count_of(counts: &mut DescriptorTotalCount, of: DescriptorType) -> Option<&mut u32> {
    Some(match of {
        DescriptorType::SAMPLER => &mut counts.sampler,
        DescriptorType::COMBINED_IMAGE_SAMPLER => &mut counts.combined_image_sampler,
        DescriptorType::SAMPLED_IMAGE => &mut counts.sampled_image,
        DescriptorType::STORAGE_IMAGE => &mut counts.storage_image,
        DescriptorType::UNIFORM_TEXEL_BUFFER => &mut counts.uniform_texel_buffer,
        DescriptorType::STORAGE_TEXEL_BUFFER => &mut counts.storage_texel_buffer,
        DescriptorType::UNIFORM_BUFFER => &mut counts.uniform_buffer,
        DescriptorType::STORAGE_BUFFER => &mut counts.storage_buffer,
        DescriptorType::UNIFORM_BUFFER_DYNAMIC => &mut counts.uniform_buffer_dynamic,
        DescriptorType::STORAGE_BUFFER_DYNAMIC => &mut counts.storage_buffer_dynamic,
        DescriptorType::INPUT_ATTACHMENT => &mut counts.input_attachment,
        DescriptorType::ACCELERATION_STRUCTURE => &mut counts.acceleration_structure,
        DescriptorType::INLINE_UNIFORM_BLOCK => &mut counts.inline_uniform_block_bytes,
        _ => return None,
    })
}

/// Bytes that a pool gets for each inline uniform block, in addition to the block's own.
const BLOCK_PADDING: u32 = 12;

/// The bytes of inline uniform blocks that a driver is asked for. A block's bytes are a multiple of 4, but
/// a driver may round those of a block, or of a set, up to a multiple of 16 without having allowed for it:
/// SwiftShader's pool then has fewer sets than it was created for.
fn padded_bytes(counts: &DescriptorTotalCount) -> u32 {
    let padding = counts
        .inline_uniform_block_bindings
        .saturating_mul(BLOCK_PADDING);
    match counts.inline_uniform_block_bytes {
        0 => 0,
        bytes => bytes.saturating_add(padding),
    }
}

/// The sizes of a pool: one for each type that has descriptors.
pub(super) fn pool_sizes(
    mut counts: DescriptorTotalCount,
) -> impl Iterator<Item = DescriptorPoolSize> {
    counts.inline_uniform_block_bytes = padded_bytes(&counts);
    TYPES.into_iter().filter_map(move |descriptor_type| {
        let descriptor_count = *count_of(&mut counts, descriptor_type)?;
        (descriptor_count > 0).then_some(DescriptorPoolSize {
            descriptor_type,
            descriptor_count,
        })
    })
}

/// Counts the descriptors of one set of a layout, from the type and the descriptor count of each of its
/// bindings, as its `VkDescriptorSetLayoutBinding`s have them.
///
/// * The descriptor count of an inline uniform block is its size in bytes. Each such binding also counts
///   as one block.
/// * Immutable samplers count as other samplers do. A combined image sampler with a YCbCr conversion may
///   need several descriptors: then pass its count times `combinedImageSamplerDescriptorCount`.
/// * Dynamic buffers have types of their own. An update-after-bind layout has none.
/// * A binding without descriptors is reserved, and counts nothing, whatever its type is.
/// * A binding of a variable count has that of a [`VariableLayout`](super::VariableLayout), for a
///   [`VariableDevice`](super::VariableDevice): a [`Device`](super::Device) allocates no such sets.
///
/// ```
/// use gpu_descriptor::vulkan::{DescriptorType, count_bindings};
///
/// let counts = count_bindings([
///     (DescriptorType::UNIFORM_BUFFER, 1),
///     (DescriptorType::COMBINED_IMAGE_SAMPLER, 4),
///     (DescriptorType::INLINE_UNIFORM_BLOCK, 64),
/// ])?;
/// assert_eq!(counts.combined_image_sampler, 4);
/// assert_eq!(counts.inline_uniform_block_bytes, 64);
/// assert_eq!(counts.inline_uniform_block_bindings, 1);
/// # Ok::<(), gpu_descriptor::vulkan::CountError>(())
/// ```
///
/// # Errors
///
/// A binding has a type that isn't counted, or a count exceeds 32 bits.
pub fn count_bindings(
    bindings: impl IntoIterator<Item = (DescriptorType, u32)>,
) -> Result<DescriptorTotalCount, CountError> {
    let mut counts = DescriptorTotalCount::default();
    for (descriptor_type, count) in bindings {
        if count > 0 {
            add_binding(&mut counts, descriptor_type, count)?;
        }
    }
    Ok(counts)
}

fn add_binding(
    counts: &mut DescriptorTotalCount,
    descriptor_type: DescriptorType,
    count: u32,
) -> Result<(), CountError> {
    let sum = count_of(counts, descriptor_type).ok_or(match descriptor_type {
        DescriptorType::MUTABLE => CountError::MutableType,
        other => CountError::UnknownType(other),
    })?;
    *sum = sum
        .checked_add(count)
        .ok_or(CountError::Overflow(descriptor_type))?;
    // There are at most as many blocks as bytes, so this sum doesn't overflow.
    if descriptor_type == DescriptorType::INLINE_UNIFORM_BLOCK {
        counts.inline_uniform_block_bindings += 1;
    }
    Ok(())
}

/// Why the bindings of a layout can't be counted.
#[derive(Clone, Copy, Debug, PartialEq, Eq)]
#[non_exhaustive]
pub enum CountError {
    /// A binding has a mutable type, which [no pool of this crate](super#variable-counts-and-mutable-types)
    /// has.
    MutableType,

    /// A binding has a type that isn't counted, such as those of vendors' extensions.
    UnknownType(DescriptorType),

    /// The descriptors of this type exceed 32 bits.
    Overflow(DescriptorType),
}

impl fmt::Display for CountError {
    fn fmt(&self, f: &mut fmt::Formatter<'_>) -> fmt::Result {
        match self {
            CountError::MutableType => f.write_str("A binding has a mutable descriptor type"),
            CountError::UnknownType(it) => {
                write!(f, "Descriptors of type {} are not counted", it.0)
            }
            CountError::Overflow(it) => {
                write!(f, "The descriptors of type {} pass 32 bits", it.0)
            }
        }
    }
}

impl Error for CountError {}

/// The allocator's flags for a layout that was created with these `VkDescriptorSetLayoutCreateFlags`.
///
/// # Errors
///
/// There is a flag other than `VK_DESCRIPTOR_SET_LAYOUT_CREATE_UPDATE_AFTER_BIND_POOL_BIT`. Layouts for
/// push descriptors, for descriptor buffers or for the host alone have no sets in a pool of this crate.
pub fn layout_flags(flags: u32) -> Result<DescriptorSetLayoutCreateFlags, LayoutFlagsError> {
    const UPDATE_AFTER_BIND_POOL: u32 = 0x2;
    match flags {
        0 => Ok(DescriptorSetLayoutCreateFlags::empty()),
        UPDATE_AFTER_BIND_POOL => Ok(DescriptorSetLayoutCreateFlags::UPDATE_AFTER_BIND),
        _ => Err(LayoutFlagsError {
            unknown: flags & !UPDATE_AFTER_BIND_POOL,
        }),
    }
}

/// A layout has flags that the allocator doesn't serve.
#[derive(Clone, Copy, Debug, PartialEq, Eq)]
#[non_exhaustive]
pub struct LayoutFlagsError {
    /// Those flags.
    pub unknown: u32,
}

impl fmt::Display for LayoutFlagsError {
    fn fmt(&self, f: &mut fmt::Formatter<'_>) -> fmt::Result {
        write!(
            f,
            "Layouts with the flags {:#x} are not served",
            self.unknown
        )
    }
}

impl Error for LayoutFlagsError {}
