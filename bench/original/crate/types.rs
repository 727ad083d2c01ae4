//! What the original's allocator uses of its crate of types, which was not looked at.
//!
//! Names, fields and signatures are those by which the allocator's own source uses them; what that
//! source leaves open, such as the order of the fields and the bits, is this project's choice.

macro_rules! kinds {
    ($($kind:ident)*) => {
        #[derive(Clone, Copy, Debug, PartialEq, Eq, Hash, Default)]
        pub struct DescriptorTotalCount {
            $(pub $kind: u32,)*
        }

        impl DescriptorTotalCount {
            pub fn total(&self) -> u32 {
                0 $(+ self.$kind)*
            }
        }
    };
}

kinds! {
    sampler combined_image_sampler sampled_image storage_image uniform_texel_buffer
    storage_texel_buffer uniform_buffer storage_buffer uniform_buffer_dynamic
    storage_buffer_dynamic input_attachment acceleration_structure
    inline_uniform_block_bytes inline_uniform_block_bindings
}

bitflags::bitflags! {
    pub struct DescriptorPoolCreateFlags: u32 {
        const FREE_DESCRIPTOR_SET = 0x1;
        const UPDATE_AFTER_BIND = 0x2;
    }
}

#[derive(Debug)]
pub enum CreatePoolError {
    OutOfDeviceMemory,
    OutOfHostMemory,
    Fragmentation,
}

#[derive(Debug)]
pub enum DeviceAllocationError {
    OutOfDeviceMemory,
    OutOfHostMemory,
    FragmentedPool,
    OutOfPoolMemory,
}

pub trait DescriptorDevice<L, P, S> {
    unsafe fn create_descriptor_pool(
        &self,
        counts: &DescriptorTotalCount,
        max_sets: u32,
        flags: DescriptorPoolCreateFlags,
    ) -> Result<P, CreatePoolError>;

    unsafe fn destroy_descriptor_pool(&self, pool: P);

    unsafe fn alloc_descriptor_sets<'a>(
        &self,
        pool: &mut P,
        layouts: impl ExactSizeIterator<Item = &'a L>,
        sets: &mut impl Extend<S>,
    ) -> Result<(), DeviceAllocationError>
    where
        L: 'a;

    unsafe fn dealloc_descriptor_sets(&self, pool: &mut P, sets: impl Iterator<Item = S>);
}
