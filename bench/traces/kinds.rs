// The counts of the kinds as an array, and by their names. This file is included over each `DescriptorTotalCount`.

macro_rules! kinds {
    ($($kind:ident)*) => {
        #[allow(dead_code)]
        pub fn to_array(counts: &DescriptorTotalCount) -> [u32; 14] {
            [$(counts.$kind),*]
        }

        pub fn total_count(&[$($kind),*]: &[u32; 14]) -> DescriptorTotalCount {
            DescriptorTotalCount { $($kind),* }
        }
    };
}

kinds! {
    sampler combined_image_sampler sampled_image storage_image uniform_texel_buffer
    storage_texel_buffer uniform_buffer storage_buffer uniform_buffer_dynamic
    storage_buffer_dynamic input_attachment acceleration_structure
    inline_uniform_block_bytes inline_uniform_block_bindings
}
