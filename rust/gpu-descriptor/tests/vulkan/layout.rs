//! Handles and structures are laid out as in C, and the functions come by their names.

use crate::driver::{self, Driver};
use gpu_descriptor::vulkan::raw::{self, VoidFunction};
use gpu_descriptor::vulkan::*;
use std::ffi::CStr;
use std::mem::{offset_of, size_of, transmute};

#[test]
fn handles_have_64_bits_and_a_device_is_a_pointer() {
    assert_eq!(size_of::<DescriptorSetLayout>(), 8);
    assert_eq!(size_of::<DescriptorPool>(), 8);
    assert_eq!(size_of::<DescriptorSet>(), 8);
    assert_eq!(size_of::<DeviceHandle>(), size_of::<*const ()>());
    let raw = 0x7_0000 << (usize::BITS / 2); // above 2^32 where pointers have 64 bits
    assert_eq!(DeviceHandle::from_raw(raw as u64).0.addr(), raw);
    assert_eq!(DescriptorSet::default(), DescriptorSet(0));
}

#[cfg(target_pointer_width = "64")]
#[test]
fn structures_have_the_offsets_of_c() {
    use raw::*;
    assert_eq!(size_of::<DescriptorPoolSize>(), 8);
    assert_eq!(offset_of!(DescriptorPoolSize, descriptor_count), 4);

    assert_eq!(size_of::<DescriptorPoolCreateInfo>(), 40);
    assert_eq!(offset_of!(DescriptorPoolCreateInfo, s_type), 0);
    assert_eq!(offset_of!(DescriptorPoolCreateInfo, p_next), 8);
    assert_eq!(offset_of!(DescriptorPoolCreateInfo, flags), 16);
    assert_eq!(offset_of!(DescriptorPoolCreateInfo, max_sets), 20);
    assert_eq!(offset_of!(DescriptorPoolCreateInfo, pool_size_count), 24);
    assert_eq!(offset_of!(DescriptorPoolCreateInfo, p_pool_sizes), 32);

    type Blocks = DescriptorPoolInlineUniformBlockCreateInfo;
    assert_eq!(size_of::<Blocks>(), 24);
    assert_eq!(offset_of!(Blocks, p_next), 8);
    assert_eq!(offset_of!(Blocks, max_inline_uniform_block_bindings), 16);

    assert_eq!(size_of::<DescriptorSetAllocateInfo>(), 40);
    assert_eq!(offset_of!(DescriptorSetAllocateInfo, p_next), 8);
    assert_eq!(offset_of!(DescriptorSetAllocateInfo, descriptor_pool), 16);
    assert_eq!(
        offset_of!(DescriptorSetAllocateInfo, descriptor_set_count),
        24
    );
    assert_eq!(offset_of!(DescriptorSetAllocateInfo, p_set_layouts), 32);

    type Counts = raw::DescriptorSetVariableDescriptorCountAllocateInfo;
    assert_eq!(size_of::<Counts>(), 32);
    assert_eq!(offset_of!(Counts, p_next), 8);
    assert_eq!(offset_of!(Counts, descriptor_set_count), 16);
    assert_eq!(offset_of!(Counts, p_descriptor_counts), 24);
}

/// A loader of the test's functions.
fn function_of(name: &CStr) -> VoidFunction {
    let function: *const () = match name.to_str().unwrap() {
        "vkCreateDescriptorPool" => driver::create_descriptor_pool as *const (),
        "vkDestroyDescriptorPool" => driver::destroy_descriptor_pool as *const (),
        "vkAllocateDescriptorSets" => driver::allocate_descriptor_sets as *const (),
        "vkFreeDescriptorSets" => driver::free_descriptor_sets as *const (),
        _ => return None,
    };
    // SAFETY: it is a pointer to a function.
    Some(unsafe { transmute::<*const (), unsafe extern "system" fn()>(function) })
}

#[test]
fn a_loader_is_asked_for_the_functions_by_their_names() {
    let loaded = Functions::load(function_of).unwrap();
    let given = driver::FUNCTIONS;
    assert_eq!(
        loaded.create_descriptor_pool as usize,
        given.create_descriptor_pool as usize
    );
    assert_eq!(
        loaded.destroy_descriptor_pool as usize,
        given.destroy_descriptor_pool as usize
    );
    assert_eq!(
        loaded.allocate_descriptor_sets as usize,
        given.allocate_descriptor_sets as usize
    );
    assert_eq!(
        loaded.free_descriptor_sets as usize,
        given.free_descriptor_sets as usize
    );
}

#[test]
fn a_function_that_the_loader_lacks_is_named() {
    for name in [
        c"vkCreateDescriptorPool",
        c"vkDestroyDescriptorPool",
        c"vkAllocateDescriptorSets",
        c"vkFreeDescriptorSets",
    ] {
        let lacks = |asked: &CStr| function_of(asked).filter(|_| asked != name);
        let error = Functions::load(lacks).unwrap_err();
        assert_eq!(error.name, name);
        let text = format!("The loader has no function {name:?}");
        assert_eq!(error.to_string(), text);
    }
}

#[test]
fn a_device_goes_to_other_threads() {
    fn is_send_and_sync<T: Send + Sync>(_: &T) {}
    let driver = Driver::new();
    let device = driver.device();
    is_send_and_sync(&device);
    is_send_and_sync(&device.handle());
}
