//! What the README shows of a device over ash, which tools/quotes compares with this file.

use super::ash;

use ash::vk::{self, Handle};
use gpu_descriptor::{SetLayout, vulkan};
use std::error::Error;

fn device(
    instance: &ash::Instance,
    device: &ash::Device,
) -> Result<vulkan::Device, vulkan::MissingFunction> {
    let functions = vulkan::Functions::load(|name| unsafe {
        instance.get_device_proc_addr(device.handle(), name.as_ptr())
    })?;
    let handle = vulkan::DeviceHandle::from_raw(device.handle().as_raw());
    Ok(unsafe { vulkan::Device::new(handle, functions) })
}

fn layout(
    layout: vk::DescriptorSetLayout,
    flags: vk::DescriptorSetLayoutCreateFlags,
    bindings: &[vk::DescriptorSetLayoutBinding],
) -> Result<SetLayout<vulkan::DescriptorSetLayout>, Box<dyn Error>> {
    let counts = vulkan::count_bindings(bindings.iter().map(|binding| {
        let descriptor_type = vulkan::DescriptorType(binding.descriptor_type.as_raw());
        (descriptor_type, binding.descriptor_count)
    }))?;
    Ok(SetLayout {
        layout: vulkan::DescriptorSetLayout(layout.as_raw()),
        counts,
        flags: vulkan::layout_flags(flags.as_raw())?,
    })
}

fn handle(set: &vulkan::DescriptorSet) -> vk::DescriptorSet {
    vk::DescriptorSet::from_raw(set.0)
}

unsafe extern "system" fn never_called() {
    unreachable!()
}

#[test]
fn the_example_over_ash() -> Result<(), Box<dyn Error>> {
    let over = ash::Device(vk::Device::from_raw(1));
    assert!(device(&ash::Instance(None), &over).is_err());
    device(&ash::Instance(Some(never_called)), &over)?;
    let raw = vk::DescriptorSetLayout::from_raw(7);
    let bindings = [(6, 2), (0, 3)].map(|(of, descriptor_count)| vk::DescriptorSetLayoutBinding {
        descriptor_type: vk::DescriptorType::from_raw(of),
        descriptor_count,
    });
    let flags = vk::DescriptorSetLayoutCreateFlags::from_raw(2);
    let layout = layout(raw, flags, &bindings)?;
    assert_eq!(
        (layout.counts.uniform_buffer, layout.counts.sampler),
        (2, 3)
    );
    assert_eq!((layout.layout.0, layout.flags.bits()), (7, 2));
    assert_eq!(handle(&vulkan::DescriptorSet(5)).as_raw(), 5);
    Ok(())
}
