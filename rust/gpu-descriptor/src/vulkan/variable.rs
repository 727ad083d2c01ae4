//! A device for layouts with a variable count.

use super::device::Device;
use super::handles::{DescriptorPool, DescriptorSet, DescriptorSetLayout};
use super::scratch::Scratch;
use crate::{
    CreatePoolError, DescriptorDevice, DescriptorPoolCreateFlags, DescriptorTotalCount,
    DeviceAllocationError,
};

/// A layout, and, if one of its bindings has a variable count, how many descriptors this binding has in
/// each set.
///
/// Pass this count for the binding to [`count_bindings`](super::count_bindings) too. A layout with
/// several counts counts as several layouts for an allocator, a frame manager and a set manager: each has
/// its own pools and its own kept sets.
#[derive(Clone, Copy, Debug, Default, PartialEq, Eq, PartialOrd, Ord, Hash)]
pub struct VariableLayout {
    /// The layout.
    pub layout: DescriptorSetLayout,

    /// The count, at most the `descriptorCount` of the binding. `None` if no binding has a variable count.
    pub variable_count: Option<u32>,
}

impl From<DescriptorSetLayout> for VariableLayout {
    /// A layout in which no binding has a variable count.
    fn from(layout: DescriptorSetLayout) -> Self {
        VariableLayout {
            layout,
            variable_count: None,
        }
    }
}

/// A [`Device`] whose layouts may have a variable count, as bindless programs use them: unlike a `Device` it
/// takes [`VariableLayout`]s. It needs `descriptorBindingVariableDescriptorCount` of Vulkan 1.2 or
/// `VK_EXT_descriptor_indexing` for those that have one.
///
/// ```
/// # use gpu_descriptor::manager::{AddLayoutError, LayoutHandle, SetManager};
/// # use gpu_descriptor::vulkan::{count_bindings, DescriptorPool, DescriptorSet, DescriptorSetLayout};
/// # use gpu_descriptor::vulkan::{DescriptorType, VariableDevice, VariableLayout};
/// # use gpu_descriptor::{DescriptorSetLayoutCreateFlags, SetLayout};
/// # fn add(manager: &mut SetManager<VariableLayout, DescriptorPool, DescriptorSet, VariableDevice>,
/// #        layout: DescriptorSetLayout) -> Result<LayoutHandle, Box<dyn std::error::Error>> {
/// let textures = 1000; // of at most as many as the layout's binding has
/// let counts = count_bindings([
///     (DescriptorType::UNIFORM_BUFFER, 1),
///     (DescriptorType::SAMPLED_IMAGE, textures),
/// ])?;
/// let layout = VariableLayout { layout, variable_count: Some(textures) };
/// let flags = DescriptorSetLayoutCreateFlags::UPDATE_AFTER_BIND;
/// let known = unsafe { manager.add_layout(SetLayout { layout, counts, flags }) }?;
/// # Ok(known)
/// # }
/// ```
#[derive(Debug)]
pub struct VariableDevice(pub Device);

impl DescriptorDevice<VariableLayout, DescriptorPool, DescriptorSet> for VariableDevice {
    unsafe fn create_descriptor_pool(
        &self,
        descriptor_count: &DescriptorTotalCount,
        max_sets: u32,
        flags: DescriptorPoolCreateFlags,
    ) -> Result<DescriptorPool, CreatePoolError> {
        // SAFETY: the caller's, here and below.
        unsafe {
            self.0
                .create_descriptor_pool(descriptor_count, max_sets, flags)
        }
    }

    unsafe fn destroy_descriptor_pool(&self, pool: DescriptorPool) {
        // SAFETY: as above.
        unsafe { self.0.destroy_descriptor_pool(pool) };
    }

    unsafe fn alloc_descriptor_sets<'a>(
        &self,
        pool: &mut DescriptorPool,
        layouts: impl ExactSizeIterator<Item = &'a VariableLayout>,
        sets: &mut impl Extend<DescriptorSet>,
    ) -> Result<(), DeviceAllocationError> {
        const NO_MEMORY: DeviceAllocationError = DeviceAllocationError::OutOfHostMemory;
        let count = layouts.len();
        let mut wanted = Scratch::new(count).ok_or(NO_MEMORY)?;
        let mut variable = Scratch::new(count).ok_or(NO_MEMORY)?;
        let mut granted = Scratch::new(count).ok_or(NO_MEMORY)?;
        let (wanted, variable) = (wanted.as_mut_slice(), variable.as_mut_slice());
        let (mut filled, mut has_variable) = (0, false);
        for ((layout, place), number) in layouts.zip(&mut *wanted).zip(&mut *variable) {
            *place = layout.layout;
            *number = layout.variable_count.unwrap_or(0); // is ignored for a layout without
            has_variable |= layout.variable_count.is_some();
            filled += 1;
        }
        if filled == 0 {
            return Ok(());
        }
        let variable = if has_variable {
            &variable[..filled]
        } else {
            &[]
        };
        let granted = &mut granted.as_mut_slice()[..filled];
        // SAFETY: the caller says so of the pool and the layouts. The arrays have one length.
        unsafe { self.0.allocate(*pool, &wanted[..filled], variable, granted) }?;
        sets.extend(granted.iter().copied());
        Ok(())
    }

    unsafe fn dealloc_descriptor_sets(
        &self,
        pool: &mut DescriptorPool,
        sets: impl Iterator<Item = DescriptorSet>,
    ) {
        // SAFETY: as above.
        unsafe { self.0.dealloc_descriptor_sets(pool, sets) };
    }
}
