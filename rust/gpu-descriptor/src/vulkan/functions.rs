//! The four functions, and how a loader is asked for them.

use super::raw::{
    AllocateDescriptorSets, CreateDescriptorPool, DestroyDescriptorPool, FreeDescriptorSets,
    VoidFunction,
};
use core::error::Error;
use core::ffi::CStr;
use core::fmt;
use core::mem::transmute;

/// The four functions of Vulkan that a [`Device`](super::Device) calls. Get them by [`Functions::load`].
///
/// A program that has the functions with another binding's types may transmute them instead: the arguments
/// of Vulkan's functions have the same representation in each binding.
#[derive(Clone, Copy, Debug)]
pub struct Functions {
    /// `vkCreateDescriptorPool`.
    pub create_descriptor_pool: CreateDescriptorPool,
    /// `vkDestroyDescriptorPool`.
    pub destroy_descriptor_pool: DestroyDescriptorPool,
    /// `vkAllocateDescriptorSets`.
    pub allocate_descriptor_sets: AllocateDescriptorSets,
    /// `vkFreeDescriptorSets`.
    pub free_descriptor_sets: FreeDescriptorSets,
}

/// The function that `get` returns for this name, as a function of the type that the place has.
macro_rules! function {
    ($get:ident, $name:literal => $type:ty) => {{
        let function = $get($name).ok_or(MissingFunction { name: $name })?;
        // SAFETY: both are types of pointers to functions. That this one has the type of its name is
        // a condition of `Device::new`, and nobody calls it before.
        unsafe { transmute::<unsafe extern "system" fn(), $type>(function) }
    }};
}

impl Functions {
    /// Asks a loader for the functions by their names. It returns them as `vkGetDeviceProcAddr` or
    /// `vkGetInstanceProcAddr` does: `|name| unsafe { get_device_proc_addr(device, name.as_ptr()) }`.
    ///
    /// # Errors
    ///
    /// The loader lacks one of the functions.
    pub fn load(mut get: impl FnMut(&CStr) -> VoidFunction) -> Result<Self, MissingFunction> {
        Ok(Functions {
            create_descriptor_pool: function!(get, c"vkCreateDescriptorPool" => CreateDescriptorPool),
            destroy_descriptor_pool: function!(get, c"vkDestroyDescriptorPool" => DestroyDescriptorPool),
            allocate_descriptor_sets: function!(get, c"vkAllocateDescriptorSets" => AllocateDescriptorSets),
            free_descriptor_sets: function!(get, c"vkFreeDescriptorSets" => FreeDescriptorSets),
        })
    }
}

/// A loader lacks the function of this name.
#[derive(Clone, Copy, Debug, PartialEq, Eq)]
#[non_exhaustive]
pub struct MissingFunction {
    /// The name of the function.
    pub name: &'static CStr,
}

impl fmt::Display for MissingFunction {
    fn fmt(&self, f: &mut fmt::Formatter<'_>) -> fmt::Result {
        write!(f, "The loader has no function {:?}", self.name)
    }
}

impl Error for MissingFunction {}
