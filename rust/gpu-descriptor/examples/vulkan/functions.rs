//! Vulkan's functions, as the loader returns them by their names.

use crate::ffi::*;
use gpu_descriptor::vulkan::DeviceHandle;
use std::ffi::CStr;
use std::mem::transmute;

/// A table of functions, and how a loader is asked for it. `None` if the loader lacks one.
macro_rules! table {
    ($table:ident { $($field:ident: $type:ty = $name:literal,)* }) => {
        pub struct $table {
            $(pub $field: $type,)*
        }

        impl $table {
            fn load(get: impl Fn(&CStr) -> Option<Function>) -> Option<Self> {
                Some($table {
                    // SAFETY: the loader's function of this name has the type that it has here.
                    $($field: unsafe { transmute::<Function, $type>(get($name)?) },)*
                })
            }
        }
    };
}

table!(LoaderFunctions {
    get_instance_proc_addr: GetInstanceProcAddr = c"vkGetInstanceProcAddr",
    create_instance: CreateInstance = c"vkCreateInstance",
});

table!(InstanceFunctions {
    destroy_instance: DestroyInstance = c"vkDestroyInstance",
    enumerate_physical_devices: EnumeratePhysicalDevices = c"vkEnumeratePhysicalDevices",
    get_properties: GetProperties = c"vkGetPhysicalDeviceProperties",
    create_messenger: CreateMessenger = c"vkCreateDebugUtilsMessengerEXT",
    destroy_messenger: DestroyMessenger = c"vkDestroyDebugUtilsMessengerEXT",
    create_device: CreateDevice = c"vkCreateDevice",
    get_device_proc_addr: GetDeviceProcAddr = c"vkGetDeviceProcAddr",
});

// What Vulkan 1.0 lacks.
table!(NewerFunctions {
    get_properties_2: GetProperties2 = c"vkGetPhysicalDeviceProperties2",
    get_features_2: GetFeatures2 = c"vkGetPhysicalDeviceFeatures2",
});

table!(DeviceFunctions {
    destroy_device: DestroyDevice = c"vkDestroyDevice",
    create_layout: CreateLayout = c"vkCreateDescriptorSetLayout",
    destroy_layout: DestroyLayout = c"vkDestroyDescriptorSetLayout",
    create_sampler: CreateSampler = c"vkCreateSampler",
    destroy_sampler: DestroySampler = c"vkDestroySampler",
    update_sets: UpdateSets = c"vkUpdateDescriptorSets",
});

impl LoaderFunctions {
    /// Opens the loader, which stays open.
    pub fn open() -> Option<Self> {
        // SAFETY: anyone may open the loader's library.
        let library = unsafe { dlopen(c"libvulkan.so.1".as_ptr(), NOW) };
        if library.is_null() {
            return None;
        }
        Self::load(|name| {
            // SAFETY: the library is open; null is no function, and every other symbol of these names is
            // one.
            unsafe { transmute(dlsym(library, name.as_ptr())) }
        })
    }

    /// The functions of an instance.
    pub fn of_instance(&self, instance: Instance) -> Option<InstanceFunctions> {
        // SAFETY: the instance lives.
        InstanceFunctions::load(|name| unsafe {
            (self.get_instance_proc_addr)(instance, name.as_ptr())
        })
    }

    /// The functions of an instance that Vulkan 1.0 lacks.
    pub fn of_newer_instance(&self, instance: Instance) -> Option<NewerFunctions> {
        // SAFETY: as above.
        NewerFunctions::load(|name| unsafe {
            (self.get_instance_proc_addr)(instance, name.as_ptr())
        })
    }
}

impl InstanceFunctions {
    /// The functions of a device.
    pub fn of_device(&self, device: DeviceHandle) -> Option<DeviceFunctions> {
        // SAFETY: the device lives.
        DeviceFunctions::load(|name| unsafe { (self.get_device_proc_addr)(device, name.as_ptr()) })
    }
}
