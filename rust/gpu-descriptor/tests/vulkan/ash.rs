//! A stand-in for what the README's example uses of the crate ash, in version 0.38: by these names and types.

use std::ffi::c_char;

pub mod vk {
    pub type FunctionPointer = Option<unsafe extern "system" fn()>;

    #[allow(clippy::wrong_self_convention)]
    pub trait Handle {
        fn as_raw(self) -> u64;
        fn from_raw(raw: u64) -> Self;
    }

    macro_rules! handles {
        ($($name:ident)*) => {$(
            #[derive(Clone, Copy, Debug, PartialEq, Eq)]
            pub struct $name(u64);

            impl Handle for $name {
                fn as_raw(self) -> u64 {
                    self.0
                }

                fn from_raw(raw: u64) -> Self {
                    $name(raw)
                }
            }
        )*};
    }

    handles! { Device DescriptorSet DescriptorSetLayout }

    #[derive(Clone, Copy)]
    pub struct DescriptorType(i32);

    impl DescriptorType {
        pub const fn from_raw(raw: i32) -> Self {
            DescriptorType(raw)
        }

        pub const fn as_raw(self) -> i32 {
            self.0
        }
    }

    #[derive(Clone, Copy)]
    pub struct DescriptorSetLayoutCreateFlags(u32);

    impl DescriptorSetLayoutCreateFlags {
        pub const fn from_raw(raw: u32) -> Self {
            DescriptorSetLayoutCreateFlags(raw)
        }

        pub const fn as_raw(self) -> u32 {
            self.0
        }
    }

    /// Without the fields that the example doesn't read.
    pub struct DescriptorSetLayoutBinding {
        pub descriptor_type: DescriptorType,
        pub descriptor_count: u32,
    }
}

pub struct Device(pub vk::Device);

impl Device {
    pub fn handle(&self) -> vk::Device {
        self.0
    }
}

/// The function that it returns for each name.
pub struct Instance(pub vk::FunctionPointer);

impl Instance {
    pub unsafe fn get_device_proc_addr(
        &self,
        _: vk::Device,
        _: *const c_char,
    ) -> vk::FunctionPointer {
        self.0
    }
}
