//! A driver of Vulkan: the device of `driver.c`, through the crate's device for Vulkan.

use crate::gpu::Gpu;
use crate::play::Descriptors;
use crate::vulkan::raw::VoidFunction;
use crate::vulkan::{DescriptorPool, DescriptorSet, DescriptorSetLayout, Device, DeviceHandle, Functions};
use std::ffi::{c_char, c_void};

unsafe extern "C" {
    fn driver_open(is_timed: bool) -> *mut c_void;
    fn driver_function(device: *mut c_void, name: *const c_char) -> VoidFunction;
    fn driver_create_layout(counts: *const u32, flags: u32) -> u64;
    fn driver_reset_pool(pool: u64);
    fn driver_forget();
    fn driver_account(time: &mut u64) -> u64;
}

/// The first device. The program ends with 3 if there is none.
pub fn open(is_timed: bool) -> Device {
    // SAFETY: the functions are those of the device, which is never destroyed.
    unsafe {
        let device = driver_open(is_timed);
        let functions = Functions::load(|name| driver_function(device, name.as_ptr()));
        Device::new(DeviceHandle(device), functions.unwrap())
    }
}

impl Gpu for Device {
    type Layout = DescriptorSetLayout;
    type Pool = DescriptorPool;
    type Set = DescriptorSet;

    fn create_layout(&self, of: &Descriptors) -> DescriptorSetLayout {
        // SAFETY: the counts are as many as there are kinds.
        DescriptorSetLayout(unsafe { driver_create_layout(of.counts.as_ptr(), of.flags) })
    }

    fn number(layout: DescriptorSetLayout) -> u64 {
        layout.0
    }

    fn reset(&self, pool: DescriptorPool) {
        // SAFETY: the pool is of the device, and no set of it is used.
        unsafe { driver_reset_pool(pool.0) }
    }

    fn forget() {
        // SAFETY: it has no condition.
        unsafe { driver_forget() }
    }

    fn account() -> String {
        let mut time = 0;
        // SAFETY: it has no condition.
        let calls = unsafe { driver_account(&mut time) };
        format!(", {calls} calls of {time} ns")
    }
}
