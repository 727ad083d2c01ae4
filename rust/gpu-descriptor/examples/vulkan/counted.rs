//! A device whose functions count pools and sets, and call the driver's functions or refuse.

use crate::gpu::Gpu;
use crate::memory;
use gpu_descriptor::vulkan::raw::{
    AllocationCallbacks, DescriptorPoolCreateInfo, DescriptorSetAllocateInfo,
};
use gpu_descriptor::vulkan::{DescriptorPool, DescriptorSet, Device, DeviceHandle, Functions};
use std::sync::OnceLock;
use std::sync::atomic::{AtomicI64, AtomicUsize, Ordering};

static DRIVER: OnceLock<Functions> = OnceLock::new();
static POOLS: AtomicI64 = AtomicI64::new(0);
static SETS: AtomicI64 = AtomicI64::new(0);
static CREATED: AtomicI64 = AtomicI64::new(0);
static ALLOCATED: AtomicI64 = AtomicI64::new(0);

/// The number of calls for pools and sets while some are refused, and one in how many is.
static CALLS: AtomicUsize = AtomicUsize::new(0);
static REFUSED: AtomicUsize = AtomicUsize::new(0);
static ONE_IN: AtomicUsize = AtomicUsize::new(0);

/// Each error of the two calls, and `VK_ERROR_UNKNOWN`.
const ERRORS: [i32; 6] = [-1, -2, -12, -1_000_161_000, -1_000_069_000, -13];

/// The device.
pub fn device(gpu: &Gpu) -> Device {
    let get = gpu.of_instance.get_device_proc_addr;
    // SAFETY: the device lives.
    let driver = Functions::load(|name| unsafe { get(gpu.device, name.as_ptr()) });
    DRIVER.set(driver.unwrap()).unwrap();
    let functions = Functions {
        create_descriptor_pool,
        destroy_descriptor_pool,
        allocate_descriptor_sets,
        free_descriptor_sets,
    };
    // SAFETY: the functions call those that were loaded for this device, which lives until the end. The
    // callbacks are a static.
    unsafe { Device::new(gpu.device, functions).with_allocation_callbacks(memory::callbacks()) }
}

/// From now on refuses one in `calls` calls for a pool or sets; none if it is 0.
pub fn refuse_one_in(calls: usize) {
    ONE_IN.store(calls, Ordering::Relaxed);
}

/// The pools and the sets that are left.
pub fn left() -> (i64, i64) {
    (POOLS.load(Ordering::Relaxed), SETS.load(Ordering::Relaxed))
}

/// How many calls for pools and sets were refused so far.
pub fn refused() -> usize {
    REFUSED.load(Ordering::Relaxed)
}

pub fn summary() -> String {
    let created = CREATED.load(Ordering::Relaxed);
    let allocated = ALLOCATED.load(Ordering::Relaxed);
    let refused = refused();
    format!("{created} pools created, {allocated} sets allocated, {refused} calls refused")
}

fn driver() -> &'static Functions {
    DRIVER.get().unwrap()
}

/// Makes a call, or refuses it. The driver itself must not refuse: it has memory, and a pool that is asked
/// has room.
fn make(call: impl FnOnce() -> i32, counters: [&AtomicI64; 2], count: i64) -> i32 {
    let one_in = ONE_IN.load(Ordering::Relaxed);
    if one_in > 0 && (CALLS.fetch_add(1, Ordering::Relaxed) + 1).is_multiple_of(one_in) {
        return ERRORS[REFUSED.fetch_add(1, Ordering::Relaxed) % ERRORS.len()];
    }
    let result = call();
    assert_eq!(result, 0, "the driver refuses");
    for counter in counters {
        counter.fetch_add(count, Ordering::Relaxed);
    }
    result
}

unsafe extern "system" fn create_descriptor_pool(
    device: DeviceHandle,
    info: *const DescriptorPoolCreateInfo,
    callbacks: *const AllocationCallbacks,
    pool: *mut DescriptorPool,
) -> i32 {
    // SAFETY: here and below, the arguments are those of the driver's function.
    let call = || unsafe { (driver().create_descriptor_pool)(device, info, callbacks, pool) };
    make(call, [&POOLS, &CREATED], 1)
}

unsafe extern "system" fn destroy_descriptor_pool(
    device: DeviceHandle,
    pool: DescriptorPool,
    callbacks: *const AllocationCallbacks,
) {
    POOLS.fetch_sub(1, Ordering::Relaxed);
    unsafe { (driver().destroy_descriptor_pool)(device, pool, callbacks) };
}

unsafe extern "system" fn allocate_descriptor_sets(
    device: DeviceHandle,
    info: *const DescriptorSetAllocateInfo,
    sets: *mut DescriptorSet,
) -> i32 {
    let count = i64::from(unsafe { (*info).descriptor_set_count });
    let call = || unsafe { (driver().allocate_descriptor_sets)(device, info, sets) };
    make(call, [&SETS, &ALLOCATED], count)
}

unsafe extern "system" fn free_descriptor_sets(
    device: DeviceHandle,
    pool: DescriptorPool,
    count: u32,
    sets: *const DescriptorSet,
) -> i32 {
    SETS.fetch_sub(i64::from(count), Ordering::Relaxed);
    unsafe { (driver().free_descriptor_sets)(device, pool, count, sets) }
}
