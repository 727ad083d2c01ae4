//! What each `VkResult` becomes.

use crate::driver::{Call, Driver, EachDevice, each_device, layouts};
use gpu_descriptor::manager::{RequestError, SetManager};
use gpu_descriptor::vulkan::{DescriptorPool, DescriptorSet, DescriptorSetLayout, Device};
use gpu_descriptor::*;
use std::sync::Arc;

/// Results by their numbers, and what they become: of a new pool, of sets, and of a request whose
/// new pool refuses sets so.
type Row = (i32, CreatePoolError, DeviceAllocationError, AllocationError);

const HOST: (CreatePoolError, DeviceAllocationError, AllocationError) = (
    CreatePoolError::OutOfHostMemory,
    DeviceAllocationError::OutOfHostMemory,
    AllocationError::OutOfHostMemory,
);

const fn host(result: i32) -> Row {
    (result, HOST.0, HOST.1, HOST.2)
}

const ROWS: [Row; 15] = [
    host(-1), // VK_ERROR_OUT_OF_HOST_MEMORY
    (
        -2, // VK_ERROR_OUT_OF_DEVICE_MEMORY
        CreatePoolError::OutOfDeviceMemory,
        DeviceAllocationError::OutOfDeviceMemory,
        AllocationError::OutOfDeviceMemory,
    ),
    (
        -12, // VK_ERROR_FRAGMENTED_POOL
        CreatePoolError::Fragmentation,
        DeviceAllocationError::FragmentedPool,
        AllocationError::Fragmentation,
    ),
    (
        -1_000_161_000, // VK_ERROR_FRAGMENTATION
        CreatePoolError::Fragmentation,
        DeviceAllocationError::FragmentedPool,
        AllocationError::Fragmentation,
    ),
    (
        -1_000_069_000, // VK_ERROR_OUT_OF_POOL_MEMORY
        CreatePoolError::Fragmentation,
        DeviceAllocationError::OutOfPoolMemory,
        AllocationError::Fragmentation,
    ),
    host(-3),             // VK_ERROR_INITIALIZATION_FAILED
    host(-4),             // VK_ERROR_DEVICE_LOST
    host(-8),             // VK_ERROR_FEATURE_NOT_PRESENT
    host(-13),            // VK_ERROR_UNKNOWN
    host(-1_000_011_001), // VK_ERROR_VALIDATION_FAILED
    host(-1_000_072_003), // VK_ERROR_INVALID_EXTERNAL_HANDLE
    host(1),              // VK_NOT_READY
    host(5),              // VK_INCOMPLETE
    host(i32::MIN),
    host(i32::MAX),
];

/// Whether a device has to be lost after a result.
fn is_lost(result: i32) -> bool {
    result == -4
}

fn of_a_pool<D: EachDevice>() {
    for (result, error, ..) in ROWS {
        let driver = Driver::new();
        driver.create_result.set(result);
        let flags = DescriptorPoolCreateFlags::empty();
        let device: D = driver.over();
        let answer = unsafe { device.create_descriptor_pool(&Default::default(), 1, flags) };
        assert_eq!(answer, Err(error), "{result}");
        assert_eq!(device.device().is_lost(), is_lost(result), "{result}");
    }
}

#[test]
fn of_a_new_pool() {
    each_device!(of_a_pool);
}

fn of_new_sets<D: EachDevice>() {
    for (result, _, error, _) in ROWS {
        for count in [1, 100] {
            let driver = Driver::new();
            driver.allocate_result.set(result);
            let (wanted, mut sets) = (layouts::<D::Layout>(count), Vec::<DescriptorSet>::new());
            let device: D = driver.over();
            let answer = unsafe {
                let (pool, layouts) = (&mut DescriptorPool(5), wanted.iter());
                device.alloc_descriptor_sets(pool, layouts, &mut sets)
            };
            assert_eq!((answer, sets), (Err(error), vec![]), "{result}");
            assert_eq!(device.device().is_lost(), is_lost(result), "{result}");
        }
    }
}

#[test]
fn of_sets() {
    each_device!(of_new_sets);
}

fn layout() -> SetLayout<DescriptorSetLayout> {
    let counts = DescriptorTotalCount {
        sampler: 1,
        ..Default::default()
    };
    let flags = DescriptorSetLayoutCreateFlags::empty();
    SetLayout {
        layout: DescriptorSetLayout(1 << 33),
        counts,
        flags,
    }
}

fn request(driver: &Driver) -> AllocationError {
    let (mut allocator, device) = (DescriptorAllocator::new(0), driver.device());
    // SAFETY: it is the device of all calls.
    let answer = unsafe { allocator.allocate_for(&device, &layout(), 3) };
    answer.unwrap_err()
}

/// Each type over a device that is lost sees it, and frees what it has; the device stays lost. It is shared, so
/// that the program sees it too.
#[test]
fn a_lost_device() {
    let driver = Driver::new();
    let shared = Arc::new(driver.device());
    let mut manager: vulkan::SetManager<Arc<Device>> = SetManager::new(Arc::clone(&shared), 0);
    let layout = unsafe { manager.add_layout(layout()) }.unwrap();
    let held = manager.allocate(layout).unwrap();
    assert!(!manager.device().is_lost());

    driver.allocate_result.set(-4);
    driver.create_result.set(-4);
    let refused = Err(RequestError::Allocation(AllocationError::OutOfHostMemory));
    assert_eq!(manager.allocate(layout), refused);
    assert!(manager.device().is_lost());

    driver.allocate_result.set(0);
    driver.create_result.set(0);
    // It stays lost, whatever later calls return.
    let last = manager.allocate(layout).unwrap();
    assert!(manager.device().is_lost());
    unsafe { manager.free(&[held, last]) }.unwrap();
    // SAFETY: no set is in use.
    unsafe { manager.shutdown() };
    assert!(shared.is_lost());
    let calls = driver.take_calls();
    let is_destroyed = |it: &Call| matches!(it, Call::Destroy(..));
    assert!(calls.last().is_some_and(is_destroyed));
}

#[test]
fn of_a_request() {
    for (result, of_pool, _, of_sets) in ROWS {
        let driver = Driver::new();
        driver.create_result.set(result);
        assert_eq!(request(&driver), AllocationError::from(of_pool), "{result}");
        assert_eq!(driver.take_calls().len(), 1);

        driver.create_result.set(0);
        driver.allocate_result.set(result);
        assert_eq!(request(&driver), of_sets, "{result}");
        let calls = driver.take_calls();
        assert!(
            matches!(
                calls.as_slice(),
                [Call::Create(..), Call::Allocate(..), Call::Destroy(..)]
            ),
            "the pool that refused is destroyed"
        );
    }
}
