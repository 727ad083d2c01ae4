//! Which error each `VkResult` of the two calls that can fail becomes.

use crate::{CreatePoolError, DeviceAllocationError};

const SUCCESS: i32 = 0;
const ERROR_OUT_OF_DEVICE_MEMORY: i32 = -2;
const ERROR_DEVICE_LOST: i32 = -4;
const ERROR_FRAGMENTED_POOL: i32 = -12;
const ERROR_OUT_OF_POOL_MEMORY: i32 = -1_000_069_000;
const ERROR_FRAGMENTATION: i32 = -1_000_161_000;

/// Whether the result says that the device is lost, which none of the errors below says.
pub(super) fn is_lost(result: i32) -> bool {
    result == ERROR_DEVICE_LOST
}

/// The result of `vkCreateDescriptorPool`. A result that isn't listed here ends the request.
pub(super) fn of_create(result: i32) -> Result<(), CreatePoolError> {
    match result {
        SUCCESS => Ok(()),
        ERROR_OUT_OF_DEVICE_MEMORY => Err(CreatePoolError::OutOfDeviceMemory),
        ERROR_FRAGMENTATION | ERROR_FRAGMENTED_POOL | ERROR_OUT_OF_POOL_MEMORY => {
            Err(CreatePoolError::Fragmentation)
        }
        _ => Err(CreatePoolError::OutOfHostMemory),
    }
}

/// The result of `vkAllocateDescriptorSets`. A result that isn't listed here ends the request.
pub(super) fn of_allocate(result: i32) -> Result<(), DeviceAllocationError> {
    match result {
        SUCCESS => Ok(()),
        ERROR_OUT_OF_DEVICE_MEMORY => Err(DeviceAllocationError::OutOfDeviceMemory),
        ERROR_FRAGMENTATION | ERROR_FRAGMENTED_POOL => Err(DeviceAllocationError::FragmentedPool),
        ERROR_OUT_OF_POOL_MEMORY => Err(DeviceAllocationError::OutOfPoolMemory),
        _ => Err(DeviceAllocationError::OutOfHostMemory),
    }
}
