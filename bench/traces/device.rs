//! A device that only counts, so that what is timed is the allocator.

use gpu_descriptor::{
    CreatePoolError, DescriptorDevice, DescriptorPoolCreateFlags, DescriptorTotalCount, DeviceAllocationError,
};
use std::cell::Cell;

pub struct CountingDevice {
    next_pool: Cell<u64>,
    next_set: Cell<u64>,
    pools: Cell<u64>,
    max_pools: u64,
    sum: Cell<u64>,
}

impl CountingDevice {
    /// A device without pools, and with memory for so many.
    pub fn new(max_pools: u64) -> Self {
        CountingDevice {
            next_pool: Cell::new(0),
            next_set: Cell::new(0),
            pools: Cell::new(0),
            max_pools,
            sum: Cell::new(0),
        }
    }

    /// A checksum of what was released and destroyed.
    pub fn sum(&self) -> u64 {
        self.sum.get()
    }
}

impl DescriptorDevice<(), u64, u64> for CountingDevice {
    unsafe fn create_descriptor_pool(
        &self,
        _: &DescriptorTotalCount,
        _: u32,
        _: DescriptorPoolCreateFlags,
    ) -> Result<u64, CreatePoolError> {
        let pool = self.next_pool.get();
        if self.pools.get() >= self.max_pools || pool == u64::MAX {
            return Err(CreatePoolError::OutOfDeviceMemory);
        }
        self.next_pool.set(pool + 1);
        self.pools.set(self.pools.get() + 1);
        Ok(pool)
    }

    unsafe fn destroy_descriptor_pool(&self, pool: u64) {
        self.sum.set(self.sum.get() ^ pool);
        self.pools.set(self.pools.get().saturating_sub(1));
    }

    unsafe fn alloc_descriptor_sets<'a>(
        &self,
        _: &mut u64,
        layouts: impl ExactSizeIterator<Item = &'a ()>,
        sets: &mut impl Extend<u64>,
    ) -> Result<(), DeviceAllocationError> {
        let first = self.next_set.get();
        let end = first + layouts.len() as u64;
        self.next_set.set(end);
        sets.extend(first..end);
        Ok(())
    }

    unsafe fn dealloc_descriptor_sets(&self, pool: &mut u64, sets: impl Iterator<Item = u64>) {
        let mut sum = self.sum.get();
        for set in sets {
            sum = sum.wrapping_add(set ^ *pool);
        }
        self.sum.set(sum);
    }
}
