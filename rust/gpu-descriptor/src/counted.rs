//! A device whose pools are counted.

use crate::gpu_descriptor_types::{DescriptorDevice, Layouts, SetSink};
use crate::statistics::{PoolCounts, PoolSize};
use crate::{
    CreatePoolError, DescriptorPoolCreateFlags, DescriptorTotalCount, DeviceAllocationError,
};

/// A pool, and what it can have.
#[derive(Debug)]
pub(crate) struct CountedPool<P> {
    raw: P,
    size: PoolSize,
}

/// A device, and the counts of all pools that it has for one allocator. The device is dropped last.
pub(crate) struct Counted<D, C> {
    pub(crate) pools: C,
    pub(crate) device: D,
}

impl<L, P, S, D, C> DescriptorDevice<L, CountedPool<P>, S> for Counted<D, C>
where
    D: DescriptorDevice<L, P, S>,
    C: AsMut<PoolCounts>,
{
    fn create_descriptor_pool(
        &mut self,
        counts: &DescriptorTotalCount,
        max_sets: u32,
        flags: DescriptorPoolCreateFlags,
    ) -> Result<CountedPool<P>, CreatePoolError> {
        let raw = self
            .device
            .create_descriptor_pool(counts, max_sets, flags)?;
        let size = PoolSize {
            sets: max_sets,
            descriptors: counts.total_u64(),
        };
        self.pools.as_mut().add(size);
        Ok(CountedPool { raw, size })
    }

    fn destroy_descriptor_pool(&mut self, pool: CountedPool<P>) {
        self.device.destroy_descriptor_pool(pool.raw);
        self.pools.as_mut().remove(pool.size);
    }

    #[inline]
    fn alloc_descriptor_sets<K: SetSink<S>>(
        &mut self,
        pool: &mut CountedPool<P>,
        layouts: Layouts<'_, L>,
        sets: &mut K,
    ) -> Result<(), DeviceAllocationError> {
        self.device
            .alloc_descriptor_sets(&mut pool.raw, layouts, sets)
    }

    #[inline]
    fn dealloc_descriptor_sets<I: Iterator<Item = S>>(
        &mut self,
        pool: &mut CountedPool<P>,
        sets: &mut I,
    ) {
        self.device.dealloc_descriptor_sets(&mut pool.raw, sets);
    }
}
