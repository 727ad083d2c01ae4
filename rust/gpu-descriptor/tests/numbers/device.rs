// A device that only numbers its pools and sets, for tests and the examples in the documentation.

use gpu_descriptor::{
    CreatePoolError, DescriptorDevice, DescriptorPoolCreateFlags, DescriptorTotalCount,
    DeviceAllocationError,
};

#[derive(Default)]
struct Device(std::cell::Cell<u64>);

impl Device {
    fn next(&self) -> u64 {
        self.0.set(self.0.get() + 1);
        self.0.get()
    }
}

impl DescriptorDevice<u64, u64, u64> for Device {
    unsafe fn create_descriptor_pool(
        &self,
        _: &DescriptorTotalCount,
        _: u32,
        _: DescriptorPoolCreateFlags,
    ) -> Result<u64, CreatePoolError> {
        Ok(self.next())
    }

    unsafe fn destroy_descriptor_pool(&self, _: u64) {}

    unsafe fn alloc_descriptor_sets<'a>(
        &self,
        _: &mut u64,
        layouts: impl ExactSizeIterator<Item = &'a u64>,
        sets: &mut impl Extend<u64>,
    ) -> Result<(), DeviceAllocationError> {
        sets.extend(layouts.map(|_| self.next()));
        Ok(())
    }

    unsafe fn dealloc_descriptor_sets(&self, _: &mut u64, sets: impl Iterator<Item = u64>) {
        sets.for_each(drop);
    }
}
