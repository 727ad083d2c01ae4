//! The sum of counts in 32 bits, as gpu-descriptor 0.3.2 returns it.
use crate::gpu_descriptor_types::DescriptorTotalCount;

impl DescriptorTotalCount {
    /// How many descriptors there are of all kinds together, or `u32::MAX` if there are more.
    ///
    /// In gpu-descriptor 0.3.2 the sum wraps, or panics with overflow checks.
    /// [`total_u64`](DescriptorTotalCount::total_u64) is exact.
    #[must_use]
    pub fn total(&self) -> u32 {
        u32::try_from(self.total_u64()).unwrap_or(u32::MAX)
    }
}
