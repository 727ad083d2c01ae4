//! What the players allocate from: the device that only counts, and others of its interface.

use crate::device::CountingDevice;
use crate::play::Descriptors;
use gpu_descriptor::DescriptorDevice;
use std::fmt::Debug;

/// A device, with what no allocator asks of it.
pub trait Gpu: DescriptorDevice<<Self as Gpu>::Layout, <Self as Gpu>::Pool, <Self as Gpu>::Set> {
    type Layout: Copy + Debug;
    type Pool: Copy;
    type Set: Copy + Debug;

    /// How many descriptors all its pools for update-after-bind may have.
    fn limit(&self) -> u32 {
        u32::MAX
    }

    fn create_layout(&self, of: &Descriptors) -> Self::Layout;

    /// A layout as C has it; 0 if all are the same.
    fn number(layout: Self::Layout) -> u64;

    /// Frees all sets of a pool.
    fn reset(&self, pool: Self::Pool);

    /// A call was played in this frame.
    fn at(_frame: u32) {}

    /// From now on it is measured.
    fn forget() {}

    /// What was measured.
    fn account() -> String {
        String::new()
    }
}

impl Gpu for CountingDevice {
    type Layout = ();
    type Pool = u64;
    type Set = u64;

    fn create_layout(&self, _of: &Descriptors) {}

    fn number((): ()) -> u64 {
        0
    }

    fn reset(&self, _pool: u64) {}
}
