//! A device that keeps an account of its pools, and refuses those past a limit of update-after-bind descriptors.
//! It allocates nothing: what a pool has is in its handle.

use crate::by_c::{GpuOfC, PoolInfo};
use crate::device::CountingDevice;
use crate::gpu::Gpu;
use crate::play::Descriptors;
use gpu_descriptor::{
    CreatePoolError, DescriptorDevice, DescriptorPoolCreateFlags, DescriptorTotalCount, DeviceAllocationError,
};
use std::cell::Cell;

/// How many pools there are, with room for how many sets, and how many descriptors.
pub type Account = [u64; 3];

// What all pools have, now and at most; the descriptors of update-after-bind pools, and how many they may have. The
// library for C creates pools by two functions, so it stands outside of the device.
thread_local! {
    static NOW: Cell<Account> = const { Cell::new([0; 3]) };
    static MOST: Cell<Account> = const { Cell::new([0; 3]) };
    static MARKED: Cell<u64> = const { Cell::new(0) };
    static LIMIT: Cell<u32> = const { Cell::new(0) };
}

/// A pool's handle: bit 0 says whether it is for update-after-bind, then its descriptors, then its sets.
const DESCRIPTORS_SHIFT: u32 = 1;
const SETS_SHIFT: u32 = 41;

/// 0 if the limit refuses the pool.
fn create(sets: u32, descriptors: u64, is_marked: bool) -> u64 {
    let load = MARKED.get() + if is_marked { descriptors } else { 0 };
    if is_marked && load > u64::from(LIMIT.get()) {
        return 0;
    }
    MARKED.set(load);
    let ([pools, places, all], most) = (NOW.get(), MOST.get());
    let now = [pools + 1, places + u64::from(sets), all + descriptors];
    NOW.set(now);
    MOST.set([0, 1, 2].map(|at| now[at].max(most[at])));
    u64::from(sets) << SETS_SHIFT | descriptors << DESCRIPTORS_SHIFT | u64::from(is_marked)
}

fn destroy(pool: u64) {
    let descriptors = pool >> DESCRIPTORS_SHIFT & ((1 << (SETS_SHIFT - DESCRIPTORS_SHIFT)) - 1);
    MARKED.set(MARKED.get() - if pool & 1 == 1 { descriptors } else { 0 });
    let [pools, places, all] = NOW.get();
    NOW.set([pools - 1, places - (pool >> SETS_SHIFT), all - descriptors]);
}

unsafe extern "C" fn create_pool(_user: u64, info: &PoolInfo, pool: &mut u64) -> u32 {
    let descriptors = info.counts.iter().copied().map(u64::from).sum();
    *pool = create(info.max_sets, descriptors, info.flags & 2 != 0);
    // GD_OK, or GD_OUT_OF_DEVICE_MEMORY.
    if *pool != 0 { 0 } else { 10 }
}

unsafe extern "C" fn destroy_pool(_user: u64, pool: u64) {
    destroy(pool);
}

/// What malloc has given, as `mallinfo2` of the C library has it among its figures.
#[repr(C)]
struct MallocInfo([usize; 10]);

unsafe extern "C" {
    safe fn mallinfo2() -> MallocInfo;
}

/// The device of `bench/compare --memory`. The other one numbers its sets.
pub struct Measured(CountingDevice);

impl Measured {
    /// All update-after-bind pools may have so many descriptors.
    pub fn new(limit: u32) -> Self {
        LIMIT.set(limit);
        Measured(CountingDevice::new(0))
    }

    pub fn now() -> Account {
        NOW.get()
    }

    pub fn most() -> Account {
        MOST.get()
    }

    /// What malloc has given: `uordblks` and `hblkhd`.
    pub fn bytes() -> u64 {
        let MallocInfo(it) = mallinfo2();
        (it[7] + it[4]) as u64
    }
}

impl DescriptorDevice<(), u64, u64> for Measured {
    unsafe fn create_descriptor_pool(
        &self,
        counts: &DescriptorTotalCount,
        max_sets: u32,
        flags: DescriptorPoolCreateFlags,
    ) -> Result<u64, CreatePoolError> {
        let is_marked = flags.contains(DescriptorPoolCreateFlags::UPDATE_AFTER_BIND);
        match create(max_sets, counts.total_u64(), is_marked) {
            0 => Err(CreatePoolError::OutOfDeviceMemory),
            pool => Ok(pool),
        }
    }

    unsafe fn destroy_descriptor_pool(&self, pool: u64) {
        destroy(pool);
    }

    unsafe fn alloc_descriptor_sets<'a>(
        &self,
        pool: &mut u64,
        layouts: impl ExactSizeIterator<Item = &'a ()>,
        sets: &mut impl Extend<u64>,
    ) -> Result<(), DeviceAllocationError> {
        unsafe { self.0.alloc_descriptor_sets(pool, layouts, sets) }
    }

    unsafe fn dealloc_descriptor_sets(&self, pool: &mut u64, sets: impl Iterator<Item = u64>) {
        unsafe { self.0.dealloc_descriptor_sets(pool, sets) }
    }
}

impl Gpu for Measured {
    type Layout = ();
    type Pool = u64;
    type Set = u64;

    fn limit(&self) -> u32 {
        LIMIT.get()
    }

    fn create_layout(&self, _of: &Descriptors) {}

    fn number((): ()) -> u64 {
        0
    }

    fn reset(&self, _pool: u64) {}

    fn at(frame: u32) {
        let [pools, sets, descriptors] = Self::now();
        println!("at {frame} {pools} {sets} {descriptors}");
    }
}

impl GpuOfC for Measured {
    unsafe fn create(&self) {
        unsafe { crate::by_c::c_create_with(create_pool, destroy_pool, LIMIT.get()) }
    }
}
