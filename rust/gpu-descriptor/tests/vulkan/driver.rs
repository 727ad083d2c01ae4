//! Four functions that write down with what they are called, and return what they are told. Their `unsafe`
//! rests on calls that are made as Vulkan asks, with handles of `Driver::device`.

use gpu_descriptor::DescriptorDevice;
use gpu_descriptor::vulkan::raw::{
    AllocationCallbacks, DescriptorPoolCreateInfo, DescriptorPoolInlineUniformBlockCreateInfo,
    DescriptorSetAllocateInfo, DescriptorSetVariableDescriptorCountAllocateInfo,
};
use gpu_descriptor::vulkan::{
    DescriptorPool, DescriptorSet, DescriptorSetLayout, Device, DeviceHandle, Functions,
    VariableDevice, VariableLayout,
};
use std::cell::{Cell, RefCell};
use std::fmt::Debug;
use std::ptr;
use std::slice;

/// A call. Handles are numbers.
#[derive(Clone, Debug, PartialEq, Eq)]
pub enum Call {
    Create(Pool, usize),
    Destroy(u64, usize),
    Allocate(u64, Vec<u64>),
    Free(u64, Vec<u64>),
}

/// What a pool is created from.
#[derive(Clone, Debug, Default, PartialEq, Eq)]
pub struct Pool {
    pub flags: u32,
    pub max_sets: u32,

    /// The number and the descriptor count of each type.
    pub sizes: Vec<(i32, u32)>,

    /// `maxInlineUniformBlockBindings`, where the structure is in the chain.
    pub blocks: Option<u32>,
}

/// The state, to which the handle of the device points.
pub struct Driver {
    pub calls: RefCell<Vec<Call>>,

    /// The variable counts of the last request, if it had some.
    pub variable_counts: RefCell<Option<Vec<u32>>>,

    /// What the next calls return.
    pub create_result: Cell<i32>,
    pub allocate_result: Cell<i32>,
    last_handle: Cell<u64>,
}

impl Driver {
    pub fn new() -> Self {
        Driver {
            calls: RefCell::default(),
            variable_counts: RefCell::default(),
            create_result: Cell::new(0),
            allocate_result: Cell::new(0),
            last_handle: Cell::new(0x5000_0000_0000),
        }
    }

    /// A device over this state, which has to outlive it.
    pub fn device(&self) -> Device {
        let handle = DeviceHandle(ptr::from_ref(self).cast_mut().cast());
        // SAFETY: the functions below are called with a pointer to a state.
        unsafe { Device::new(handle, FUNCTIONS) }
    }

    /// One of both devices over this state.
    pub fn over<D: EachDevice>(&self) -> D {
        D::over(self.device())
    }

    pub fn take_calls(&self) -> Vec<Call> {
        self.calls.take()
    }

    fn next_handle(&self) -> u64 {
        self.last_handle.set(self.last_handle.get() + 16);
        self.last_handle.get()
    }

    fn note(&self, call: Call) {
        self.calls.borrow_mut().push(call);
    }
}

/// A device and a variable device. A test of one is a test of both.
pub trait EachDevice:
    DescriptorDevice<<Self as EachDevice>::Layout, DescriptorPool, DescriptorSet>
{
    type Layout: From<DescriptorSetLayout> + Debug;

    fn over(device: Device) -> Self;
    fn device(&self) -> &Device;
}

impl EachDevice for Device {
    type Layout = DescriptorSetLayout;

    fn over(device: Device) -> Self {
        device
    }

    fn device(&self) -> &Device {
        self
    }
}

impl EachDevice for VariableDevice {
    type Layout = VariableLayout;

    fn over(device: Device) -> Self {
        VariableDevice(device)
    }

    fn device(&self) -> &Device {
        &self.0
    }
}

/// Runs a generic test over both.
macro_rules! each_device {
    ($test:ident) => {
        $test::<gpu_descriptor::vulkan::Device>();
        $test::<gpu_descriptor::vulkan::VariableDevice>();
    };
}
pub(crate) use each_device;

pub const FUNCTIONS: Functions = Functions {
    create_descriptor_pool,
    destroy_descriptor_pool,
    allocate_descriptor_sets,
    free_descriptor_sets,
};

/// # Safety
///
/// The handle is one of `Driver::device`.
unsafe fn state<'a>(device: DeviceHandle) -> &'a Driver {
    unsafe { &*device.0.cast_const().cast() }
}

/// # Safety
///
/// The structure and what it points to are valid.
unsafe fn pool_of(info: &DescriptorPoolCreateInfo) -> Pool {
    assert_eq!(info.s_type, 33);
    let sizes = unsafe { slice::from_raw_parts(info.p_pool_sizes, info.pool_size_count as usize) };
    let blocks: *const DescriptorPoolInlineUniformBlockCreateInfo = info.p_next.cast();
    Pool {
        flags: info.flags,
        max_sets: info.max_sets,
        sizes: sizes
            .iter()
            .map(|size| (size.descriptor_type.0, size.descriptor_count))
            .collect(),
        blocks: unsafe { blocks.as_ref() }.map(|blocks| {
            assert_eq!((blocks.s_type, blocks.p_next), (1_000_138_003, ptr::null()));
            blocks.max_inline_uniform_block_bindings
        }),
    }
}

pub unsafe extern "system" fn create_descriptor_pool(
    device: DeviceHandle,
    info: *const DescriptorPoolCreateInfo,
    callbacks: *const AllocationCallbacks,
    pool: *mut DescriptorPool,
) -> i32 {
    let driver = unsafe { state(device) };
    driver.note(Call::Create(unsafe { pool_of(&*info) }, callbacks.addr()));
    if driver.create_result.get() == 0 {
        unsafe { *pool = DescriptorPool(driver.next_handle()) };
    }
    driver.create_result.get()
}

pub unsafe extern "system" fn destroy_descriptor_pool(
    device: DeviceHandle,
    pool: DescriptorPool,
    callbacks: *const AllocationCallbacks,
) {
    unsafe { state(device) }.note(Call::Destroy(pool.0, callbacks.addr()));
}

pub unsafe extern "system" fn allocate_descriptor_sets(
    device: DeviceHandle,
    info: *const DescriptorSetAllocateInfo,
    sets: *mut DescriptorSet,
) -> i32 {
    let (driver, info) = unsafe { (state(device), &*info) };
    assert_eq!(info.s_type, 34);
    let count = info.descriptor_set_count as usize;
    let variable: *const DescriptorSetVariableDescriptorCountAllocateInfo = info.p_next.cast();
    *driver.variable_counts.borrow_mut() = unsafe { variable.as_ref() }.map(|it| {
        assert_eq!((it.s_type, it.p_next), (1_000_161_003, ptr::null()));
        assert_eq!(it.descriptor_set_count as usize, count);
        unsafe { slice::from_raw_parts(it.p_descriptor_counts, count) }.to_vec()
    });
    let layouts = unsafe { slice::from_raw_parts(info.p_set_layouts, count) };
    let sets = unsafe { slice::from_raw_parts_mut(sets, count) };
    let layouts = layouts.iter().map(|layout| layout.0).collect();
    driver.note(Call::Allocate(info.descriptor_pool.0, layouts));
    // Vulkan writes null handles where it refuses.
    let is_granted = driver.allocate_result.get() == 0;
    sets.fill_with(|| DescriptorSet(if is_granted { driver.next_handle() } else { 0 }));
    driver.allocate_result.get()
}

pub unsafe extern "system" fn free_descriptor_sets(
    device: DeviceHandle,
    pool: DescriptorPool,
    count: u32,
    sets: *const DescriptorSet,
) -> i32 {
    let sets = unsafe { slice::from_raw_parts(sets, count as usize) };
    let sets = sets.iter().map(|set| set.0).collect();
    unsafe { state(device) }.note(Call::Free(pool.0, sets));
    0
}

/// Layouts, no two the same, without variable counts.
pub fn layouts<L: From<DescriptorSetLayout>>(count: usize) -> Vec<L> {
    (1..=count as u64)
        .map(|it| DescriptorSetLayout(it << 33).into())
        .collect()
}
