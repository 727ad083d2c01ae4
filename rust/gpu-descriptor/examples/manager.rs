//! A frame loop: three layouts, materials that outlive frames, sets of a frame, three frames in flight.

use gpu_descriptor::manager::{FreeError, LayoutHandle, RequestError, SetManager};
use gpu_descriptor::*;
use std::cell::{Cell, RefCell};
use std::collections::HashMap;

/// The max of the number of pools, so that some requests run out of memory; and the number of frames in
/// flight.
const MAX_POOLS: usize = 4;
const IN_FLIGHT: u64 = 3;

/// A device in main memory. Its pools and raw sets are numbers, each given once.
#[derive(Default)]
struct Gpu {
    /// The pools, the pool of each set, the sets that each frame in flight reads, and the last number.
    pools: RefCell<Vec<u32>>,
    pool_of: RefCell<HashMap<u32, u32>>,
    submitted: RefCell<HashMap<u64, Vec<u32>>>,
    last_name: Cell<u32>,
}

impl Gpu {
    fn name(&self) -> u32 {
        self.last_name.set(self.last_name.get() + 1);
        self.last_name.get()
    }

    /// Waits for the fence of a frame.
    fn wait(&self, frame: u64) {
        self.submitted.borrow_mut().retain(|it, _| *it > frame);
    }
}

impl DescriptorDevice<u32, u32, u32> for Gpu {
    unsafe fn create_descriptor_pool(
        &self,
        _: &DescriptorTotalCount,
        _max_sets: u32,
        _: DescriptorPoolCreateFlags,
    ) -> Result<u32, CreatePoolError> {
        if self.pools.borrow().len() == MAX_POOLS {
            return Err(CreatePoolError::OutOfDeviceMemory);
        }
        let pool = self.name();
        self.pools.borrow_mut().push(pool);
        Ok(pool)
    }

    unsafe fn destroy_descriptor_pool(&self, pool: u32) {
        self.pools.borrow_mut().retain(|it| *it != pool);
    }

    unsafe fn alloc_descriptor_sets<'a>(
        &self,
        pool: &mut u32,
        layouts: impl ExactSizeIterator<Item = &'a u32>,
        sets: &mut impl Extend<u32>,
    ) -> Result<(), DeviceAllocationError> {
        sets.extend(layouts.map(|_| {
            let set = self.name();
            self.pool_of.borrow_mut().insert(set, *pool);
            set
        }));
        Ok(())
    }

    unsafe fn dealloc_descriptor_sets(&self, pool: &mut u32, sets: impl Iterator<Item = u32>) {
        for set in sets {
            assert_eq!(self.pool_of.borrow_mut().remove(&set), Some(*pool));
            let frames = self.submitted.borrow();
            let is_read = frames.values().any(|sets| sets.contains(&set));
            assert!(!is_read, "a frame in flight reads it");
        }
    }
}

type Sets<'a> = SetManager<u32, u32, u32, &'a Gpu>;

fn finish(manager: &mut Sets, frame: u64) {
    manager.device().wait(frame);
    // SAFETY: the fence of the frame was waited for, and no material is used after its last frame.
    unsafe { manager.frame_done(frame) };
}

/// Allocates a set for the frame. When memory runs out, it waits for the frames in flight and retries once.
fn draw(manager: &mut Sets, layout: LayoutHandle) -> Result<u32, RequestError> {
    let handle = match manager.allocate_for_frame(layout) {
        Err(RequestError::Allocation(AllocationError::OutOfDeviceMemory)) => {
            finish(manager, manager.frame() - 1);
            manager.cleanup();
            manager.allocate_for_frame(layout)?
        }
        answer => answer?,
    };
    Ok(*manager.set(handle).expect("the frame is open"))
}

fn main() -> Result<(), Box<dyn std::error::Error>> {
    let gpu = Gpu::default();
    let mut manager = SetManager::new(&gpu, 1 << 16);
    let mut add = |layout, sampler, uniform_buffer, flags| {
        let counts = DescriptorTotalCount {
            sampler,
            uniform_buffer,
            ..Default::default()
        };
        // SAFETY: it is the device's, with these flags and counts, and stays.
        unsafe {
            manager.add_layout(SetLayout {
                layout,
                counts,
                flags,
            })
        }
    };
    let camera = add(1, 0, 1, DescriptorSetLayoutCreateFlags::empty())?;
    let object = add(2, 2, 1, DescriptorSetLayoutCreateFlags::empty())?;
    let material = add(3, 4, 0, DescriptorSetLayoutCreateFlags::UPDATE_AFTER_BIND)?;

    let mut materials = [manager.allocate(material)?; 5];
    for it in &mut materials[1..] {
        *it = manager.allocate(material)?;
    }
    let mut skipped = 0;
    for turn in 0..100 {
        let frame = manager.begin_frame()?;
        finish(&mut manager, frame.saturating_sub(IN_FLIGHT));
        let mut used = vec![draw(&mut manager, camera)?];
        for _ in 0..50 + 20 * (turn % 7) {
            match draw(&mut manager, object) {
                Ok(raw) => used.push(raw),
                Err(RequestError::Allocation(_)) => skipped += 1,
                Err(error) => return Err(error.into()),
            }
        }
        let drawn = used.len();
        used.extend(materials.iter().filter_map(|it| manager.set(*it)));
        assert_eq!(used.len(), drawn + 5);
        manager.end_frame();
        gpu.submitted.borrow_mut().insert(frame, used);

        // A material is replaced while frames that read it are in flight.
        let old = &mut materials[turn % 5];
        manager.free_after(&[*old], frame)?;
        assert_eq!(manager.set(*old), None);
        assert_eq!(manager.free_after(&[*old], frame), Err(FreeError::NoSet));
        *old = manager.allocate(material)?;
    }
    gpu.wait(manager.frame());
    // SAFETY: the device is done with all frames.
    unsafe { manager.shutdown() };
    assert!(gpu.pools.borrow().is_empty() && gpu.pool_of.borrow().is_empty());
    println!("{skipped} draws were skipped, and nothing is left");
    Ok(())
}
