//! What a set manager takes of memory for a held set.

mod refuses;

use gpu_descriptor::manager::{LayoutHandle, SetManager};
use gpu_descriptor::*;
use refuses::{bytes, with_refused};

include!("numbers/device.rs");

/// A power of two: the lists have doubled so far, and are full.
const SETS: usize = 1 << 16;

/// A set manager with a layout.
fn manager() -> (SetManager<u64, u64, u64, Device>, LayoutHandle) {
    let counts = DescriptorTotalCount {
        sampler: 1,
        ..Default::default()
    };
    let layout = SetLayout {
        layout: 0,
        counts,
        flags: DescriptorSetLayoutCreateFlags::empty(),
    };
    let mut it = SetManager::new(Device::default(), 0);
    // SAFETY: the device knows no layouts.
    let layout = unsafe { it.add_layout(layout) }.unwrap();
    (it, layout)
}

/// The memory for held sets, for each set, without that of a set manager with a layout.
fn bytes_of_a_set(is_one_request: bool) -> usize {
    let (mut it, layout) = manager();
    let before = bytes();
    if is_one_request {
        drop(it.allocate_many(layout, SETS as u32).unwrap());
    } else {
        for _ in 0..SETS {
            let _held = it.allocate(layout).unwrap();
        }
    }
    let taken = bytes() - before;
    // SAFETY: the device isn't in use.
    unsafe { it.shutdown() };
    taken / SETS
}

/// README says 40 to 80 bytes. One large request takes no more.
#[test]
fn memory_of_a_held_set() {
    assert_eq!((bytes_of_a_set(false), bytes_of_a_set(true)), (40, 40));
}

/// Whichever of its allocations fails, a large request leaves memory for the table's slots at most.
#[test]
fn memory_after_a_refused_request() {
    for refused in 0.. {
        let (mut it, layout) = manager();
        let before = bytes();
        let (result, _) = with_refused(refused, || it.allocate_many(layout, SETS as u32));
        if result.is_ok() {
            assert!(refused > 3, "handles, slots, new sets, a pool");
            // SAFETY: the device isn't in use.
            unsafe { it.shutdown() };
            return;
        }
        assert!((bytes() - before) / SETS <= 40);
        // SAFETY: as above.
        unsafe { it.shutdown() };
    }
}
