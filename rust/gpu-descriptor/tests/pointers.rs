//! Devices behind a pointer: each call reaches the device.

mod gpu;

use gpu::{Gpu, Set, layout};
use gpu_descriptor::DescriptorDevice;
use gpu_descriptor::manager::SetManager;
use std::ops::Deref;
use std::rc::Rc;
use std::sync::Arc;

/// Over a device that no other set manager uses.
fn run(device: impl DescriptorDevice<u32, usize, Set> + Deref<Target = Gpu>) {
    let mut it = SetManager::new(device, 10_000);
    it.set_max_kept(0);
    // SAFETY: the device knows no layouts.
    let layout = unsafe { it.add_layout(layout(2)) }.unwrap();
    let sets = it.allocate_many(layout, 3).unwrap();
    assert_eq!((it.device().pools(), it.device().live_sets()), (1, 3));
    assert!(it.device().is_live(*it.set(sets[2]).unwrap()));
    // SAFETY: no frame is in flight, here and below.
    unsafe { it.free(&sets[..1]) }.unwrap();
    assert_eq!((it.device().pools(), it.device().live_sets()), (1, 2));
    let device = unsafe { it.shutdown() };
    assert!(device.is_empty());
}

#[test]
#[allow(clippy::arc_with_non_send_sync)] // the test has one thread
fn a_device_behind_each_pointer() {
    run(&Gpu::new());
    run(Box::new(Gpu::new()));
    run(Rc::new(Gpu::new()));
    run(Arc::new(Gpu::new()));
}

#[test]
fn set_managers_share_a_device() {
    let device = Rc::new(Gpu::new());
    let mut managers = [0, 1].map(|_| SetManager::new(Rc::clone(&device), 10_000));
    for it in &mut managers {
        // SAFETY: the device knows no layouts.
        let layout = unsafe { it.add_layout(layout(0)) }.unwrap();
        it.allocate_many(layout, 3).unwrap();
    }
    assert_eq!((device.pools(), device.live_sets()), (2, 6));
    for it in managers {
        // SAFETY: no frame is in flight.
        unsafe { it.shutdown() };
    }
    assert!(device.is_empty());
}
