//! The first set manager of a process has the number 0. The test is alone here, so that it makes this one.

mod gpu;

use gpu::{Gpu, Set, layout};
use gpu_descriptor::manager::{FreeError, SetHandle, SetManager};

#[test]
fn none_names_no_set_of_the_first_set_manager() {
    let gpu = Gpu::new();
    let mut it: SetManager<u32, usize, Set, &Gpu> = SetManager::new(&gpu, 10_000);
    // SAFETY: the device knows no layouts.
    let layout = unsafe { it.add_layout(layout(0)) }.unwrap();
    let first = it.allocate(layout).unwrap();
    assert!(format!("{first:?}").contains("manager: 0, "));
    assert_ne!(first, SetHandle::NONE);
    assert_eq!(it.set(SetHandle::NONE), None);
    // SAFETY: the device isn't in use.
    let answer = unsafe { it.free(&[SetHandle::NONE]) };
    assert_eq!(answer, Err(FreeError::NoSet));
    let answer = it.free_after(&[SetHandle::NONE], 0);
    assert_eq!(answer, Err(FreeError::NoSet));
    assert!(it.set(first).is_some());
    // SAFETY: as above.
    unsafe { it.shutdown() };
}
