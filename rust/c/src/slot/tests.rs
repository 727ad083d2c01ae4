//! A call that panics, one from within another, and one that waits until its allocator is gone.

use super::{GdAllocator, create, destroy, enter};
use crate::abi::{GdDevice, GdPoolInfo, GdStatus};
use crate::allocator::Allocator;
use crate::device::{Host, HostDevice, HostLayout};
use core::ffi::c_void;
use core::mem::MaybeUninit;

/// Calls the allocator that `user` points to, if it isn't null, from within its call.
unsafe extern "C" fn create_pool(user: *mut c_void, _: *const GdPoolInfo, _: *mut u64) -> GdStatus {
    let user = user.cast::<(GdAllocator, [GdStatus; 2])>();
    // SAFETY: `create` made it.
    if let Some((allocator, statuses)) = unsafe { user.as_mut() } {
        // SAFETY: as above.
        *statuses = unsafe {
            [
                enter(*allocator, |_| unreachable!()),
                destroy(*allocator, |_| unreachable!()),
            ]
        };
    }
    GdStatus::FRAGMENTATION
}

unsafe extern "C" fn destroy_pool(_: *mut c_void, _: u64) {}

unsafe extern "C" fn allocate_sets(
    _: *mut c_void,
    _: u64,
    _: u32,
    _: *const u64,
    _: *mut u64,
) -> GdStatus {
    GdStatus::FRAGMENTATION
}

unsafe extern "C" fn free_sets(_: *mut c_void, _: u64, _: u32, _: *const u64) {}

#[cfg(feature = "std")]
fn created() -> GdAllocator {
    created_with(true, core::ptr::null_mut())
}

fn created_with(waits: bool, user: *mut c_void) -> GdAllocator {
    let device = GdDevice {
        user,
        create_pool: Some(create_pool),
        destroy_pool: Some(destroy_pool),
        allocate_sets: Some(allocate_sets),
        free_sets: Some(free_sets),
    };
    let host = Host::new(&device).unwrap();
    create(waits, |id, lock| {
        Allocator::new(id, HostDevice::new(host, lock), 0)
    })
    .unwrap()
}

/// A panic becomes a status, which each later call returns too. Another allocator isn't affected. Without std
/// a panic ends the program.
#[cfg(feature = "std")]
#[test]
fn a_panic_is_a_status() {
    let (poisoned, other) = (created(), created());
    // SAFETY: `create` made both.
    unsafe {
        let status = enter(poisoned, |_| panic!("on purpose"));
        assert_eq!(status, GdStatus::INTERNAL_ERROR);
        let status = enter(poisoned, |_| GdStatus::OK);
        assert_eq!(status, GdStatus::INTERNAL_ERROR);
        let status = destroy(poisoned, |_| GdStatus::OK);
        assert_eq!(status, GdStatus::INTERNAL_ERROR);
        assert_eq!(enter(other, |_| GdStatus::OK), GdStatus::OK);
        assert_eq!(destroy(other, |_| GdStatus::OK), GdStatus::OK);
        let status = destroy(other, |_| unreachable!());
        assert_eq!(status, GdStatus::BAD_ALLOCATOR);
    }
}

/// A call from a function of the host is refused, even if it would wait for another thread's.
#[test]
fn a_call_inside_is_busy() {
    for waits in [true, false] {
        let user = Box::into_raw(Box::new((GdAllocator::NONE, [GdStatus::OK; 2])));
        let allocator = created_with(waits, user.cast());
        // SAFETY: `create` made it, and `user` is a box.
        unsafe {
            (*user).0 = allocator;
            let status = enter(allocator, |it| {
                let handle = HostLayout {
                    handle: 1,
                    variable: None,
                };
                let layout = it.add_layout(handle, &[1; 14], 0).unwrap();
                it.allocate(layout, &mut [MaybeUninit::uninit()])
            });
            assert_eq!(status, GdStatus::FRAGMENTATION);
            assert_eq!((*user).1, [GdStatus::BUSY; 2]);
            assert_eq!(destroy(allocator, |_| GdStatus::OK), GdStatus::OK);
            drop(Box::from_raw(user));
        }
    }
}

/// A call that waits for the one that destroys the allocator has read its id, and still finds no allocator.
#[cfg(feature = "std")]
#[test]
fn a_call_that_waits_for_the_end_comes_too_late() {
    #[derive(Clone, Copy)]
    struct Sent(GdAllocator);

    // SAFETY: any thread may call an allocator.
    unsafe impl Send for Sent {}

    impl Sent {
        fn call(self) -> GdStatus {
            // SAFETY: `create` made it.
            unsafe { enter(self.0, |_| GdStatus::OK) }
        }
    }

    let (allocator, mut late) = (Sent(created()), None);
    // SAFETY: `create` made it.
    let status = unsafe {
        destroy(allocator.0, |_| {
            late = Some(std::thread::spawn(move || allocator.call()));
            std::thread::sleep(std::time::Duration::from_millis(200));
            GdStatus::OK
        })
    };
    assert_eq!(status, GdStatus::OK);
    assert_eq!(late.unwrap().join().unwrap(), GdStatus::BAD_ALLOCATOR);
}
