//! The functions of `gpu_descriptor.h`.
//!
//! This file is `unsafe` only where it reads and writes the host's pointers. Each is as the header says:
//! valid, as long as its count, and not in use elsewhere.
#![allow(clippy::missing_safety_doc)]

use crate::abi::{
    AllocateVariableSets, EXTERNALLY_SYNCHRONIZED, FINGERPRINT, GdDevice, GdLayout,
    GdLayoutStatistics, GdSet, GdStatistics, GdStatus, PoolCreated,
};
use crate::allocator::Allocator;
use crate::device::{Host, HostDevice, HostLayout};
use crate::pool_created::OnPoolCreated;
use crate::slot::{self, GdAllocator};
use core::ffi::{c_char, c_void};
use core::mem::MaybeUninit;
use core::ptr::NonNull;
use core::slice;

/// The host's array of `count` elements, `None` if it is `NULL`. Any pointer will do for no elements.
#[inline]
fn start_of(sets: *const GdSet, count: u32) -> Option<NonNull<GdSet>> {
    let none = NonNull::dangling().as_ptr();
    NonNull::new(if count == 0 { none } else { sets.cast_mut() })
}

/// A failed request leaves no set in the host's array.
#[cold]
#[inline(never)]
fn write_none(places: &mut [MaybeUninit<GdSet>]) {
    places.fill(MaybeUninit::new(GdSet::NONE));
}

/// Passes the host's array to a call. It isn't read if it is longer than the number of held sets.
///
/// # Safety
///
/// It is `NULL`, or has `count` elements, which nobody writes while it is used. The allocator is as for
/// `slot::enter`.
#[inline]
unsafe fn release(
    allocator: GdAllocator,
    sets: *const GdSet,
    count: u32,
    call: impl FnOnce(&mut Allocator, &[GdSet]) -> GdStatus,
) -> GdStatus {
    let Some(sets) = start_of(sets, count) else {
        return GdStatus::NULL_POINTER;
    };
    let call = |it: &mut Allocator| {
        if count as usize > it.held() {
            return GdStatus::BAD_SET;
        }
        // SAFETY: the caller's.
        call(it, unsafe {
            slice::from_raw_parts(sets.as_ptr(), count as usize)
        })
    };
    // SAFETY: the caller's.
    unsafe { slot::enter(allocator, call) }
}

/// Makes a call that an allocator never refuses.
///
/// # Safety
///
/// As the header says.
unsafe fn run(allocator: GdAllocator, call: impl FnOnce(&mut Allocator)) -> GdStatus {
    // SAFETY: as above.
    unsafe {
        slot::enter(allocator, |it| {
            call(it);
            GdStatus::OK
        })
    }
}

/// Makes a call, and writes its answer to a place of the host.
///
/// # Safety
///
/// As the header says.
unsafe fn ask<T>(
    allocator: GdAllocator,
    place: *mut T,
    call: impl FnOnce(&mut Allocator) -> Result<T, GdStatus>,
) -> GdStatus {
    if place.is_null() {
        return GdStatus::NULL_POINTER;
    }
    // SAFETY: as above.
    unsafe {
        slot::enter(allocator, |it| match call(it) {
            Ok(answer) => {
                place.write(answer);
                GdStatus::OK
            }
            Err(status) => status,
        })
    }
}

/// A part of the crate's version.
const fn number(text: &str) -> u32 {
    match u32::from_str_radix(text, 10) {
        Ok(number) => number,
        Err(_) => panic!("cargo gives numbers"),
    }
}

#[unsafe(no_mangle)]
pub extern "C" fn gd_version() -> u32 {
    const MAJOR: u32 = number(env!("CARGO_PKG_VERSION_MAJOR"));
    const MINOR: u32 = number(env!("CARGO_PKG_VERSION_MINOR"));
    const PATCH: u32 = number(env!("CARGO_PKG_VERSION_PATCH"));
    MAJOR << 22 | MINOR << 12 | PATCH
}

#[unsafe(no_mangle)]
pub extern "C" fn gd_status_name(status: GdStatus) -> *const c_char {
    status.name().as_ptr()
}

#[unsafe(no_mangle)]
pub unsafe extern "C" fn gd_create_checked(
    fingerprint: u64,
    device: *const GdDevice,
    user_size: usize,
    limit: u32,
    flags: u32,
    allocator: *mut GdAllocator,
) -> GdStatus {
    if fingerprint != FINGERPRINT {
        return GdStatus::BAD_VERSION;
    }
    if allocator.is_null() {
        return GdStatus::NULL_POINTER;
    }
    // SAFETY: the header's.
    unsafe { allocator.write(GdAllocator::NONE) };
    if device.is_null() {
        return GdStatus::NULL_POINTER;
    }
    // SAFETY: the header's.
    let Some(mut host) = Host::new(unsafe { &*device }) else {
        return GdStatus::NULL_POINTER;
    };
    if flags & !EXTERNALLY_SYNCHRONIZED != 0 {
        return GdStatus::BAD_FLAGS;
    }
    if user_size > 0 {
        if host.has_no_user() {
            return GdStatus::NULL_POINTER;
        }
        // SAFETY: the header's.
        if unsafe { host.copy_user(user_size) }.is_err() {
            return GdStatus::OUT_OF_HOST_MEMORY;
        }
    }
    let waits = flags & EXTERNALLY_SYNCHRONIZED == 0;
    match slot::create(waits, |id, lock| {
        Allocator::new(id, HostDevice::new(host, lock), limit)
    }) {
        Ok(created) => {
            // SAFETY: the header's.
            unsafe { allocator.write(created) };
            GdStatus::OK
        }
        Err(_) => GdStatus::OUT_OF_HOST_MEMORY,
    }
}

#[unsafe(no_mangle)]
pub unsafe extern "C" fn gd_destroy(allocator: GdAllocator) -> GdStatus {
    // SAFETY: the header's.
    unsafe {
        slot::destroy(allocator, |it| {
            if it.outstanding() > 0 {
                return GdStatus::OUTSTANDING;
            }
            it.cleanup();
            GdStatus::OK
        })
    }
}

#[unsafe(no_mangle)]
pub unsafe extern "C" fn gd_add_layout(
    allocator: GdAllocator,
    handle: u64,
    counts: *const u32,
    flags: u32,
    layout: *mut GdLayout,
) -> GdStatus {
    let variable = None;
    // SAFETY: the header's.
    unsafe {
        add_layout(
            allocator,
            HostLayout { handle, variable },
            counts,
            flags,
            layout,
        )
    }
}

#[unsafe(no_mangle)]
pub unsafe extern "C" fn gd_add_variable_layout(
    allocator: GdAllocator,
    handle: u64,
    variable_count: u32,
    counts: *const u32,
    flags: u32,
    layout: *mut GdLayout,
) -> GdStatus {
    let variable = Some(variable_count);
    // SAFETY: the header's.
    unsafe {
        add_layout(
            allocator,
            HostLayout { handle, variable },
            counts,
            flags,
            layout,
        )
    }
}

/// Adds a layout of either kind.
///
/// # Safety
///
/// As the header says.
unsafe fn add_layout(
    allocator: GdAllocator,
    handle: HostLayout,
    counts: *const u32,
    flags: u32,
    layout: *mut GdLayout,
) -> GdStatus {
    if counts.is_null() {
        return GdStatus::NULL_POINTER;
    }
    // SAFETY: the header's.
    unsafe {
        ask(allocator, layout, |it| {
            let counts = counts.cast::<[u32; 14]>().read();
            it.add_layout(handle, &counts, flags)
        })
    }
}

#[unsafe(no_mangle)]
pub unsafe extern "C" fn gd_allocator_set_allocate_variable_sets(
    allocator: GdAllocator,
    function: Option<AllocateVariableSets>,
) -> GdStatus {
    let Some(function) = function else {
        return GdStatus::NULL_POINTER;
    };
    // SAFETY: the header's.
    unsafe { run(allocator, |it| it.set_allocate_variable_sets(function)) }
}

#[unsafe(no_mangle)]
pub unsafe extern "C" fn gd_remove_layout(allocator: GdAllocator, layout: GdLayout) -> GdStatus {
    // SAFETY: the header's.
    unsafe { slot::enter(allocator, |it| it.remove_layout(layout)) }
}

#[unsafe(no_mangle)]
pub unsafe extern "C" fn gd_allocate(
    allocator: GdAllocator,
    layout: GdLayout,
    count: u32,
    sets: *mut GdSet,
) -> GdStatus {
    let Some(sets) = start_of(sets, count) else {
        return GdStatus::NULL_POINTER;
    };
    // The places may never have been written.
    let places = sets.as_ptr().cast::<MaybeUninit<GdSet>>();
    // SAFETY: the header's.
    let places = unsafe { slice::from_raw_parts_mut(places, count as usize) };
    // SAFETY: the header's.
    let status = unsafe { slot::enter(allocator, |it| it.allocate(layout, places)) };
    if status != GdStatus::OK {
        write_none(places);
    }
    status
}

#[unsafe(no_mangle)]
pub unsafe extern "C" fn gd_free(
    allocator: GdAllocator,
    sets: *const GdSet,
    count: u32,
) -> GdStatus {
    // SAFETY: the header's.
    unsafe { release(allocator, sets, count, |it, sets| it.free(sets)) }
}

#[unsafe(no_mangle)]
pub unsafe extern "C" fn gd_free_all(allocator: GdAllocator) -> GdStatus {
    // SAFETY: the header's.
    unsafe { run(allocator, |it| it.free_all()) }
}

#[unsafe(no_mangle)]
pub unsafe extern "C" fn gd_free_after(
    allocator: GdAllocator,
    sets: *const GdSet,
    count: u32,
    frame: u64,
) -> GdStatus {
    // SAFETY: the header's.
    unsafe {
        release(allocator, sets, count, |it, sets| {
            it.free_after(sets, frame)
        })
    }
}

#[unsafe(no_mangle)]
pub unsafe extern "C" fn gd_begin_frame(allocator: GdAllocator, frame: u64) -> GdStatus {
    // SAFETY: the header's.
    unsafe { run(allocator, |it| it.begin_frame(frame)) }
}

#[unsafe(no_mangle)]
pub unsafe extern "C" fn gd_free_after_current(
    allocator: GdAllocator,
    sets: *const GdSet,
    count: u32,
) -> GdStatus {
    // SAFETY: the header's.
    unsafe {
        release(allocator, sets, count, |it, sets| {
            it.free_after_current(sets)
        })
    }
}

#[unsafe(no_mangle)]
pub unsafe extern "C" fn gd_frame_done(allocator: GdAllocator, frame: u64) -> GdStatus {
    // SAFETY: the header's.
    unsafe { run(allocator, |it| it.frame_done(frame)) }
}

#[unsafe(no_mangle)]
pub unsafe extern "C" fn gd_allocator_set_max_kept(allocator: GdAllocator, max: u32) -> GdStatus {
    // SAFETY: the header's.
    unsafe { run(allocator, |it| it.set_max_kept(max)) }
}

#[unsafe(no_mangle)]
pub unsafe extern "C" fn gd_allocator_set_max_pool_descriptors(
    allocator: GdAllocator,
    max: u64,
) -> GdStatus {
    // SAFETY: the header's.
    unsafe { run(allocator, |it| it.set_max_pool_descriptors(max)) }
}

#[unsafe(no_mangle)]
pub unsafe extern "C" fn gd_allocator_set_pool_created(
    allocator: GdAllocator,
    function: Option<PoolCreated>,
    user: *mut c_void,
) -> GdStatus {
    let function = function.map(|it| OnPoolCreated::new(it, user));
    // SAFETY: the header's.
    unsafe { run(allocator, |it| it.set_pool_created(function)) }
}

#[unsafe(no_mangle)]
pub unsafe extern "C" fn gd_cleanup(allocator: GdAllocator) -> GdStatus {
    // SAFETY: the header's.
    unsafe { run(allocator, |it| it.cleanup()) }
}

#[unsafe(no_mangle)]
pub unsafe extern "C" fn gd_trim(allocator: GdAllocator) -> GdStatus {
    // SAFETY: the header's.
    unsafe { run(allocator, |it| it.trim()) }
}

#[unsafe(no_mangle)]
pub unsafe extern "C" fn gd_get_statistics(
    allocator: GdAllocator,
    statistics: *mut GdStatistics,
) -> GdStatus {
    // SAFETY: the header's.
    unsafe { ask(allocator, statistics, |it| Ok(it.statistics())) }
}

#[unsafe(no_mangle)]
pub unsafe extern "C" fn gd_kept(
    allocator: GdAllocator,
    layout: GdLayout,
    sets: *mut u64,
) -> GdStatus {
    // SAFETY: the header's.
    unsafe { ask(allocator, sets, |it| it.kept(layout)) }
}

#[unsafe(no_mangle)]
pub unsafe extern "C" fn gd_get_layout_statistics(
    allocator: GdAllocator,
    layout: GdLayout,
    statistics: *mut GdLayoutStatistics,
) -> GdStatus {
    // SAFETY: the header's.
    unsafe { ask(allocator, statistics, |it| it.layout_statistics(layout)) }
}

/// A buffer of the host, and the length of the whole text that was written to it.
struct Text {
    start: *mut u8,
    room: usize,
    length: usize,
}

impl core::fmt::Write for Text {
    fn write_str(&mut self, part: &str) -> core::fmt::Result {
        for byte in part.bytes() {
            if self.length < self.room {
                // SAFETY: the header's: there are `room` bytes.
                unsafe { self.start.add(self.length).write(byte) };
            }
            self.length += 1;
        }
        Ok(())
    }
}

#[unsafe(no_mangle)]
pub unsafe extern "C" fn gd_write_statistics(
    allocator: GdAllocator,
    text: *mut c_char,
    room: usize,
    length: *mut usize,
) -> GdStatus {
    if length.is_null() || (text.is_null() && room > 0) {
        return GdStatus::NULL_POINTER;
    }
    let start = text.cast::<u8>();
    // SAFETY: the header's.
    unsafe {
        slot::enter(allocator, |it| {
            let mut text = Text {
                start,
                room,
                length: 0,
            };
            if it.write_statistics(&mut text).is_err() {
                return GdStatus::INTERNAL_ERROR;
            }
            if room > 0 {
                start.add(text.length.min(room - 1)).write(0);
            }
            length.write(text.length);
            GdStatus::OK
        })
    }
}

#[unsafe(no_mangle)]
pub unsafe extern "C" fn gd_outstanding(allocator: GdAllocator, sets: *mut u64) -> GdStatus {
    // SAFETY: the header's.
    unsafe { ask(allocator, sets, |it| Ok(it.outstanding())) }
}

#[unsafe(no_mangle)]
pub unsafe extern "C" fn gd_waiting(allocator: GdAllocator, sets: *mut u64) -> GdStatus {
    // SAFETY: the header's.
    unsafe { ask(allocator, sets, |it| Ok(it.waiting())) }
}

#[unsafe(no_mangle)]
pub unsafe extern "C" fn gd_pool_count(allocator: GdAllocator, pools: *mut u64) -> GdStatus {
    // SAFETY: the header's.
    unsafe { ask(allocator, pools, |it| Ok(it.pools())) }
}
