//! The slot of an allocator, which one call at a time enters.
//!
//! A slot is never freed. When its allocator is destroyed, a later one reuses it. So a call through a
//! `gd_allocator` whose allocator is destroyed reads a slot that exists, and sees by the id that it has
//! another allocator or none. No id is given twice, not even by two copies of the library in one process.

use crate::abi::GdStatus;
use crate::allocator::Allocator;
use crate::kit::alloc::AllocError;
use crate::lock::{Held, Lock};
use core::cell::UnsafeCell;
use core::sync::atomic::{AtomicU64, Ordering};
use std_alloc::vec::Vec;

/// `gd_allocator`.
#[repr(C)]
#[derive(Clone, Copy)]
pub struct GdAllocator {
    slot: *const Slot,
    id: u64,
}

impl GdAllocator {
    pub const NONE: Self = GdAllocator {
        slot: core::ptr::null(),
        id: 0,
    };
}

pub struct Slot {
    /// The allocator's id; 0 if there is none.
    id: AtomicU64,

    /// Held by the running call, which may use `allocator`.
    lock: Lock,

    /// `None` if there is none, or if a call panicked, so that its state is unknown.
    allocator: UnsafeCell<Option<Allocator>>,

    /// The next free slot, for the thread that locked the free slots.
    next: UnsafeCell<Option<&'static Slot>>,
}

// SAFETY: each cell is used only by the thread that holds `lock` or locked the free slots, and an allocator
// may move to another thread.
unsafe impl Sync for Slot where Allocator: Send {}

/// The slots without an allocator.
struct FreeSlots {
    lock: Lock,
    first: UnsafeCell<Option<&'static Slot>>,
}

// SAFETY: `first` is used only by the thread that holds `lock`.
unsafe impl Sync for FreeSlots {}

/// How many allocators this copy of the library created.
static CREATED: AtomicU64 = AtomicU64::new(0);

/// The free slots in which calls wait for their turn, and those in which they don't.
static WAITING: FreeSlots = FreeSlots::new();
static BUSY: FreeSlots = FreeSlots::new();

impl FreeSlots {
    const fn new() -> Self {
        FreeSlots {
            lock: Lock::new(false),
            first: UnsafeCell::new(None),
        }
    }

    fn of(waits: bool) -> &'static Self {
        if waits { &WAITING } else { &BUSY }
    }

    fn pop(&self) -> Option<&'static Slot> {
        let _held = self.lock.spin();
        // SAFETY: it is locked.
        unsafe {
            let slot = (*self.first.get())?;
            *self.first.get() = *slot.next.get();
            Some(slot)
        }
    }

    fn push(&self, slot: &'static Slot) {
        let _held = self.lock.spin();
        // SAFETY: it is locked.
        unsafe {
            *slot.next.get() = *self.first.get();
            *self.first.get() = Some(slot);
        }
    }
}

fn new_slot(waits: bool) -> Result<&'static Slot, AllocError> {
    let mut slots = Vec::new();
    slots.try_reserve_exact(1).map_err(|_| AllocError)?;
    slots.push(Slot {
        id: AtomicU64::new(0),
        lock: Lock::new(waits),
        allocator: UnsafeCell::new(None),
        next: UnsafeCell::new(None),
    });
    Ok(&slots.leak()[0])
}

/// The id of the next allocator. They begin at the address of a variable of this copy of the library: copies that
/// are loaded at once have it on two pages, so that 2^28 ids of one don't reach those of another.
fn next_id() -> u64 {
    let first = ((&raw const CREATED).addr() as u64) << 16;
    first.wrapping_add(CREATED.fetch_add(1, Ordering::Relaxed) + 1)
}

/// Creates an allocator, and gives it its id and its lock. `waits` says whether its calls wait for those of
/// other threads.
pub fn create(
    waits: bool,
    allocator: impl FnOnce(u64, &'static Lock) -> Allocator,
) -> Result<GdAllocator, AllocError> {
    let waits = waits && cfg!(feature = "std");
    let slot = match FreeSlots::of(waits).pop() {
        Some(slot) => slot,
        None => new_slot(waits)?,
    };
    let id = next_id();
    // A call through an older id may just be checking that id.
    let _held = slot.lock.spin();
    // SAFETY: the lock is held.
    unsafe { *slot.allocator.get() = Some(allocator(id, &slot.lock)) };
    slot.id.store(id, Ordering::Relaxed);
    Ok(GdAllocator { slot, id })
}

/// Begins a call, and returns the slot with its lock held.
///
/// # Safety
///
/// The allocator is zeroed, or `gd_create` wrote it.
#[inline]
unsafe fn begin(allocator: GdAllocator) -> Result<(&'static Slot, Held<'static>), GdStatus> {
    if allocator.slot.is_null() {
        return Err(GdStatus::BAD_ALLOCATOR);
    }
    // SAFETY: `create` made it, and slots are never freed.
    let slot: &'static Slot = unsafe { &*allocator.slot };
    if slot.id.load(Ordering::Relaxed) != allocator.id {
        return Err(GdStatus::BAD_ALLOCATOR);
    }
    let held = slot.lock.hold().ok_or(GdStatus::BUSY)?;
    // The allocator may have been destroyed in the meantime.
    if slot.id.load(Ordering::Relaxed) != allocator.id {
        return Err(GdStatus::BAD_ALLOCATOR);
    }
    Ok((slot, held))
}

/// Runs a call. `None` if it panicked.
#[cfg(feature = "std")]
#[inline]
fn catch(call: impl FnOnce() -> GdStatus) -> Option<GdStatus> {
    match std::panic::catch_unwind(std::panic::AssertUnwindSafe(call)) {
        Ok(status) => Some(status),
        Err(payload) => {
            // Its drop might panic.
            core::mem::forget(payload);
            None
        }
    }
}

/// A panic aborts.
#[cfg(not(feature = "std"))]
#[inline]
fn catch(call: impl FnOnce() -> GdStatus) -> Option<GdStatus> {
    Some(call())
}

/// Makes a call on an allocator, in its turn or if no other one runs. No panic leaves it.
///
/// # Safety
///
/// The allocator is zeroed, or `gd_create` wrote it.
#[inline(always)]
pub unsafe fn enter(
    allocator: GdAllocator,
    call: impl FnOnce(&mut Allocator) -> GdStatus,
) -> GdStatus {
    // SAFETY: as above.
    let (slot, _held) = match unsafe { begin(allocator) } {
        Ok(begun) => begun,
        Err(status) => return status,
    };
    // SAFETY: this call holds the lock.
    let cell = unsafe { &mut *slot.allocator.get() };
    let Some(allocator) = cell else {
        return GdStatus::INTERNAL_ERROR;
    };
    catch(|| call(allocator)).unwrap_or_else(|| {
        // Nothing of it is used again or dropped.
        core::mem::forget(cell.take());
        GdStatus::INTERNAL_ERROR
    })
}

/// Makes a call on an allocator, and destroys it if the call returns `GD_OK`.
///
/// # Safety
///
/// The allocator is zeroed, or `gd_create` wrote it.
pub unsafe fn destroy(
    allocator: GdAllocator,
    call: impl FnOnce(&mut Allocator) -> GdStatus,
) -> GdStatus {
    // SAFETY: as above.
    let status = unsafe {
        enter(allocator, |it| {
            let status = call(it);
            if status == GdStatus::OK {
                // The lock is still held, so no call enters after this one.
                (*allocator.slot).id.store(0, Ordering::Relaxed);
            }
            status
        })
    };
    if status != GdStatus::OK {
        return status;
    }
    // SAFETY: `enter` found the slot.
    let slot: &'static Slot = unsafe { &*allocator.slot };
    let held = slot.lock.spin();
    // SAFETY: the lock is held.
    let old = unsafe { (*slot.allocator.get()).take() };
    drop(held);
    drop(old);
    FreeSlots::of(slot.lock.waits()).push(slot);
    GdStatus::OK
}

#[cfg(test)]
mod tests;
