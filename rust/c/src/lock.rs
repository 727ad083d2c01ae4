//! The lock of a slot: one call at a time holds it.
//!
//! With std a call may wait for its turn, and sleeps while it does. Without std no call waits, since nothing
//! can sleep.
//!
//! A call must not wait for one of its own thread: that would deadlock. While a call has the lock, its thread
//! can make another one only from a function of the host, since the header forbids signal handlers. So the
//! thread is stored as the owner while such a function runs. A call that finds the lock held compares its
//! thread with the owner:
//!
//! - A thread that is in such a function stored itself. Only the thread that has the lock stores, and it
//!   still has it, so it loads itself, and is refused.
//! - A thread that is in none stored 0 after itself, if it ever stored itself. It never loads what was there
//!   before its own last store, so it loads that 0, or what another thread stored later, and waits.
//!
//! All threads see the stores to one place in one order, even with `Relaxed`, and nothing more is needed. A
//! new thread may have the number of one that ended, but begins after all stores of that one. Each lock has
//! its own owner, so a function may call another allocator, whose functions may call both. If a function is
//! left by longjmp, the lock stays held and its thread stays the owner, as the header says.

use core::hint::spin_loop;
#[cfg(feature = "std")]
use core::sync::atomic::AtomicUsize;
use core::sync::atomic::{AtomicU32, Ordering};
#[cfg(feature = "std")]
use std::sync::{Condvar, Mutex, PoisonError};

const FREE: u32 = 0;
const HELD: u32 = 1;

/// It is held, and a thread may sleep until it is free.
#[cfg(feature = "std")]
const AWAITED: u32 = 2;

pub struct Lock {
    /// Whether a call waits for its turn. Without std none does.
    waits: bool,
    state: AtomicU32,

    /// The thread whose call holds it, while that is in a function of the host; else 0.
    #[cfg(feature = "std")]
    owner: AtomicUsize,

    /// Held from the check of the state until the sleep, so that no wake is missed.
    #[cfg(feature = "std")]
    look: Mutex<()>,
    #[cfg(feature = "std")]
    wake: Condvar,
}

/// A lock that is held while this value lives.
pub struct Held<'a>(&'a Lock);

/// The thread is the owner while this value lives.
#[cfg(feature = "std")]
struct Owner<'a>(&'a Lock);

/// A number that no other thread has.
#[cfg(feature = "std")]
#[inline]
fn this_thread() -> usize {
    std::thread_local! {
        static PLACE: u8 = const { 0 };
    }
    PLACE.with(|place| core::ptr::from_ref(place).addr())
}

impl Lock {
    pub const fn new(waits: bool) -> Self {
        Lock {
            waits,
            state: AtomicU32::new(FREE),
            #[cfg(feature = "std")]
            owner: AtomicUsize::new(0),
            #[cfg(feature = "std")]
            look: Mutex::new(()),
            #[cfg(feature = "std")]
            wake: Condvar::new(),
        }
    }

    pub fn waits(&self) -> bool {
        self.waits
    }

    /// Takes the lock. `None` if it is held.
    #[inline]
    fn try_hold(&self) -> Option<Held<'_>> {
        let state = &self.state;
        match state.compare_exchange(FREE, HELD, Ordering::Acquire, Ordering::Relaxed) {
            Ok(_) => Some(Held(self)),
            Err(_) => None,
        }
    }

    /// Waits without sleep: only for locks that are held for a few instructions at a time.
    pub fn spin(&self) -> Held<'_> {
        loop {
            match self.try_hold() {
                Some(held) => return held,
                None => spin_loop(),
            }
        }
    }

    /// Waits until it is free. `None` if this thread is in `as_owner`, or if the lock is held and calls don't
    /// wait.
    #[inline]
    pub fn hold(&self) -> Option<Held<'_>> {
        self.try_hold().or_else(|| self.wait())
    }

    /// Runs a function of the host, in a call that holds the lock. A call that it makes on the same lock is
    /// refused.
    #[inline]
    pub fn as_owner<R>(&self, function: impl FnOnce() -> R) -> R {
        #[cfg(feature = "std")]
        let _owner = Owner::new(self);
        function()
    }

    #[cfg(not(feature = "std"))]
    fn wait(&self) -> Option<Held<'_>> {
        None
    }

    #[cfg(feature = "std")]
    #[cold]
    fn wait(&self) -> Option<Held<'_>> {
        if !self.waits {
            return None;
        }
        if self.owner.load(Ordering::Relaxed) == this_thread() {
            return None;
        }
        while self.state.swap(AWAITED, Ordering::Acquire) != FREE {
            let looking = self.look.lock().unwrap_or_else(PoisonError::into_inner);
            let is_awaited = |_: &mut ()| self.state.load(Ordering::Relaxed) == AWAITED;
            drop(self.wake.wait_while(looking, is_awaited));
        }
        Some(Held(self))
    }

    /// Wakes one sleeping thread.
    #[cfg(feature = "std")]
    #[cold]
    fn wake_one(&self) {
        let looking = self.look.lock().unwrap_or_else(PoisonError::into_inner);
        self.wake.notify_one();
        drop(looking);
    }
}

#[cfg(feature = "std")]
impl<'a> Owner<'a> {
    #[inline]
    fn new(lock: &'a Lock) -> Self {
        lock.owner.store(this_thread(), Ordering::Relaxed);
        Owner(lock)
    }
}

#[cfg(feature = "std")]
impl Drop for Owner<'_> {
    /// Clears the owner: otherwise this thread might take another thread's next call for its own.
    #[inline]
    fn drop(&mut self) {
        self.0.owner.store(0, Ordering::Relaxed);
    }
}

impl Drop for Held<'_> {
    #[inline]
    fn drop(&mut self) {
        #[cfg(feature = "std")]
        if self.0.waits {
            if self.0.state.swap(FREE, Ordering::Release) == AWAITED {
                self.0.wake_one();
            }
            return;
        }
        self.0.state.store(FREE, Ordering::Release);
    }
}

#[cfg(all(test, feature = "std"))]
mod tests;
