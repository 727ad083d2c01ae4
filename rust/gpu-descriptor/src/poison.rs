//! What holds after a panic, as the crate's docs say under *After a panic*. The language of the proofs has
//! no unwinding, so the proofs don't cover it.

use core::sync::atomic::{AtomicU32, Ordering};

/// How many calls of the process panicked.
static PANICS: AtomicU32 = AtomicU32::new(0);

/// How many calls panicked so far. While it stays the same, nothing that was healthy is poisoned. A thread that
/// knows of a panic sees its count, so no order is needed.
#[inline]
pub(crate) fn panics() -> u32 {
    PANICS.load(Ordering::Relaxed)
}

/// A value that is poisoned if a call of it panics. Each access says what it does after that.
#[derive(Debug)]
pub(crate) struct Guarded<T> {
    value: T,

    /// Whether a call panicked.
    is_poisoned: bool,
}

/// Poisons the value of a running call when it is dropped, which only a panic does.
struct Poison<'a>(&'a mut bool);

impl Drop for Poison<'_> {
    #[cold]
    fn drop(&mut self) {
        *self.0 = true;
        PANICS.fetch_add(1, Ordering::Relaxed);
    }
}

impl<T> Guarded<T> {
    pub(crate) fn new(value: T) -> Self {
        Guarded {
            value,
            is_poisoned: false,
        }
    }

    /// The value, for a call in which nothing can panic. Panics if an earlier one panicked.
    #[inline]
    pub(crate) fn checked(&mut self) -> &mut T {
        if self.is_poisoned {
            refuse();
        }
        &mut self.value
    }

    /// Makes a call. Panics if an earlier one panicked.
    #[inline]
    pub(crate) fn call<R>(&mut self, call: impl FnOnce(&mut T) -> R) -> R {
        self.checked();
        let poison = Poison(&mut self.is_poisoned);
        let result = call(&mut self.value);
        core::mem::forget(poison);
        result
    }

    /// Same as `call`, for a call that a `Drop` may make: if an earlier call panicked and the thread still
    /// unwinds, it makes none, since a panic would abort the program.
    #[inline]
    pub(crate) fn call_in_drop<R>(&mut self, call: impl FnOnce(&mut T) -> R) -> Option<R> {
        if self.is_poisoned && is_panicking() {
            return None;
        }
        Some(self.call(call))
    }

    pub(crate) fn is_poisoned(&self) -> bool {
        self.is_poisoned
    }

    /// The value, to read, even after a panic.
    #[inline]
    pub(crate) fn get(&self) -> &T {
        &self.value
    }

    /// The value, to retire sets, even after a panic: the device isn't involved.
    #[inline]
    pub(crate) fn get_mut(&mut self) -> &mut T {
        &mut self.value
    }

    pub(crate) fn into_inner(self) -> T {
        self.value
    }
}

/// Panics, since an earlier call did.
#[cold]
pub(crate) fn refuse() -> ! {
    panic!("an earlier call of this allocator panicked")
}

#[cfg(feature = "std")]
pub(crate) fn is_panicking() -> bool {
    std::thread::panicking()
}

#[cfg(not(feature = "std"))]
pub(crate) fn is_panicking() -> bool {
    false
}

/// Warns at a drop that something was not freed, unless the thread panics: a line on standard error, or a
/// panic without the feature `std`, as in gpu-descriptor 0.3.2.
pub(crate) fn warn(what: &str) {
    if is_panicking() {
        return;
    }
    #[cfg(feature = "std")]
    write_line(what);
    #[cfg(not(feature = "std"))]
    panic!("{what}");
}

/// `eprintln!` would panic if standard error is full or closed.
#[cfg(feature = "std")]
fn write_line(what: &str) {
    use std::io::Write;
    let _ = writeln!(std::io::stderr(), "{what}");
}

/// The warning about sets.
pub(crate) const SETS_LEFT: &str = "Descriptor sets were not deallocated";
