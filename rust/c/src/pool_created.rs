//! The host's function for new pools, and its `user`.

use crate::abi::{GdPoolInfo, PoolCreated};
use core::ffi::c_void;

#[derive(Clone, Copy)]
pub struct OnPoolCreated {
    function: PoolCreated,
    user: *mut c_void,
}

// SAFETY: `user` is the host's, and the header says that any thread may pass it to the function.
unsafe impl Send for OnPoolCreated {}

impl OnPoolCreated {
    pub fn new(function: PoolCreated, user: *mut c_void) -> Self {
        OnPoolCreated { function, user }
    }

    /// Calls the function for a pool that the host just created.
    pub fn call(self, pool: u64, info: &GdPoolInfo) {
        // SAFETY: the header's; `info` is valid during the call.
        unsafe { (self.function)(self.user, pool, info) }
    }
}
