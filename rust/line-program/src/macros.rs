//! The kit's macros, which hide Rust's of the same name in the modules after this one.

/// `vec![in alloc; item; count]`
macro_rules! vec {
    (in $alloc:expr; $item:expr; $count:expr) => {
        $crate::kit::vec::filled($alloc, $item, $count)
    };
}
