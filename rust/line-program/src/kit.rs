//! The crate's kit, and what the line program takes of the kit's std besides.

pub mod string;
pub mod vec;

pub use crate::crate_kit::*;
pub use core::{slice, str};

pub mod io {
    pub use std::io::{Read, Write};
}
