//! The device over functions of Vulkan, without a driver: the functions are the test's own. Numbers are
//! those of the Vulkan specification.
#![cfg(feature = "vulkan")]

mod ash;
mod count;
mod driver;
mod layout;
mod memory;
mod pools;
#[path = "../refuses/mod.rs"]
mod refuses;
mod results;
mod sets;
mod variable;
mod with_ash;
