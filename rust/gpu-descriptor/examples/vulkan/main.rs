//! Descriptor sets on the first Vulkan device, under the Khronos validation layer.
//!
//! A frame loop allocates sets of several layouts and frees them two frames later, once on the driver
//! as it is, and once with some calls refused. Then the limit on update-after-bind
//! descriptors is reached. On Vulkan 1.3 there are update-after-bind layouts and inline uniform blocks.
//! On 1.0 there are none, and the layer reports a pool that is asked for more than it has left.
//!
//! It ends with 1 if the layer reports anything or anything is left, with 2 at a wrong argument, and with
//! 3 where there is no driver or no layer.
//!
//! usage: vulkan [1.0 | 1.3]
#[cfg(unix)]
mod counted;
#[cfg(unix)]
mod ffi;
#[cfg(unix)]
mod frames;
#[cfg(unix)]
mod functions;
#[cfg(unix)]
mod gpu;
#[cfg(unix)]
mod layouts;
#[cfg(unix)]
mod limit;
#[cfg(unix)]
mod memory;

use std::process::ExitCode;

#[cfg(not(unix))]
fn main() -> ExitCode {
    println!("skipped: this example opens the Vulkan loader as Unix does");
    ExitCode::from(3)
}

#[cfg(unix)]
fn main() -> ExitCode {
    let version = std::env::args().nth(1);
    let version = match version.as_deref() {
        Some("1.0") => ffi::API_VERSION_1_0,
        Some("1.3") | None => ffi::API_VERSION_1_3,
        Some(_) => {
            eprintln!("usage: vulkan [1.0 | 1.3]");
            return ExitCode::from(2);
        }
    };
    match gpu::Gpu::open(version) {
        Ok(gpu) => run(gpu),
        Err(missing) => {
            println!("skipped: the loader finds no {missing}");
            ExitCode::from(3)
        }
    }
}

/// Uses the device, and destroys it. The layer reports what wasn't destroyed before.
#[cfg(unix)]
fn run(gpu: gpu::Gpu) -> ExitCode {
    println!("{}", gpu.name);
    let layouts = layouts::create(&gpu);
    let device = counted::device(&gpu);
    frames::run(&gpu, &device, &layouts);
    counted::refuse_one_in(7);
    frames::run(&gpu, &device, &layouts);
    counted::refuse_one_in(0);
    limit::run(&gpu, &device, &layouts);
    layouts::destroy(&gpu, &layouts);
    let (pools, sets) = counted::left();
    let blocks = memory::left();
    let messages = gpu.close();
    let allocated = memory::allocated();
    println!(
        "{}, {allocated} blocks of memory by callbacks",
        counted::summary()
    );
    println!("{pools} pools, {sets} sets and {blocks} blocks of memory are left");
    println!("{messages} messages of the validation layer");
    let is_fine = (pools, sets, blocks, messages) == (0, 0, 0, 0);
    ExitCode::from(if is_fine { 0 } else { 1 })
}
