//! Plays a trace by one of the columns of `bench/compare --traces`: over the device that only counts, over a driver
//! with the feature `driver`, and over one that accounts for its pools with `memory`. A program has one of them
//! alone, as the columns are compiled otherwise in a program that has several. With the feature `original`
//! `gpu_descriptor` is gpu-descriptor 0.3.2, and its column is the only one.

mod by_allocator;
#[cfg(not(feature = "original"))]
mod by_c;
#[cfg(not(feature = "original"))]
mod by_lists;
#[cfg(not(feature = "original"))]
mod by_manager;
#[cfg(not(feature = "original"))]
mod by_pools;
#[allow(dead_code)]
mod device;
#[cfg(feature = "driver")]
mod driver;
#[allow(dead_code)]
mod gpu;
#[cfg(feature = "memory")]
mod measured;
mod play;
#[cfg(feature = "memory")]
mod worst;

#[cfg(all(feature = "driver", not(feature = "original")))]
use gpu_descriptor::vulkan;
use play::Asked;
#[cfg(all(feature = "driver", feature = "original"))]
use {gpu_descriptor::*, of_the_crate::vulkan};

/// The crate's device for Vulkan, over the original's types.
#[cfg(all(feature = "driver", feature = "original"))]
#[allow(dead_code, unused_imports)]
#[path = "../../rust/gpu-descriptor/src"]
mod of_the_crate {
    pub mod vulkan;
}
#[cfg(all(feature = "driver", feature = "original"))]
extern crate alloc as std_alloc;

/// The device's module has an alias of a set manager over it, which the original hasn't, and no column here uses.
#[cfg(all(feature = "driver", feature = "original"))]
mod manager {
    pub type SetManager<L, P, S, D> = (L, P, S, D);
}

#[cfg(feature = "original")]
fn play<G: gpu::Gpu>(gpu: G, _: &str, asked: &Asked) {
    play::run::<G, by_allocator::Allocator<G>>(gpu, asked)
}

#[cfg(not(feature = "original"))]
fn play<G: by_c::GpuOfC>(gpu: G, column: &str, asked: &Asked) {
    match column {
        "crate" => play::run::<G, by_allocator::Allocator<G>>(gpu, asked),
        "manager" => play::run::<G, by_manager::Keeping<G>>(gpu, asked),
        "C" => play::run::<G, by_c::Library<G>>(gpu, asked),
        "pools" => play::run::<G, by_pools::Pools<G>>(gpu, asked),
        "lists" => play::run::<G, by_lists::Lists<G>>(gpu, asked),
        _ => panic!("no column has this name"),
    }
}

#[cfg(feature = "driver")]
fn gpu(asked: &Asked) -> vulkan::Device {
    driver::open(asked.has("timed"))
}

#[cfg(feature = "memory")]
fn gpu(_: &Asked) -> measured::Measured {
    measured::Measured::new(u32::MAX)
}

#[cfg(not(any(feature = "driver", feature = "memory")))]
fn gpu(_: &Asked) -> device::CountingDevice {
    device::CountingDevice::new(u64::MAX)
}

fn main() {
    let words: Vec<String> = std::env::args().skip(1).collect();
    #[cfg(feature = "memory")]
    if words[1] == "worst" {
        return worst::play(&words[0], &words[2]);
    }
    let asked = Asked::read(&words[1..]);
    play(gpu(&asked), &words[0], &asked);
}
