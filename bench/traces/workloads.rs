//! The workloads of `bench/compare ALLOCATOR`, by an allocator with the original's interface.
//!
//! Arguments: a workload and a number N. The line that it writes is the same for both allocators.

#[allow(dead_code)]
mod device;

use device::CountingDevice;
use gpu_descriptor::{
    AllocationError, DescriptorAllocator, DescriptorSet, DescriptorSetLayoutCreateFlags, DescriptorTotalCount,
};

/// How many sets a frame takes.
const FRAME: u32 = 64;

/// How many times the sets of a request are taken and freed.
const ROUNDS: u32 = 100;

/// Sets of this many samplers go two to a pool.
const TWO_A_POOL: u32 = u32::MAX / 2;

/// How many keys, or full pools, stay in `ends` and `full`.
const MANY: u32 = 2000;

type Sets = Vec<DescriptorSet<u64>>;

struct Layout {
    counts: DescriptorTotalCount,
    flags: DescriptorSetLayoutCreateFlags,
}

fn layout(samplers: u32, uniform_buffers: u32, is_marked: bool) -> Layout {
    let mut flags = DescriptorSetLayoutCreateFlags::empty();
    flags.set(DescriptorSetLayoutCreateFlags::UPDATE_AFTER_BIND, is_marked);
    let counts = DescriptorTotalCount { sampler: samplers, uniform_buffer: uniform_buffers, ..Default::default() };
    Layout { counts, flags }
}

/// An allocator under the greatest limit, and its device.
struct Bench {
    allocator: DescriptorAllocator<u64, u64>,
    device: CountingDevice,
}

impl Bench {
    fn take(&mut self, layout: &Layout, count: u32) -> Result<Sets, AllocationError> {
        // SAFETY: the device is the same in all calls, and the layout has these counts.
        unsafe { self.allocator.allocate(&self.device, &(), layout.flags, &layout.counts, count) }
    }

    fn give_back(&mut self, sets: Sets) {
        // SAFETY: the sets came from this allocator, and each goes back once.
        unsafe { self.allocator.free(&self.device, sets) }
    }
}

/// Takes so many sets, and gives them back.
fn round(bench: &mut Bench, layout: &Layout, count: u32) -> Result<(), AllocationError> {
    let sets = bench.take(layout, count)?;
    bench.give_back(sets);
    Ok(())
}

/// So many rounds of so many sets. It returns how many sets these are.
fn rounds(bench: &mut Bench, is_marked: bool, count: u32, times: u32) -> u64 {
    let one = layout(1, 0, is_marked);
    for _ in 0..times {
        round(bench, &one, count).unwrap();
    }
    u64::from(count) * u64::from(times)
}

fn take_each(bench: &mut Bench, layout: &Layout, count: u32, times: u32, held: &mut Sets) {
    for _ in 0..times {
        held.append(&mut bench.take(layout, count).unwrap());
    }
}

fn shuffled(bench: &mut Bench, n: u32) {
    let one = layout(1, 0, false);
    let mut held = Vec::new();
    take_each(bench, &one, 1, n, &mut held);
    shuffle(&mut held);
    bench.give_back(held);
}

/// Rounds of one set for 64 layouts in turn.
fn keys(bench: &mut Bench, n: u32) {
    let layouts: Vec<_> = (0..64).map(|i| layout(i + 1, 64 - i, false)).collect();
    for turn in 0..n {
        round(bench, &layouts[turn as usize % layouts.len()], 1).unwrap();
    }
}

/// A set of the first key and one of the last, while many keys have a live set.
fn ends(bench: &mut Bench, n: u32) {
    let layouts: Vec<_> = (0..MANY).map(|samplers| layout(samplers, 0, false)).collect();
    let mut held = Vec::new();
    layouts.iter().for_each(|it| take_each(bench, it, 1, 1, &mut held));
    for _ in 0..n {
        round(bench, &layouts[0], 1).unwrap();
        round(bench, &layouts[layouts.len() - 1], 1).unwrap();
    }
    bench.give_back(held);
}

/// Two sets of a key that has many full pools.
fn full(bench: &mut Bench, n: u32) {
    let layout = layout(TWO_A_POOL, 0, false);
    let held = bench.take(&layout, 2 * MANY).unwrap();
    (0..n).for_each(|_| round(bench, &layout, 2).unwrap());
    bench.give_back(held);
}

/// Each request needs nine pools, and the device has memory for eight: all go back.
fn rollback(bench: &mut Bench, n: u32) {
    let layout = layout(TWO_A_POOL, 0, false);
    for _ in 0..n {
        match round(bench, &layout, 18) {
            Err(AllocationError::OutOfDeviceMemory) => {}
            other => panic!("a request was to be refused for device memory: {other:?}"),
        }
    }
}

/// All sets of n pools go back in one call.
fn drained(bench: &mut Bench, n: u32) {
    let layout = layout(TWO_A_POOL, 0, false);
    round(bench, &layout, n.saturating_mul(2)).unwrap();
}

/// Shuffles sets, the same way each time.
fn shuffle<S>(held: &mut [S]) {
    let mut random: u64 = 1;
    for i in (1..held.len()).rev() {
        random = random.wrapping_mul(6364136223846793005).wrapping_add(1442695040888963407);
        held.swap(i, (random >> 33) as usize % (i + 1));
    }
}

fn main() {
    let words: Vec<String> = std::env::args().skip(1).collect();
    let [name, number] = &words[..] else {
        panic!("the arguments are a workload and a number");
    };
    let n: u32 = number.parse().expect("a number");
    let mut bench = Bench {
        allocator: DescriptorAllocator::new(u32::MAX),
        device: CountingDevice::new(if name == "rollback" { 8 } else { u64::MAX }),
    };
    let mut operations = u64::from(n);
    match name.as_str() {
        "single" => operations = rounds(&mut bench, false, 1, n),
        "frame" => operations = rounds(&mut bench, false, FRAME, n),
        "request" => operations = rounds(&mut bench, false, n, ROUNDS),
        "shuffled" => shuffled(&mut bench, n),
        "keys" => keys(&mut bench, n),
        "marked" => operations = rounds(&mut bench, true, 1, n),
        "rollback" => rollback(&mut bench, n),
        "drained" => drained(&mut bench, n),
        "ends" => ends(&mut bench, n),
        "full" => full(&mut bench, n),
        _ => panic!("no workload has this name"),
    }
    println!("{name} {n} {operations} operations, checksum {}", bench.device.sum());
}
