//! The numbers of a `SetManager` compared with those that the device counts, and their JSON, byte by
//! byte. The expected JSON is worked out by hand from the rule for the size of a pool.

mod gpu;
mod refuses;

use gpu::{Fault, Gpu, REASONS, Random, Set, layout};
use gpu_descriptor::manager::{LayoutHandle, SetManager};
use gpu_descriptor::*;
use refuses::{calls, counted};
use std::collections::HashMap;
use std::fmt;

include!("numbers/device.rs");

/// One of the next calls is refused.
fn refuse_soon(device: &Gpu, random: &mut Random) {
    device.faulty.set(device.calls.get() + random.below(6));
    let reason = random.below(REASONS as u64) as usize;
    device.fault.set(Fault::Refuses(reason));
}

fn check_pools(device: &Gpu, it: &Statistics) {
    assert_eq!([it.pools, it.pool_sets, it.pool_descriptors], device.sums());
    let peak = [it.peak_pools, it.peak_pool_sets, it.peak_pool_descriptors];
    assert_eq!(peak, device.peak());
}

/// Reads numbers, without memory.
fn without_memory<R>(read: impl FnOnce() -> R) -> R {
    let before = calls();
    let answer = counted(read);
    assert_eq!(calls(), before, "no memory is taken");
    answer
}

fn add<D: DescriptorDevice<u32, usize, Set>>(
    it: &mut SetManager<u32, usize, Set, D>,
    layout: SetLayout<u32>,
) -> LayoutHandle {
    // SAFETY: the device knows no layouts.
    unsafe { it.add_layout(layout) }.unwrap()
}

#[test]
fn numbers_of_a_set_manager() {
    let device = Gpu::new();
    let mut it = SetManager::new(&device, 10_000);
    let layouts = [0, 1, 2].map(|number| add(&mut it, layout(number)));
    let (mut random, mut held, mut refused) = (Random(1), Vec::new(), 0);
    for frame in 1..=2_000 {
        refuse_soon(&device, &mut random);
        it.begin_frame().unwrap();
        let number = random.below(3) as usize;
        let most = [70, 3, 90][number];
        match it.allocate_many(layouts[number], 1 + random.below(most) as u32) {
            Ok(mut sets) => held.append(&mut sets),
            Err(_) => refused += 1,
        }
        let drawn = it.allocate_for_frame(layouts[0]).is_ok();
        let gone = held.split_off(random.below(held.len() as u64 + 1) as usize);
        it.free_after(&gone, frame).unwrap();
        let counts = it.counts();
        let numbers = without_memory(|| it.statistics());
        check_pools(&device, &numbers);
        assert_eq!(
            (numbers.waiting, numbers.kept),
            (counts.waiting, counts.kept)
        );
        assert_eq!(numbers.waiting, (gone.len() + usize::from(drawn)) as u64);
        assert_eq!(numbers.outstanding, held.len() as u64 + numbers.waiting);
        assert_eq!(numbers.layouts, 3);
        assert_eq!(
            numbers.update_after_bind_capacity,
            it.update_after_bind_capacity()
        );
        it.end_frame();
        // SAFETY: no frame is in flight.
        unsafe { it.frame_done(frame) };
        if frame % 50 == 0 {
            held.clear();
            // SAFETY: as above.
            unsafe { it.free_all() };
            it.cleanup();
        }
        check_pools(&device, &it.statistics());
    }
    // A refusal while sets are kept is tried again.
    assert!(refused > 5);
    let peak = it.statistics();
    assert!(peak.peak_pools > 3 && peak.peak_pool_descriptors > u64::from(u32::MAX));
    assert_eq!(
        (peak.pools, peak.pool_sets, peak.pool_descriptors),
        (0, 0, 0)
    );
    // SAFETY: as above.
    unsafe { it.shutdown() };
}

fn of(kept: u64, pools: u64, used: u64, free: u64) -> [u64; 4] {
    [kept, pools, used, free]
}

#[test]
fn numbers_of_layouts() {
    let device = Gpu::new();
    let (mut it, mut other) = (
        SetManager::new(&device, 10_000),
        SetManager::new(&device, 10_000),
    );
    let handles = [0, 0, 2].map(|number| add(&mut it, layout(number)));
    let foreign = add(&mut other, layout(0));
    let read = |it: &SetManager<u32, usize, Set, &Gpu>, at: usize| {
        let numbers = without_memory(|| it.layout_statistics(handles[at])).unwrap();
        of(
            numbers.kept,
            numbers.pools,
            numbers.pool_sets_used,
            numbers.pool_sets_free,
        )
    };
    let sets = it.allocate_many(handles[0], 70).unwrap();
    // SAFETY: no frame is in flight.
    unsafe { it.free(&sets[..3]) }.unwrap();
    // The first two layouts share a pool of 128 sets.
    assert_eq!(read(&it, 0), of(3, 1, 70, 58));
    assert_eq!(read(&it, 1), of(0, 1, 70, 58));
    assert_eq!(read(&it, 2), of(0, 0, 0, 0));
    let more = it.allocate_many(handles[1], 60).unwrap();
    assert_eq!(read(&it, 0), of(3, 2, 130, 126));
    // SAFETY: as above.
    unsafe { it.free(&more) }.unwrap();
    assert_eq!(it.statistics().layouts, 3);
    it.remove_layout(handles[0]).unwrap();
    assert_eq!(it.layout_statistics(handles[0]), None);
    assert_eq!(it.layout_statistics(foreign), None);
    assert_eq!(
        (it.statistics().layouts, other.statistics().layouts),
        (2, 1)
    );
    // SAFETY: as above.
    unsafe { it.free(&sets[3..]) }.unwrap();
    // It has the place of the removed one.
    let again = add(&mut it, layout(1));
    assert_eq!(it.statistics().layouts, 3);
    it.remove_layout(handles[2]).unwrap();
    it.remove_layout(again).unwrap();
    assert_eq!(it.statistics().layouts, 1);
    // SAFETY: as above.
    unsafe { it.shutdown() };
    unsafe { other.shutdown() };
}

/// What a report of leaks reads: each layout with its live sets. Two layouts share pools, and are one row.
#[test]
fn lost_sets_show_in_their_layouts() {
    let device = Gpu::new();
    let mut it = SetManager::new(&device, 10_000);
    let handles = [0, 2, 1, 0].map(|number| add(&mut it, layout(number)));
    let removed = add(&mut it, layout(1));
    for (handle, lost) in [(0, 0), (1, 3), (3, 2)] {
        let sets = it.allocate_many(handles[handle], 5).unwrap();
        // SAFETY: no frame is in flight.
        unsafe { it.free(&sets[lost..]) }.unwrap();
    }
    // One of those waits.
    let waiting = it.allocate(handles[1]).unwrap();
    it.free_after(&[waiting], 0).unwrap();
    it.remove_layout(removed).unwrap();
    let mut rows = HashMap::new();
    without_memory(|| it.layouts().count());
    for handle in it.layouts() {
        let numbers = it.layout_statistics(handle).unwrap();
        let of = it.layout(handle).unwrap();
        let row = rows.entry((of.counts.to_array(), of.flags.bits()));
        let row = row.or_insert((numbers.pool_sets_used, Vec::new()));
        row.0 -= numbers.kept;
        row.1.push(of.layout);
    }
    let mut rows: Vec<_> = rows.into_values().collect();
    rows.sort();
    assert_eq!(rows, [(0, vec![1]), (2, vec![0, 0]), (4, vec![2])]);
    assert_eq!(it.outstanding(), 6);
    // SAFETY: as above.
    unsafe { it.shutdown() };
}

/// A layout of all kinds: 105 descriptors, and so 6,720 of 64 sets.
fn all_kinds() -> SetLayout<u32> {
    let mut counts = DescriptorTotalCount::default();
    for (at, kind) in [
        &mut counts.sampler,
        &mut counts.combined_image_sampler,
        &mut counts.sampled_image,
        &mut counts.storage_image,
        &mut counts.uniform_texel_buffer,
        &mut counts.storage_texel_buffer,
        &mut counts.uniform_buffer,
        &mut counts.storage_buffer,
        &mut counts.uniform_buffer_dynamic,
        &mut counts.storage_buffer_dynamic,
        &mut counts.input_attachment,
        &mut counts.acceleration_structure,
        &mut counts.inline_uniform_block_bytes,
        &mut counts.inline_uniform_block_bindings,
    ]
    .into_iter()
    .enumerate()
    {
        *kind = at as u32 + 1;
    }
    SetLayout {
        layout: 9,
        counts,
        flags: DescriptorSetLayoutCreateFlags::empty(),
    }
}

/// More pools and layouts than a byte counts.
#[test]
fn numbers_of_many_pools_and_layouts() {
    let gpu = Gpu::new();
    let mut it = SetManager::new(&gpu, u32::MAX);
    let handles: Vec<_> = (0..300).map(|_| add(&mut it, layout(1))).collect();
    // Two sets a pool.
    let sets = it.allocate_many(handles[7], 600).unwrap();
    let numbers = it.layout_statistics(handles[7]).unwrap();
    assert_eq!((numbers.pools, numbers.pool_sets_used), (300, 600));
    let all = it.statistics();
    assert_eq!((all.layouts, all.pools, all.pool_sets), (300, 300, 600));
    let mut text = String::new();
    it.write_statistics(&mut text, |_| 7).unwrap();
    assert_eq!(text.matches("\"handle\": ").count(), 300);
    // SAFETY: no frame is in flight.
    unsafe { it.free(&sets) }.unwrap();
    unsafe { it.shutdown() };
    assert!(gpu.is_empty());
}

#[test]
fn numbers_of_a_large_pool() {
    const SETS: u32 = 100_000; // more than 16 bits count
    let mut it = SetManager::new(Device::default(), 0);
    it.set_max_pool_descriptors(None);
    let layout = SetLayout {
        layout: 0_u64,
        counts: layout(0).counts,
        flags: DescriptorSetLayoutCreateFlags::empty(),
    };
    // SAFETY: the device knows no layouts.
    let layout = unsafe { it.add_layout(layout) }.unwrap();
    let sets = it.allocate_many(layout, SETS).unwrap();
    let (all, numbers) = (it.statistics(), it.layout_statistics(layout).unwrap());
    assert_eq!((all.pools, numbers.pools), (1, 1));
    assert_eq!(numbers.pool_sets_used, u64::from(SETS));
    assert_eq!(
        all.pool_sets,
        numbers.pool_sets_used + numbers.pool_sets_free
    );
    assert_eq!(all.outstanding, sets.len() as u64);
    // SAFETY: no frame is in flight.
    unsafe { it.shutdown() };
}

/// What `gd_write_statistics` writes of the same calls.
const ALL: &str = "{\"version\": \"0.1.0\", \"outstanding\": 6, \"waiting\": 2, \"kept\": 3, \"pools\": 1, \
    \"pool_sets\": 64, \"pool_descriptors\": 6720, \"peak_pools\": 1, \"peak_pool_sets\": 64, \
    \"peak_pool_descriptors\": 6720, \"update_after_bind_capacity\": 0, \
    \"update_after_bind_limit\": 4294967295, \"max_pool_descriptors\": 65536, \"layouts\": [\
    {\"handle\": \"0xfffffffffffffff9\", \"update_after_bind\": false, \"kept\": 3, \"pools\": 1, \
    \"pool_sets_used\": 9, \"pool_sets_free\": 55, \"descriptors\": \
    {\"sampler\": 1, \"combined_image_sampler\": 2, \"sampled_image\": 3, \"storage_image\": 4, \
    \"uniform_texel_buffer\": 5, \"storage_texel_buffer\": 6, \"uniform_buffer\": 7, \"storage_buffer\": 8, \
    \"uniform_buffer_dynamic\": 9, \"storage_buffer_dynamic\": 10, \"input_attachment\": 11, \
    \"acceleration_structure\": 12, \"inline_uniform_block_bytes\": 13, \
    \"inline_uniform_block_bindings\": 14}}]}";

const NONE: &str = "{\"version\": \"0.1.0\", \"outstanding\": 0, \"waiting\": 0, \"kept\": 0, \"pools\": 0, \
    \"pool_sets\": 0, \"pool_descriptors\": 0, \"peak_pools\": 1, \"peak_pool_sets\": 64, \
    \"peak_pool_descriptors\": 6720, \"update_after_bind_capacity\": 0, \
    \"update_after_bind_limit\": 4294967295, \"max_pool_descriptors\": null, \"layouts\": [\
    {\"handle\": \"0xfffffffffffffff2\", \"update_after_bind\": true, \"kept\": 0, \"pools\": 0, \
    \"pool_sets_used\": 0, \"pool_sets_free\": 0, \"descriptors\": {\"sampler\": 5}}, \
    {\"handle\": \"0xfffffffffffffff0\", \"update_after_bind\": false, \"kept\": 0, \"pools\": 0, \
    \"pool_sets_used\": 0, \"pool_sets_free\": 0, \"descriptors\": {\"sampler\": 1}}]}";

/// A buffer that fails at one call.
struct Fails<'a> {
    text: &'a mut String,
    calls: usize,
    at: usize,
}

impl fmt::Write for Fails<'_> {
    fn write_str(&mut self, part: &str) -> fmt::Result {
        self.calls += 1;
        if self.calls > self.at {
            return Err(fmt::Error);
        }
        self.text.push_str(part);
        Ok(())
    }
}

/// The JSON is this, and the first error of the writer's ends it.
fn expect_text(wanted: &str, write: impl Fn(&mut Fails) -> fmt::Result) {
    let mut text = String::with_capacity(wanted.len());
    for at in 0.. {
        text.clear();
        let (text, calls) = (&mut text, 0);
        let mut to = Fails { text, calls, at };
        if without_memory(|| write(&mut to)).is_ok() {
            assert_eq!(to.text, wanted);
            assert!(at > 20);
            return;
        }
        assert_eq!(to.calls, at + 1, "it ends at the first error");
        assert!(wanted.starts_with(to.text.as_str()));
    }
}

#[test]
fn json_of_a_set_manager() {
    let gpu = Gpu::new();
    let mut it = SetManager::new(&gpu, u32::MAX);
    let handle_of = |layout: &u32| u64::MAX - 15 + u64::from(*layout);
    let all = add(&mut it, all_kinds());
    let sets = it.allocate_many(all, 9).unwrap();
    // SAFETY: no frame is in flight.
    unsafe { it.free(&sets[..3]) }.unwrap();
    it.free_after(&sets[3..5], 0).unwrap();
    expect_text(ALL, |text| it.write_statistics(text, handle_of));
    // SAFETY: as above.
    unsafe { it.free_all() };
    it.cleanup();
    it.set_max_pool_descriptors(None);
    it.remove_layout(all).unwrap();
    let _ = [2, 0].map(|number| add(&mut it, layout(number)));
    expect_text(NONE, |text| it.write_statistics(text, handle_of));
    // SAFETY: as above.
    unsafe { it.shutdown() };
}
