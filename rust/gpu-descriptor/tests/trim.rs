//! `trim` and `trim_layout`: every pool without sets goes, or each of one key, wherever it stands, and all else
//! stays.

mod gpu;
mod refuses;

use gpu::{Gpu, Random, Set, layout};
use gpu_descriptor::*;
use refuses::with_refused;

type Allocator = DescriptorAllocator<usize, Set>;

fn take(allocator: &mut Allocator, gpu: &Gpu, number: u32, count: u32) -> Vec<DescriptorSet<Set>> {
    // SAFETY: each test has one device, and the layouts are what they are said to be.
    unsafe { allocator.allocate_for(gpu, &layout(number), count) }.unwrap()
}

fn free(allocator: &mut Allocator, gpu: &Gpu, sets: Vec<DescriptorSet<Set>>) {
    // SAFETY: as above.
    unsafe { allocator.free(gpu, sets) }
}

/// It takes no memory.
fn trim(allocator: &mut Allocator, gpu: &Gpu) {
    // SAFETY: as above.
    let ((), taken) = with_refused(0, || unsafe { allocator.trim(gpu) });
    assert_eq!(taken, 0);
}

/// It takes no memory.
fn trim_layout(allocator: &mut Allocator, gpu: &Gpu, number: u32) {
    let layout = layout(number);
    // SAFETY: as above.
    let ((), taken) = with_refused(0, || unsafe { allocator.trim_layout(gpu, &layout) });
    assert_eq!(taken, 0);
}

/// The pools of a layout, by the allocator's books.
fn pools(allocator: &Allocator, number: u32) -> Vec<PoolView> {
    let SetLayout { counts, flags, .. } = layout(number);
    let is_marked = !flags.is_empty();
    let count = allocator.pool_count(&counts, is_marked);
    let view = |place| allocator.pool(&counts, is_marked, place);
    assert_eq!(view(count), None);
    (0..count).map(|place| view(place).unwrap()).collect()
}

/// After a spike of sets one of the first pool stays. A trim leaves that pool alone.
#[test]
fn an_old_set_keeps_its_pool_alone() {
    let gpu = Gpu::new();
    let mut allocator = Allocator::new(10_000);
    let old = take(&mut allocator, &gpu, 0, 1);
    let mut spike = Vec::new();
    for _ in 0..20_000 {
        spike.append(&mut take(&mut allocator, &gpu, 0, 1));
    }
    free(&mut allocator, &gpu, spike);
    unsafe { allocator.cleanup(&gpu) };
    // For 64, 64, 128 and 256 sets, and then for 512 each.
    assert!(gpu.pools() > 40);
    trim(&mut allocator, &gpu);
    assert_eq!(gpu.pools(), 1);
    let left = PoolView {
        number: 0,
        allocated: 1,
        available: 63,
    };
    assert_eq!(pools(&allocator, 0), [left]);
    let more = take(&mut allocator, &gpu, 0, 63);
    assert_eq!(gpu.pools(), 1);
    free(&mut allocator, &gpu, old);
    free(&mut allocator, &gpu, more);
    assert_eq!(gpu.pools(), 1, "the last pool of a key stays at a free");
    trim(&mut allocator, &gpu);
    assert!(gpu.is_empty());
    assert_eq!(allocator.update_after_bind_capacity(), 0);
}

/// The layout that was asked for first is the first one.
#[test]
fn layouts_in_their_order_and_their_oldest_pools_first() {
    let gpu = Gpu::new();
    let mut allocator = Allocator::new(10_000);
    let (mut sets, mut expected) = (Vec::new(), [Vec::new(), Vec::new()]);
    for (number, count) in [(1, 2), (0, 64), (1, 4), (0, 100), (1, 2), (0, 200)] {
        let taken = take(&mut allocator, &gpu, number, count);
        expected[number as usize].extend(taken.iter().map(|set| set.raw().0));
        sets.extend(taken);
    }
    for pools in &mut expected {
        pools.dedup();
        assert!(pools.len() > 2);
    }
    let [of_0, of_1] = expected;
    let (stay, back) = sets
        .into_iter()
        .partition(|set| [of_0[0], of_1[0]].contains(&set.raw().0));
    free(&mut allocator, &gpu, back);
    trim(&mut allocator, &gpu);
    let expected = [&of_1[1..], &of_0[1..]].concat();
    assert_eq!(gpu.last_destroyed(expected.len()), expected);
    free(&mut allocator, &gpu, stay);
}

/// An allocator of three layouts, and its live sets.
struct Trial<'a> {
    gpu: &'a Gpu,
    allocator: Allocator,
    random: Random,
    out: Vec<DescriptorSet<Set>>,
}

impl Trial<'_> {
    /// Takes some sets, unless there are many pools, or the limit is nearly used up.
    fn take_some(&mut self) {
        let number = self.random.below(3) as usize;
        let most = [300, 8, 1][number];
        let count = 1 + self.random.below(most) as u32;
        let is_used_up = self.allocator.update_after_bind_capacity() >= 9_000;
        if self.gpu.pools() < 70 && (number < 2 || !is_used_up) {
            let mut taken = take(&mut self.allocator, self.gpu, number as u32, count);
            self.out.append(&mut taken);
        }
    }

    /// Frees a part of the sets, in their order or mixed. Often it is great, so that pools become empty.
    fn free_some(&mut self) {
        let part = 1 + self.random.below(20);
        let (mut back, mut stay) = (Vec::new(), Vec::new());
        for set in self.out.drain(..) {
            if self.random.below(20) < part {
                back.push(set);
            } else {
                stay.push(set);
            }
        }
        self.out = stay;
        for last in (1..back.len()).rev() {
            if part.is_multiple_of(2) {
                back.swap(last, self.random.below(last as u64 + 1) as usize);
            }
        }
        free(&mut self.allocator, self.gpu, back);
    }

    /// Afterwards each pool has a set, and the device has no other pools.
    fn trim(&mut self) {
        trim(&mut self.allocator, self.gpu);
        let pools: Vec<Vec<PoolView>> = (0..3).map(|at| pools(&self.allocator, at)).collect();
        for pools in &pools {
            assert!(pools.iter().all(|it| it.allocated > 0));
            assert!(pools.windows(2).all(|it| it[0].number < it[1].number));
        }
        assert_eq!(self.gpu.pools(), pools.concat().len());
    }

    /// Afterwards each pool of the layout has a set, and all other pools are as they were.
    fn trim_layout(&mut self) {
        let number = self.random.below(3) as u32;
        let mut expected: Vec<Vec<PoolView>> =
            (0..3).map(|at| pools(&self.allocator, at)).collect();
        expected[number as usize].retain(|it| it.allocated > 0);
        trim_layout(&mut self.allocator, self.gpu, number);
        for (at, pools_of) in expected.iter().enumerate() {
            assert_eq!(&pools(&self.allocator, at as u32), pools_of);
        }
        assert_eq!(self.gpu.pools(), expected.concat().len());
    }

    fn step(&mut self) {
        match self.random.below(9) {
            0..=3 => self.take_some(),
            4..=6 => self.free_some(),
            7 => self.trim_layout(),
            _ => self.trim(),
        }
        assert_eq!(self.gpu.live_sets(), self.out.len());
        assert!(self.out.iter().all(|set| self.gpu.is_live(*set.raw())));
    }
}

/// Sets of pools before and behind gaps go back to their pools: the device sees to it.
#[test]
fn in_any_order_with_other_calls() {
    for seed in 0..200 {
        let gpu = Gpu::new();
        let mut trial = Trial {
            gpu: &gpu,
            allocator: Allocator::new(10_000),
            random: Random(seed),
            out: Vec::new(),
        };
        for _ in 0..200 {
            trial.step();
        }
        free(&mut trial.allocator, &gpu, trial.out);
        trim(&mut trial.allocator, &gpu);
        assert!(gpu.is_empty());
        assert_eq!(trial.allocator.update_after_bind_capacity(), 0);
    }
}
