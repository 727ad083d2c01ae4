//! A device that takes no memory once it is made, refuses or panics at a call, and checks that no set is
//! freed that a frame in flight reads.
#![allow(dead_code)]

use gpu_descriptor::*;
use std::cell::{Cell, RefCell};
use std::collections::VecDeque;

/// A raw set is its pool and its place there.
pub type Set = (usize, usize);

/// How many pools there are, their sets and their descriptors.
pub type Sums = [u64; 3];

/// How many pools there may be at a time, and how many sets in one.
const POOLS: usize = 400;
const PLACES: usize = 600;

/// What the device does at the call with the fault.
#[derive(Clone, Copy, Debug, PartialEq, Eq)]
pub enum Fault {
    /// A refusal, by the number of its reason. A new pool has three reasons, and sets have four.
    Refuses(usize),
    Panics,
}

/// How many reasons there are to refuse sets. The last two refuse a pool as fragmented.
pub const REASONS: usize = 4;

/// What the device panics with, at a call for pools and sets and at a release.
pub const AS_TOLD: &str = "as it was told";

pub struct Gpu {
    /// Which places of each pool have a set, how many do in all, and which pools exist.
    live: RefCell<Vec<Vec<bool>>>,
    live_sets: Cell<usize>,
    exists: RefCell<Vec<bool>>,

    /// The pools that were destroyed last, as many as there may be.
    destroyed: RefCell<VecDeque<usize>>,

    /// For how many sets the pools were created that came since `created`, and their descriptors; as many as
    /// there may be.
    created: RefCell<Vec<(u32, u64)>>,

    /// The same of each pool, and the peak of pools, and of their sets and descriptors.
    sizes: RefCell<Vec<(u32, u64)>>,
    peak: Cell<Sums>,

    /// Which sets which frame reads.
    reads: RefCell<Vec<(u64, Set)>>,

    /// How many calls for pools and sets there were, the one with the fault, and the fault.
    pub calls: Cell<u64>,
    pub faulty: Cell<u64>,
    pub fault: Cell<Fault>,

    /// Whether a release panics, and how many there were.
    pub panics_at_release: Cell<bool>,
    pub releases: Cell<u64>,
}

impl Gpu {
    pub fn new() -> Self {
        Gpu {
            live: RefCell::new(vec![vec![false; PLACES]; POOLS]),
            live_sets: Cell::new(0),
            exists: RefCell::new(vec![false; POOLS]),
            destroyed: RefCell::new(VecDeque::with_capacity(POOLS)),
            created: RefCell::new(Vec::with_capacity(POOLS)),
            sizes: RefCell::new(vec![(0, 0); POOLS]),
            peak: Cell::default(),
            reads: RefCell::default(),
            calls: Cell::new(0),
            faulty: Cell::new(u64::MAX),
            fault: Cell::new(Fault::Panics),
            panics_at_release: Cell::new(false),
            releases: Cell::new(0),
        }
    }

    /// The call with this number has the fault.
    pub fn with_fault(faulty: u64, fault: Fault) -> Self {
        let gpu = Gpu::new();
        gpu.faulty.set(faulty);
        gpu.fault.set(fault);
        gpu
    }

    pub fn is_live(&self, set: Set) -> bool {
        self.live.borrow()[set.0][set.1]
    }

    /// Whether a frame in flight reads the set.
    pub fn is_read(&self, set: Set) -> bool {
        self.reads.borrow().iter().any(|it| it.1 == set)
    }

    pub fn live_sets(&self) -> usize {
        self.live_sets.get()
    }

    pub fn pools(&self) -> usize {
        self.exists.borrow().iter().filter(|it| **it).count()
    }

    /// The pools that were destroyed last, in their order.
    pub fn last_destroyed(&self, count: usize) -> Vec<usize> {
        let destroyed = self.destroyed.borrow();
        destroyed
            .range(destroyed.len() - count..)
            .copied()
            .collect()
    }

    /// How many pools there are, for how many sets, and with how many descriptors.
    pub fn sums(&self) -> Sums {
        let (exists, sizes) = (self.exists.borrow(), self.sizes.borrow());
        let pools = exists.iter().zip(sizes.iter()).filter(|it| *it.0);
        pools.fold([0; 3], |[pools, sets, descriptors], (_, of)| {
            [pools + 1, sets + u64::from(of.0), descriptors + of.1]
        })
    }

    /// The peak of each.
    pub fn peak(&self) -> Sums {
        self.peak.get()
    }

    /// The pools that came since the last call: for how many sets, and their descriptors.
    pub fn created(&self) -> Vec<(u32, u64)> {
        self.created.borrow_mut().drain(..).collect()
    }

    pub fn is_empty(&self) -> bool {
        self.pools() == 0 && self.live_sets() == 0
    }

    /// A frame is submitted that reads these sets.
    pub fn submit(&self, frame: u64, sets: impl Iterator<Item = Set>) {
        self.reads.borrow_mut().extend(sets.map(|set| (frame, set)));
    }

    /// Waits for a frame.
    pub fn wait(&self, frame: u64) {
        self.reads.borrow_mut().retain(|it| it.0 > frame);
    }

    /// The reason of a refusal, if this call has the fault.
    fn reason(&self) -> Option<usize> {
        if self.calls.replace(self.calls.get() + 1) != self.faulty.get() {
            return None;
        }
        match self.fault.get() {
            Fault::Refuses(reason) => Some(reason),
            Fault::Panics => panic!("{AS_TOLD}"),
        }
    }
}

impl DescriptorDevice<u32, usize, Set> for Gpu {
    unsafe fn create_descriptor_pool(
        &self,
        counts: &DescriptorTotalCount,
        max_sets: u32,
        _: DescriptorPoolCreateFlags,
    ) -> Result<usize, CreatePoolError> {
        match self.reason() {
            None => {}
            Some(0) => return Err(CreatePoolError::OutOfDeviceMemory),
            Some(1) => return Err(CreatePoolError::OutOfHostMemory),
            Some(_) => return Err(CreatePoolError::Fragmentation),
        }
        assert!(max_sets as usize <= PLACES);
        let mut exists = self.exists.borrow_mut();
        let pool = exists.iter().position(|it| !it).unwrap();
        exists[pool] = true;
        drop(exists);
        let size = (max_sets, counts.total_u64());
        self.sizes.borrow_mut()[pool] = size;
        let (now, peak) = (self.sums(), self.peak.get());
        self.peak.set([0, 1, 2].map(|at| peak[at].max(now[at])));
        let mut created = self.created.borrow_mut();
        if created.len() < created.capacity() {
            created.push(size);
        }
        Ok(pool)
    }

    unsafe fn destroy_descriptor_pool(&self, pool: usize) {
        assert!(self.exists.borrow_mut()[pool], "a pool is destroyed once");
        self.exists.borrow_mut()[pool] = false;
        let mut destroyed = self.destroyed.borrow_mut();
        if destroyed.len() == POOLS {
            destroyed.pop_front();
        }
        destroyed.push_back(pool);
        let live = self.live.borrow();
        assert!(!live[pool].contains(&true), "it has no sets");
    }

    unsafe fn alloc_descriptor_sets<'a>(
        &self,
        pool: &mut usize,
        layouts: impl ExactSizeIterator<Item = &'a u32>,
        sets: &mut impl Extend<Set>,
    ) -> Result<(), DeviceAllocationError> {
        match self.reason() {
            None => {}
            Some(0) => return Err(DeviceAllocationError::OutOfDeviceMemory),
            Some(1) => return Err(DeviceAllocationError::OutOfHostMemory),
            Some(2) => return Err(DeviceAllocationError::FragmentedPool),
            Some(_) => return Err(DeviceAllocationError::OutOfPoolMemory),
        }
        self.live_sets.set(self.live_sets() + layouts.len());
        let mut live = self.live.borrow_mut();
        let places = &mut live[*pool];
        sets.extend(layouts.map(|_| {
            let place = places.iter().position(|it| !it).unwrap();
            places[place] = true;
            (*pool, place)
        }));
        Ok(())
    }

    unsafe fn dealloc_descriptor_sets(&self, pool: &mut usize, sets: impl Iterator<Item = Set>) {
        self.releases.set(self.releases.get() + 1);
        assert!(!self.panics_at_release.get(), "{AS_TOLD}");
        for set in sets {
            assert_eq!(set.0, *pool, "it goes to its pool");
            assert!(self.is_live(set), "it goes back once");
            assert!(!self.is_read(set), "a frame in flight reads it");
            self.live.borrow_mut()[set.0][set.1] = false;
            self.live_sets.set(self.live_sets() - 1);
        }
    }
}

/// A pool holds two sets with this number of samplers.
pub const TWO_A_POOL: u32 = u32::MAX / 2;

/// Three layouts: a plain one, one of which two sets go to a pool, and a marked one.
pub fn layout(number: u32) -> SetLayout<u32> {
    let mut flags = DescriptorSetLayoutCreateFlags::empty();
    flags.set(
        DescriptorSetLayoutCreateFlags::UPDATE_AFTER_BIND,
        number == 2,
    );
    let counts = DescriptorTotalCount {
        sampler: [1, TWO_A_POOL, 5][number as usize],
        ..Default::default()
    };
    SetLayout {
        layout: number,
        counts,
        flags,
    }
}

/// Numbers by chance.
pub struct Random(pub u64);

impl Random {
    pub fn below(&mut self, end: u64) -> u64 {
        self.0 = self
            .0
            .wrapping_mul(6364136223846793005)
            .wrapping_add(1442695040888963407);
        (self.0 >> 33) % end
    }
}
