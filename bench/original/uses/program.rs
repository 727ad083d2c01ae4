// A random program over an allocator with the interface of gpu-descriptor 0.3.2: a seed gives the same one each time.
// This file is compiled over `under_test`, once for the original and once for the new crate.

use crate::device::{Device, Event, Kind, Refusal};
use crate::random::{COUNTS, FEW, LIMITS, ODDS, Random};
use std::cell::RefCell;
use under_test::*;

/// A set of the device. `free` sees by it whether one list has marked and plain sets.
#[derive(Debug)]
struct RawSet {
    number: u64,
    is_marked: bool,
}

include!("../../traces/kinds.rs");

impl DescriptorDevice<Kind, u64, RawSet> for RefCell<Device> {
    unsafe fn create_descriptor_pool(
        &self,
        counts: &DescriptorTotalCount,
        max_sets: u32,
        flags: DescriptorPoolCreateFlags,
    ) -> Result<u64, CreatePoolError> {
        let mut device = self.borrow_mut();
        let created = device.create(to_array(counts), max_sets, flags.bits());
        created.map_err(|refusal| match refusal {
            Refusal::Device => CreatePoolError::OutOfDeviceMemory,
            Refusal::Host => CreatePoolError::OutOfHostMemory,
            _ => CreatePoolError::Fragmentation,
        })
    }

    unsafe fn destroy_descriptor_pool(&self, pool: u64) {
        self.borrow_mut().destroy(pool);
    }

    unsafe fn alloc_descriptor_sets<'a>(
        &self,
        pool: &mut u64,
        mut layouts: impl ExactSizeIterator<Item = &'a Kind>,
        sets: &mut impl Extend<RawSet>,
    ) -> Result<(), DeviceAllocationError> {
        let count = layouts.len();
        let kind = layouts.next().expect("there is a layout");
        assert_eq!(layouts.count(), count - 1);
        let given = self.borrow_mut().allocate(*pool, kind, count);
        let given = given.map_err(|refusal| match refusal {
            Refusal::Device => DeviceAllocationError::OutOfDeviceMemory,
            Refusal::Host => DeviceAllocationError::OutOfHostMemory,
            Refusal::Full => DeviceAllocationError::OutOfPoolMemory,
            _ => DeviceAllocationError::FragmentedPool,
        })?;
        let is_marked = kind.is_marked;
        sets.extend(given.map(|number| RawSet { number, is_marked }));
        Ok(())
    }

    unsafe fn dealloc_descriptor_sets(&self, pool: &mut u64, sets: impl Iterator<Item = RawSet>) {
        self.borrow_mut().free(*pool, sets.map(|set| set.number));
    }
}

struct Program {
    random: Random,
    allocator: DescriptorAllocator<u64, RawSet>,
    device: RefCell<Device>,
    layouts: Vec<Kind>,

    /// The held sets, by the place of their layout.
    held: Vec<Vec<DescriptorSet<RawSet>>>,
}

/// The transcript of a program.
pub fn run(seed: u64) -> Vec<Event> {
    let mut random = Random::new(seed);
    let limit = random.one_of(&LIMITS);
    let odds = random.one_of(&ODDS);
    let mut program = Program {
        allocator: DescriptorAllocator::new(limit),
        device: RefCell::new(Device::new(DEPARTS.then_some(limit), odds, seed)),
        random,
        layouts: Vec::new(),
        held: Vec::new(),
    };
    program.layout();
    for _ in 0..10 + program.random.below(50) {
        program.step();
    }
    program.finish()
}

impl Program {
    fn step(&mut self) {
        match self.random.below(20) {
            0 => self.layout(),
            1..=9 => self.take(),
            10..=16 => self.free(),
            _ => self.clean_up(),
        }
    }

    fn layout(&mut self) {
        let is_marked = self.random.below(3) == 0;
        let most = if is_marked { FEW } else { COUNTS.len() };
        let mut counts = [0; 14];
        counts[self.random.below(14)] = self.random.one_of(&COUNTS[..most]);
        counts[self.random.below(14)] = self.random.one_of(&COUNTS[..FEW]);
        self.layouts.push(Kind { counts, is_marked });
        self.held.push(Vec::new());
    }

    /// Takes sets, none where they are refused, and notes what was returned.
    fn take(&mut self) {
        let place = self.random.below(self.layouts.len());
        let most = self.random.one_of(&[2, 10, 70, 700]);
        let count = self.random.below(most) as u32;
        let kind = self.layouts[place];
        let mut flags = DescriptorSetLayoutCreateFlags::empty();
        flags.set(DescriptorSetLayoutCreateFlags::UPDATE_AFTER_BIND, kind.is_marked);
        let counts = total_count(&kind.counts);
        // The device is the same in all calls, and the layout has these flags and counts.
        let outcome = unsafe { self.allocator.allocate(&self.device, &kind, flags, &counts, count) };
        let event = match outcome {
            Ok(sets) => {
                let numbers = sets.iter().map(|set| set.raw().number).collect();
                self.held[place].extend(sets);
                Event::Sets(numbers)
            }
            Err(error) => Event::Refused(error.to_string()),
        };
        self.device.get_mut().note(event);
    }

    /// Gives back sets of one layout, and now and then of a second one.
    fn free(&mut self) {
        let mut sets = self.some_sets();
        if self.random.below(8) == 0 {
            sets.extend(self.some_sets());
        }
        if self.random.below(3) == 0 {
            for place in (1..sets.len()).rev() {
                sets.swap(place, self.random.below(place + 1));
            }
        }
        self.give_back(sets);
    }

    /// A stretch of the sets of one layout, which are no longer held.
    fn some_sets(&mut self) -> Vec<DescriptorSet<RawSet>> {
        let place = self.random.below(self.layouts.len());
        let held = &mut self.held[place];
        let first = self.random.below(held.len() + 1);
        let last = first + self.random.below(held.len() - first + 1);
        held.drain(first..last).collect()
    }

    fn give_back(&mut self, sets: Vec<DescriptorSet<RawSet>>) {
        let marked = sets.iter().filter(|set| set.raw().is_marked).count();
        if DEPARTS && 0 < marked && marked < sets.len() {
            let why = "marked and plain sets go back in one call";
            self.device.get_mut().depart(why);
        }
        // The sets are of this allocator, and each goes back once.
        unsafe { self.allocator.free(&self.device, sets) }
    }

    /// Destroys empty pools. They are noted in order, as the original goes by its layouts in the order of a hash map.
    fn clean_up(&mut self) {
        let first = self.device.get_mut().transcript.len();
        // The device is the same in all calls.
        unsafe { self.allocator.cleanup(&self.device) };
        self.device.get_mut().transcript[first..].sort();
    }

    /// Frees all, cleans up, and returns the transcript.
    fn finish(mut self) -> Vec<Event> {
        self.device.get_mut().odds = 0;
        for sets in std::mem::take(&mut self.held) {
            self.give_back(sets);
        }
        self.clean_up();
        std::mem::take(&mut self.device.get_mut().transcript)
    }
}
