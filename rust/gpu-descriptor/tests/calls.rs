//! Which calls a device gets, in which order, and what a refusal of each costs, by hand: no clause says it.
//! Nor does one say that memory is there, for hundreds of keys and sets.

use AllocationError::{Fragmentation, OutOfDeviceMemory, OutOfHostMemory};
use Call::*;
use gpu_descriptor::frames::FrameManager;
use gpu_descriptor::*;
use std::cell::{Cell, RefCell};
use std::collections::VecDeque;

/// A raw set is its name and its pool. Names rise from 0 on.
type Raw = (u64, u64);

/// A call that was granted: the pool, and how many sets.
#[derive(Clone, Copy, Debug, PartialEq, Eq)]
enum Call {
    Create(u64),
    Alloc(u64, u32),
    Release(u64, u32),
    Destroy(u64),
}

/// What a device says to a call for a pool or sets.
#[derive(Clone, Copy, Debug)]
enum Answer {
    Granted,
    Device,
    Host,
    Fragmented,
    Full,
}

/// A device that answers by a script, and grants all after its end.
#[derive(Default)]
struct Scripted {
    script: RefCell<VecDeque<Answer>>,
    calls: RefCell<Vec<Call>>,

    /// How many pools and sets were ever granted: the next names.
    pools: Cell<u64>,
    sets: Cell<u64>,
}

impl Scripted {
    fn new(script: impl IntoIterator<Item = Answer>) -> Self {
        Scripted {
            script: RefCell::new(script.into_iter().collect()),
            ..Default::default()
        }
    }

    fn answer(&self) -> Answer {
        let word = self.script.borrow_mut().pop_front();
        word.unwrap_or(Answer::Granted)
    }

    fn note(&self, call: Call) {
        self.calls.borrow_mut().push(call);
    }

    fn count(&self, is: fn(&Call) -> bool) -> usize {
        self.calls.borrow().iter().filter(|call| is(call)).count()
    }

    /// How many pools are there.
    fn pools_left(&self) -> usize {
        self.count(|it| matches!(it, Create(_))) - self.count(|it| matches!(it, Destroy(_)))
    }
}

impl DescriptorDevice<u32, u64, Raw> for Scripted {
    unsafe fn create_descriptor_pool(
        &self,
        _: &DescriptorTotalCount,
        _: u32,
        _: DescriptorPoolCreateFlags,
    ) -> Result<u64, CreatePoolError> {
        match self.answer() {
            Answer::Granted => {}
            Answer::Device => return Err(CreatePoolError::OutOfDeviceMemory),
            Answer::Host => return Err(CreatePoolError::OutOfHostMemory),
            Answer::Fragmented | Answer::Full => return Err(CreatePoolError::Fragmentation),
        }
        let pool = self.pools.replace(self.pools.get() + 1);
        self.note(Create(pool));
        Ok(pool)
    }

    unsafe fn destroy_descriptor_pool(&self, pool: u64) {
        self.note(Destroy(pool));
    }

    unsafe fn alloc_descriptor_sets<'a>(
        &self,
        pool: &mut u64,
        layouts: impl ExactSizeIterator<Item = &'a u32>,
        sets: &mut impl Extend<Raw>,
    ) -> Result<(), DeviceAllocationError> {
        match self.answer() {
            Answer::Granted => {}
            Answer::Device => return Err(DeviceAllocationError::OutOfDeviceMemory),
            Answer::Host => return Err(DeviceAllocationError::OutOfHostMemory),
            Answer::Fragmented => return Err(DeviceAllocationError::FragmentedPool),
            Answer::Full => return Err(DeviceAllocationError::OutOfPoolMemory),
        }
        let first = self.sets.get();
        self.sets.set(first + layouts.len() as u64);
        self.note(Alloc(*pool, layouts.len() as u32));
        sets.extend((first..self.sets.get()).map(|name| (name, *pool)));
        Ok(())
    }

    unsafe fn dealloc_descriptor_sets(&self, pool: &mut u64, sets: impl Iterator<Item = Raw>) {
        let of_pool = sets.inspect(|set| assert_eq!(set.1, *pool, "it goes to its pool"));
        let count = of_pool.count() as u32;
        self.note(Release(*pool, count));
    }
}

/// Sets of so many samplers, marked or not.
#[derive(Clone, Copy)]
struct Layout {
    samplers: u32,
    is_marked: bool,
}

const fn plain(samplers: u32) -> Layout {
    Layout {
        samplers,
        is_marked: false,
    }
}

impl Layout {
    fn counts(self) -> DescriptorTotalCount {
        DescriptorTotalCount {
            sampler: self.samplers,
            ..Default::default()
        }
    }

    fn set_layout(self) -> SetLayout<u32> {
        let mut flags = DescriptorSetLayoutCreateFlags::empty();
        flags.set(
            DescriptorSetLayoutCreateFlags::UPDATE_AFTER_BIND,
            self.is_marked,
        );
        SetLayout {
            layout: self.samplers,
            counts: self.counts(),
            flags,
        }
    }
}

/// An allocator and its device. Sets are called by tickets, which rise from 0 on as the sets come.
struct Bench {
    device: Scripted,
    allocator: DescriptorAllocator<u64, Raw>,
    sets: Vec<Option<DescriptorSet<Raw>>>,
}

impl Bench {
    fn new(limit: u32, script: impl IntoIterator<Item = Answer>) -> Self {
        Bench {
            device: Scripted::new(script),
            allocator: DescriptorAllocator::new(limit),
            sets: Vec::new(),
        }
    }

    fn take(&mut self, layout: Layout, count: u32) -> Result<(), AllocationError> {
        let layout = layout.set_layout();
        // SAFETY: the device is that of all calls, and the layout is what it is said to be.
        let sets = unsafe { self.allocator.allocate_for(&self.device, &layout, count) }?;
        assert_eq!(sets.len(), count as usize);
        self.sets.extend(sets.into_iter().map(Some));
        Ok(())
    }

    /// Frees the sets of these tickets by one call, if all of them are live.
    fn free(&mut self, tickets: &[usize]) -> bool {
        if tickets.iter().any(|it| self.sets[*it].is_none()) {
            return false;
        }
        let sets = tickets.iter().map(|it| self.sets[*it].take().unwrap());
        // SAFETY: the device is that of all calls, and uses no set.
        unsafe { self.allocator.free(&self.device, sets) };
        true
    }

    fn free_each(&mut self, tickets: &[usize]) {
        for ticket in tickets {
            assert!(self.free(&[*ticket]));
        }
    }

    fn cleanup(&mut self) {
        // SAFETY: the device is that of all calls.
        unsafe { self.allocator.cleanup(&self.device) };
    }

    /// The tickets of the live sets.
    fn held(&self) -> Vec<usize> {
        let tickets = 0..self.sets.len();
        tickets.filter(|it| self.sets[*it].is_some()).collect()
    }

    /// The number, the allocated and the available of each pool of a layout.
    fn pools(&self, layout: Layout) -> Vec<(u64, u32, u32)> {
        let (counts, it) = (layout.counts(), &self.allocator);
        let pools = 0..it.pool_count(&counts, layout.is_marked);
        let view = |index| it.pool(&counts, layout.is_marked, index).unwrap();
        pools
            .map(view)
            .map(|pool| (pool.number, pool.allocated, pool.available))
            .collect()
    }

    fn calls(&self) -> Vec<Call> {
        self.device.calls.take()
    }

    /// The names of the sets by their tickets, without the freed ones.
    fn names(&self) -> Vec<Option<u64>> {
        let name = |set: &DescriptorSet<Raw>| set.raw().0;
        self.sets.iter().map(|it| it.as_ref().map(name)).collect()
    }

    /// Frees all, the last ticket first, and checks that nothing is left.
    fn end(mut self, layouts: &[Layout]) {
        let tickets: Vec<usize> = self.held().into_iter().rev().collect();
        assert!(self.free(&tickets));
        self.cleanup();
        assert_eq!(self.allocator.outstanding(), 0);
        assert!(layouts.iter().all(|it| self.pools(*it).is_empty()));
        assert_eq!(self.device.pools_left(), 0);
    }
}

// ---- the order of calls, and of sets ----

/// A set of each of two keys is allocated. The first key's set is freed, cleaned up and allocated again, and
/// then both are freed and cleaned up.
#[test]
fn cleanup_goes_through_keys_in_their_order() {
    let (first, second) = (plain(2), plain(1));
    let mut bench = Bench::new(0, []);
    bench.take(first, 1).unwrap();
    bench.take(second, 1).unwrap();
    assert!(bench.free(&[0]));
    bench.cleanup();
    bench.take(first, 1).unwrap();
    assert_eq!(bench.pools(first), [(0, 1, 63)]);
    assert!(bench.free(&[2, 1]));
    bench.cleanup();
    assert!(bench.pools(first).is_empty() && bench.pools(second).is_empty());
    let calls = [
        Create(0),
        Alloc(0, 1),
        Create(1),
        Alloc(1, 1),
        Release(0, 1),
        Destroy(0),
        Create(2),
        Alloc(2, 1),
        Release(2, 1),
        Release(1, 1),
        Destroy(1),
        Destroy(2),
    ];
    assert_eq!(bench.calls(), calls);
}

/// Sees which calls there are if the sets of these requests go back as one list, and which pool is left
/// if they go back so or one by one, in this order or the other.
fn however(
    samplers: u32,
    requests: &[u32],
    tickets: &[usize],
    calls: &[Call],
    left: (u64, u32, u32),
) {
    let layout = plain(samplers);
    let turned: Vec<usize> = tickets.iter().copied().rev().collect();
    for (tickets, singly) in [
        (tickets, false),
        (tickets, true),
        (&turned, false),
        (&turned, true),
    ] {
        let mut bench = Bench::new(0, []);
        for count in requests {
            bench.take(layout, *count).unwrap();
        }
        match singly {
            true => bench.free_each(tickets),
            false => assert!(bench.free(tickets)),
        }
        assert_eq!(bench.pools(layout), [left]);
        assert_eq!(bench.allocator.outstanding(), 0);
        if !singly && tickets != turned {
            assert_eq!(bench.calls(), calls);
        }
        bench.cleanup();
    }
}

/// Two full pools. The newer one stays, as the last of its key, and the older one is destroyed.
#[test]
fn newer_pool_first_however_it_opens_again() {
    let tickets: Vec<usize> = (64..128).chain(0..64).collect();
    let calls = [
        Create(0),
        Alloc(0, 64),
        Create(1),
        Alloc(1, 64),
        Release(1, 64),
        Release(0, 64),
        Destroy(0),
    ];
    however(1, &[64, 64], &tickets, &calls, (1, 0, 64));
}

/// Two pools of two sets: a list that goes from one to the other takes a call for each set.
#[test]
fn pools_in_turn_however_they_open_again() {
    let calls = [
        Create(0),
        Alloc(0, 2),
        Create(1),
        Alloc(1, 2),
        Release(0, 1),
        Release(1, 1),
        Release(0, 1),
        Destroy(0),
        Release(1, 1),
    ];
    however(2147483647, &[4], &[0, 2, 1, 3], &calls, (1, 0, 2));
}

/// The second request takes 62 sets of the first pool, and 38 of another.
#[test]
fn tickets_have_the_sets_as_they_came() {
    let mut bench = Bench::new(0, []);
    bench.take(plain(1), 3).unwrap();
    assert_eq!(bench.names(), [Some(0), Some(1), Some(2)]);
    assert!(bench.free(&[1]));
    bench.take(plain(1), 100).unwrap();
    let mut names: Vec<_> = (0..103).map(Some).collect();
    names[1] = None;
    assert_eq!(bench.names(), names);
    assert_eq!(bench.pools(plain(1)), [(0, 64, 0), (1, 38, 26)]);
    bench.end(&[plain(1)]);
}

#[test]
fn sets_of_a_large_answer_stand_as_they_came() {
    let mut bench = Bench::new(0, []);
    bench.take(plain(1), 100_000).unwrap();
    assert!(bench.names().into_iter().eq((0..100_000).map(Some)));
    bench.end(&[plain(1)]);
}

/// Pools of this layout hold two sets. The seventh word is that of the third pool.
#[test]
fn sets_of_a_refused_request_are_freed_in_their_order() {
    let layout = plain(2147483647);
    let mut bench = Bench::new(0, refuse_at(6, Answer::Device));
    bench.take(layout, 4).unwrap();
    assert!(bench.free(&[0, 2]));
    assert_eq!(bench.take(layout, 3), Err(OutOfDeviceMemory));
    let calls = [
        Create(0),
        Alloc(0, 2),
        Create(1),
        Alloc(1, 2),
        Release(0, 1),
        Release(1, 1),
        Alloc(1, 1),
        Alloc(0, 1),
        Release(1, 1),
        Release(0, 1),
    ];
    assert_eq!(*bench.device.calls.borrow(), calls);
    bench.end(&[layout]);
}

/// A pool that a run leaves empty is destroyed before the sets of the next run go back.
#[test]
fn front_goes_before_the_next_run() {
    let mut bench = Bench::new(0, []);
    bench.take(plain(1), 64).unwrap();
    bench.take(plain(1), 64).unwrap();
    let tickets: Vec<usize> = (0..65).collect();
    assert!(bench.free(&tickets));
    let calls = [
        Create(0),
        Alloc(0, 64),
        Create(1),
        Alloc(1, 64),
        Release(0, 64),
        Destroy(0),
        Release(1, 1),
    ];
    assert_eq!(*bench.device.calls.borrow(), calls);
    bench.end(&[plain(1)]);
}

/// How many descriptors the pools of marked sets have, and these sets.
#[test]
fn pools_count_as_they_were_cut() {
    let layouts @ [three, one] = [3, 1].map(|samplers| Layout {
        samplers,
        is_marked: true,
    });
    let mut bench = Bench::new(300, []);
    // Of the 300 a pool of 64 sets takes 192, one of the other key 64, and one that is cut to 14 sets 42. What
    // is left has room for no set, so the 20 are refused.
    for (layout, count, answer, loads) in [
        (three, 64, Ok(()), (192, 192)),
        (one, 1, Ok(()), (256, 193)),
        (three, 20, Err(Fragmentation), (298, 193)),
    ] {
        assert_eq!(bench.take(layout, count), answer);
        let it = &bench.allocator;
        let seen = (
            it.update_after_bind_capacity(),
            it.update_after_bind_descriptors(),
        );
        assert_eq!(seen, loads);
    }
    bench.end(&layouts);
}

// ---- what a refusal costs ----

/// A script in which one call is refused.
fn refuse_at(place: usize, word: Answer) -> Vec<Answer> {
    let mut script = vec![Answer::Granted; place];
    script.push(word);
    script
}

/// How a call may be refused, and what the request returns then.
const REFUSALS: [(Answer, AllocationError); 4] = [
    (Answer::Device, OutOfDeviceMemory),
    (Answer::Host, OutOfHostMemory),
    (Answer::Fragmented, Fragmentation),
    (Answer::Full, Fragmentation),
];

/// A layout whose pools hold 64 sets or more, one whose pools hold one, and a marked one.
const LAYOUTS: [Layout; 3] = [
    plain(1),
    plain(u32::MAX),
    Layout {
        samplers: 3,
        is_marked: true,
    },
];

#[derive(Clone, Copy)]
enum Ask {
    /// So many sets of the layout at this place.
    Sets(usize, u32),
    /// The sets of these tickets go back.
    Back(&'static [usize]),
}

/// What is asked; how many calls for pools and sets that is if all are granted, and which of them ask
/// an existing pool. Both are counted from the rules of how pools are asked and created.
struct Plan {
    asks: &'static [Ask],
    calls: usize,
    existing: &'static [usize],
}

use Ask::{Back, Sets};

const PLANS: [Plan; 4] = [
    // One existing pool is asked, and all else comes from new ones.
    Plan {
        asks: &[Sets(0, 60), Sets(0, 10), Sets(1, 3), Sets(2, 3)],
        calls: 13,
        existing: &[2],
    },
    // Three pools have known free places: 1, 1 and 65. The last request takes them all and a new pool,
    // so that a rollback visits old pools.
    Plan {
        asks: &[
            Sets(0, 64),
            Sets(0, 64),
            Sets(0, 64),
            Back(&[0, 64, 128]),
            Sets(0, 70),
        ],
        calls: 11,
        existing: &[6, 7, 8],
    },
    // The only pool is empty when a request takes its place and three new pools: a rollback drops all of
    // them but the last. The next request takes two places after a pool that is in use.
    Plan {
        asks: &[
            Sets(1, 1),
            Back(&[0]),
            Sets(1, 4),
            Back(&[2, 4]),
            Sets(1, 3),
        ],
        calls: 13,
        existing: &[2, 9, 10],
    },
    // Marked and plain sets in turn: a rollback visits an old or a new pool of one key, among pools of
    // the others.
    Plan {
        asks: &[
            Sets(2, 64),
            Sets(1, 2),
            Back(&[0, 63, 64]),
            Sets(2, 3),
            Sets(1, 2),
            Sets(0, 1),
        ],
        calls: 15,
        existing: &[6],
    },
];

/// The errors of the plan's requests. Sets that a refused request didn't allocate aren't freed.
fn refused_of(bench: &mut Bench, plan: &Plan) -> Vec<AllocationError> {
    let mut refused = Vec::new();
    for ask in plan.asks {
        match *ask {
            Sets(layout, count) => refused.extend(bench.take(LAYOUTS[layout], count).err()),
            Back(tickets) => {
                let came = tickets.iter().all(|it| *it < bench.sets.len());
                assert!(came && bench.free(tickets) || !refused.is_empty());
            }
        }
    }
    refused
}

/// Each answer at each call costs the request that makes it, or none, if it is that of an existing pool which
/// refuses as fragmented or full.
#[test]
fn one_call_is_refused() {
    for plan in PLANS {
        for (place, (word, error)) in
            (0..=plan.calls).flat_map(|place| REFUSALS.map(|it| (place, it)))
        {
            let mut bench = Bench::new(u32::MAX, refuse_at(place, word));
            let refused = refused_of(&mut bench, &plan);
            let passed_over = error == Fragmentation && plan.existing.contains(&place);
            let wanted = Some(error).filter(|_| place < plan.calls && !passed_over);
            assert!(refused.into_iter().eq(wanted), "{word:?} at {place}");
            bench.end(&LAYOUTS);
        }
    }
}

/// The third call asks the first pool, which has four places: all ten sets come from a new one.
#[test]
fn pool_that_is_passed_over_shows_no_free_place() {
    for word in [Answer::Fragmented, Answer::Full] {
        let mut bench = Bench::new(u32::MAX, refuse_at(2, word));
        bench.take(plain(1), 60).unwrap();
        bench.take(plain(1), 10).unwrap();
        assert_eq!(bench.pools(plain(1)), [(0, 60, 0), (1, 10, 54)]);
        bench.end(&[plain(1)]);
    }
}

// ---- memory ----

/// Three hundred keys, pools with one set each, and lists of hundreds of sets.
#[test]
fn memory_is_found_among_hundreds() {
    let mut layouts: Vec<Layout> = (1..=300).map(plain).collect();
    layouts.push(plain(u32::MAX));
    let mut bench = Bench::new(0, []);
    for layout in &layouts[..300] {
        bench.take(*layout, 1).unwrap();
    }
    bench.take(layouts[300], 600).unwrap();
    bench.take(layouts[300], 600).unwrap();
    assert_eq!(bench.allocator.outstanding(), 1500);
    let tickets: Vec<usize> = (0..1500).collect();
    assert!(bench.free(&tickets));
    assert_eq!(bench.allocator.outstanding(), 0);
    for _ in 0..300 {
        bench.take(layouts[0], 1).unwrap();
    }
    assert_eq!(bench.allocator.outstanding(), 300);
    bench.end(&layouts);
}

#[test]
fn memory_is_found_for_a_thousand() {
    let (device, layout) = (Scripted::default(), plain(1).set_layout());
    let mut manager = FrameManager::new(u32::MAX);
    // SAFETY: the device is that of all calls, and the layout is what it is said to be.
    let sets = unsafe { manager.allocate_for(&device, &layout, 1000) }.unwrap();
    for (frame, set) in (1..).zip(sets) {
        manager.retire(frame, set).unwrap();
    }
    for (frame, left) in [(0, 1000), (300, 700), (1000, 0)] {
        // SAFETY: the device is that of all calls, and uses no set.
        unsafe { manager.finish(&device, frame) };
        assert_eq!((manager.outstanding(), manager.retired()), (left, left));
    }
    assert_eq!(device.count(|it| matches!(it, Release(..))), 2);
    assert_eq!(device.pools_left(), 1);
    // SAFETY: as above.
    unsafe { manager.cleanup(&device) };
}
