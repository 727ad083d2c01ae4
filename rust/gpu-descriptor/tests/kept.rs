//! What a `SetManager` keeps: freed sets are reused. First each case by hand, then at random, compared with a
//! simple model, a list of all sets with what each is in use for.
//!
//! `STEPS=1000000 cargo test --release --test kept` runs this number of steps with each `keep`.

mod refuses;

use gpu_descriptor::AllocationError::*;
use gpu_descriptor::manager::*;
use gpu_descriptor::*;
use refuses::{bytes, calls, counted, with_refused};
use std::cell::{Cell, RefCell};
use std::collections::{BTreeMap, HashMap, HashSet};

/// How many sets of a layout are kept.
const KEEPS: [u32; 4] = [0, 1, 7, u32::MAX];

/// The limit on update-after-bind descriptors.
const LIMIT: u32 = 400;

/// The layouts: the first two have the same key, of the third two sets go to a pool, and the last is
/// marked, with the last number of descriptors a set.
const LAYOUTS: usize = 4;
const MARKED: usize = 3;
const DESCRIPTORS: u32 = 5;

/// The samplers of a set and whether it is marked, for how many sets the pool is, and how many it has.
#[derive(Default)]
struct Pool {
    key: (u32, bool),
    max_sets: usize,
    live: usize,
}

/// A device that gives no number twice, to a pool or to a set, and refuses as many calls as it is told.
#[derive(Default)]
struct Gpu {
    /// The number that was given last.
    last: Cell<u64>,
    pools: RefCell<BTreeMap<u64, Pool>>,

    /// The pool and the layout of each set.
    sets: RefCell<HashMap<u64, (u64, u32)>>,

    /// How many calls there were, and how many sets it ever made.
    calls: Cell<u64>,
    made: Cell<usize>,

    /// How many calls of the next are refused, after how many, and with which reason.
    refuses: Cell<u64>,
    after: Cell<u64>,
    reason: Cell<usize>,

    /// How many calls were refused so far.
    refused: Cell<u64>,
}

impl Gpu {
    fn number(&self) -> u64 {
        self.last.set(self.last.get() + 1);
        self.last.get()
    }

    fn live(&self) -> usize {
        self.sets.borrow().len()
    }

    fn is_live(&self, set: u64) -> bool {
        self.sets.borrow().contains_key(&set)
    }

    fn is_empty(&self) -> bool {
        self.pools.borrow().is_empty() && self.live() == 0
    }

    /// Refuses `count` calls for pools and sets, after `after` others.
    fn refuse(&self, count: u64, after: u64, reason: usize) {
        self.refuses.set(count);
        self.after.set(after);
        self.reason.set(reason);
    }

    /// Counts a call. Whether it is refused.
    fn is_refused(&self) -> bool {
        self.calls.set(self.calls.get() + 1);
        if self.refuses.get() == 0 {
            return false;
        }
        if self.after.get() > 0 {
            self.after.set(self.after.get() - 1);
            return false;
        }
        self.refuses.set(self.refuses.get() - 1);
        self.refused.set(self.refused.get() + 1);
        true
    }

    /// Of each key the oldest pool has sets.
    fn check_front(&self) {
        let mut keys = HashSet::new();
        for pool in self.pools.borrow().values() {
            if keys.insert(pool.key) {
                assert!(pool.live > 0, "an empty pool at the front");
            }
        }
    }
}

impl DescriptorDevice<u32, u64, u64> for Gpu {
    unsafe fn create_descriptor_pool(
        &self,
        counts: &DescriptorTotalCount,
        max_sets: u32,
        flags: DescriptorPoolCreateFlags,
    ) -> Result<u64, CreatePoolError> {
        if self.is_refused() {
            return Err(match self.reason.get() {
                0 => CreatePoolError::OutOfDeviceMemory,
                1 => CreatePoolError::OutOfHostMemory,
                _ => CreatePoolError::Fragmentation,
            });
        }
        let number = self.number();
        let is_marked = flags.contains(DescriptorPoolCreateFlags::UPDATE_AFTER_BIND);
        let pool = Pool {
            key: (counts.sampler / max_sets, is_marked),
            max_sets: max_sets as usize,
            live: 0,
        };
        self.pools.borrow_mut().insert(number, pool);
        Ok(number)
    }

    unsafe fn destroy_descriptor_pool(&self, pool: u64) {
        self.calls.set(self.calls.get() + 1);
        let pool = self.pools.borrow_mut().remove(&pool).expect("a pool");
        assert_eq!(pool.live, 0);
    }

    unsafe fn alloc_descriptor_sets<'a>(
        &self,
        pool: &mut u64,
        layouts: impl ExactSizeIterator<Item = &'a u32>,
        sets: &mut impl Extend<u64>,
    ) -> Result<(), DeviceAllocationError> {
        if self.is_refused() {
            return Err(match self.reason.get() {
                0 => DeviceAllocationError::OutOfDeviceMemory,
                1 => DeviceAllocationError::OutOfHostMemory,
                2 => DeviceAllocationError::FragmentedPool,
                _ => DeviceAllocationError::OutOfPoolMemory,
            });
        }
        let mut pools = self.pools.borrow_mut();
        let it = pools.get_mut(pool).expect("a pool");
        it.live += layouts.len();
        assert!(it.live <= it.max_sets);
        self.made.set(self.made.get() + layouts.len());
        sets.extend(layouts.map(|layout| {
            let set = self.number();
            self.sets.borrow_mut().insert(set, (*pool, *layout));
            set
        }));
        Ok(())
    }

    unsafe fn dealloc_descriptor_sets(&self, pool: &mut u64, sets: impl Iterator<Item = u64>) {
        self.calls.set(self.calls.get() + 1);
        for set in sets {
            let (of, _) = self.sets.borrow_mut().remove(&set).expect("a set");
            assert_eq!(of, *pool, "it goes to its pool");
            self.pools.borrow_mut().get_mut(pool).expect("a pool").live -= 1;
        }
    }
}

/// The layout with this number, of `LAYOUTS`.
fn layout(number: usize) -> SetLayout<u32> {
    let mut flags = DescriptorSetLayoutCreateFlags::empty();
    flags.set(
        DescriptorSetLayoutCreateFlags::UPDATE_AFTER_BIND,
        number == MARKED,
    );
    let counts = DescriptorTotalCount {
        sampler: [1, 1, u32::MAX / 2, DESCRIPTORS][number],
        ..Default::default()
    };
    SetLayout {
        layout: number as u32,
        counts,
        flags,
    }
}

/// The set manager that is tested.
type Sets<'a> = SetManager<u32, u64, u64, &'a Gpu>;

/// A set manager with all layouts, which keeps so many sets of each.
fn manager<'a>(gpu: &'a Gpu, keep: u32) -> (Sets<'a>, [LayoutHandle; LAYOUTS]) {
    let mut it = SetManager::new(gpu, LIMIT);
    it.set_max_kept(keep);
    // A pool of the third layout is for two sets.
    it.set_max_pool_descriptors(None);
    // SAFETY: they are the device's, and stay.
    let layouts = [0, 1, 2, 3].map(|at| unsafe { it.add_layout(layout(at)) }.unwrap());
    (it, layouts)
}

/// Frees sets. The device isn't in use.
fn free(it: &mut Sets, sets: &[SetHandle]) {
    // SAFETY: as above.
    unsafe { it.free(sets) }.unwrap();
}

fn done(it: &mut Sets, frame: u64) {
    // SAFETY: as above.
    unsafe { it.frame_done(frame) };
}

/// Ends a manager: nothing is left at its device.
fn shutdown(it: Sets) {
    // SAFETY: as above.
    let gpu = unsafe { it.shutdown() };
    assert!(gpu.is_empty());
}

/// The raw set of a handle.
fn raw(it: &Sets, handle: SetHandle) -> u64 {
    *it.set(handle).expect("a set")
}

/// What `SetManager::counts` has to return.
fn counts(held: u64, waiting: u64, kept: u64) -> Counts {
    Counts {
        held,
        waiting,
        kept,
    }
}

/// The first handles of a request for many have the kept sets, and the others new ones.
#[test]
fn kept_sets_are_first() {
    let gpu = Gpu::default();
    let (mut it, layouts) = manager(&gpu, u32::MAX);
    let sets = it.allocate_many(layouts[0], 3).unwrap();
    let kept: HashSet<_> = sets.iter().map(|set| raw(&it, *set)).collect();
    free(&mut it, &sets);
    let sets = it.allocate_many(layouts[0], 7).unwrap();
    for (at, set) in sets.iter().enumerate() {
        assert_eq!(kept.contains(&raw(&it, *set)), at < 3);
    }
    free(&mut it, &sets);
    shutdown(it);
}

/// The raw sets of handles.
fn all_raw(it: &Sets, handles: &[SetHandle]) -> Vec<u64> {
    handles.iter().map(|set| raw(it, *set)).collect()
}

/// Each place of a slice gets a handle, and no other place. Several calls write into one array.
#[test]
fn each_place_of_a_slice_has_a_handle() {
    let gpu = Gpu::default();
    let (mut it, layouts) = manager(&gpu, u32::MAX);
    let two = it.allocate_many(layouts[0], 2).unwrap();
    let kept = all_raw(&it, &two);
    free(&mut it, &two);

    let mut sets = [SetHandle::NONE; 9];
    it.allocate_into(layouts[0], &mut sets[2..6]).unwrap();
    for (at, set) in sets.iter().enumerate() {
        assert_eq!(*set != SetHandle::NONE, (2..6).contains(&at));
    }
    // The last one that was kept is first, under a new handle.
    assert_eq!(all_raw(&it, &sets[2..4]), [kept[1], kept[0]]);
    assert!(two.iter().all(|old| it.set(*old).is_none()));
    assert_eq!(it.counts(), counts(4, 0, 0));

    it.allocate_into(layouts[0], &mut sets[6..]).unwrap();
    it.allocate_into(layouts[1], &mut sets[..2]).unwrap();
    it.allocate_into(layouts[0], &mut sets[..0]).unwrap();
    let raws = all_raw(&it, &sets);
    assert_eq!(raws.iter().collect::<HashSet<_>>().len(), 9);
    for (at, raw) in raws.iter().enumerate() {
        assert_eq!(gpu.sets.borrow()[raw].1, u32::from(at < 2));
    }
    assert_eq!((it.counts(), gpu.live()), (counts(9, 0, 0), 9));
    free(&mut it, &sets);
    assert_eq!(layouts.map(|at| it.kept_count(at)), [7, 2, 0, 0]);
    shutdown(it);
}

/// Kept sets for a slice want nothing of the device, and no memory.
#[test]
fn a_slice_of_kept_sets_asks_for_nothing() {
    let gpu = Gpu::default();
    let (mut it, layouts) = manager(&gpu, u32::MAX);
    let mut sets = [SetHandle::NONE; 5];
    it.allocate_into(layouts[0], &mut sets).unwrap();
    free(&mut it, &sets);
    let before = (gpu.calls.get(), calls());
    counted(|| it.allocate_into(layouts[0], &mut sets)).unwrap();
    assert_eq!((gpu.calls.get(), calls()), before);
    free(&mut it, &sets);
    shutdown(it);
}

/// A slice stays as it was if its request is refused, whatever the reason.
#[test]
fn a_refused_slice_stays_as_it_was() {
    let gpu = Gpu::default();
    let (mut it, layouts) = manager(&gpu, u32::MAX);
    let large = add_marked(&mut it, LIMIT + 1);
    let held = it.allocate_many(layouts[2], 100).unwrap();
    let mut sets = held.clone();
    // No memory for a hundred slots more.
    let (answer, _) = with_refused(0, || it.allocate_into(layouts[0], &mut sets));
    assert_eq!(answer, Err(RequestError::Allocation(OutOfHostMemory)));
    assert_eq!(sets, held);
    // The first pool of the layout, and then the sets of the second try, which follows as some are kept.
    for (kept, refused) in [(0, 1), (4, 2)] {
        let some = it.allocate_many(layouts[0], kept).unwrap();
        free(&mut it, &some);
        gpu.refuse(refused, 0, 0);
        let answer = it.allocate_into(layouts[0], &mut sets);
        assert_eq!(answer, Err(RequestError::Allocation(OutOfDeviceMemory)));
        assert_eq!((&sets, gpu.refuses.get()), (&held, 0));
    }
    let answer = it.allocate_into(large, &mut sets);
    assert_eq!(answer, Err(RequestError::Allocation(Fragmentation)));
    assert_eq!(sets, held);
    it.remove_layout(layouts[1]).unwrap();
    let answer = it.allocate_into(layouts[1], &mut sets);
    assert_eq!(answer, Err(RequestError::NoLayout));
    assert_eq!(sets, held);
    assert_eq!((it.counts(), gpu.live()), (counts(100, 0, 0), 100));
    free(&mut it, &sets);
    shutdown(it);
}

/// A request for no set is met, but not of a layout that was removed.
#[test]
fn an_empty_slice() {
    let gpu = Gpu::default();
    let (mut it, layouts) = manager(&gpu, u32::MAX);
    it.remove_layout(layouts[1]).unwrap();
    assert_eq!(it.allocate_into(layouts[0], &mut []), Ok(()));
    assert_eq!(it.allocate_many(layouts[0], 0), Ok(Vec::new()));
    let answer = it.allocate_into(layouts[1], &mut []);
    assert_eq!(answer, Err(RequestError::NoLayout));
    assert_eq!(it.allocate_many(layouts[1], 0), Err(RequestError::NoLayout));
    assert_eq!((it.counts(), gpu.calls.get()), (counts(0, 0, 0), 0));
    shutdown(it);
}

/// No memory for the vector of `allocate_many`: no set is created, and a removed layout is still `NoLayout`.
#[test]
fn a_vector_without_memory() {
    let gpu = Gpu::default();
    let (mut it, layouts) = manager(&gpu, u32::MAX);
    let three = it.allocate_many(layouts[0], 3).unwrap();
    free(&mut it, &three);
    it.remove_layout(layouts[1]).unwrap();
    let before = gpu.calls.get();
    let (answer, _) = with_refused(0, || it.allocate_many(layouts[0], 3));
    assert_eq!(answer, Err(RequestError::Allocation(OutOfHostMemory)));
    let (answer, _) = with_refused(0, || it.allocate_many(layouts[1], 3));
    assert_eq!(answer, Err(RequestError::NoLayout));
    assert_eq!((it.counts(), gpu.calls.get()), (counts(0, 0, 3), before));
    shutdown(it);
}

#[test]
fn none_names_no_set() {
    let gpu = Gpu::default();
    let (mut it, layouts) = manager(&gpu, 0);
    let held = it.allocate(layouts[0]).unwrap();
    it.begin_frame().unwrap();
    let frame_set = it.allocate_for_frame(layouts[0]).unwrap();
    let none = SetHandle::NONE;
    assert!(none != held && none != frame_set);
    assert_eq!(it.set(none), None);
    assert_eq!(it.free_after(&[none], 0), Err(FreeError::NoSet));
    for list in [&[none][..], &[held, none]] {
        // SAFETY: the device isn't in use.
        let answer = unsafe { it.free(list) };
        assert_eq!(answer, Err(FreeError::NoSet));
        assert_eq!(it.free_after(list, 0), Err(FreeError::NoSet));
    }
    assert_eq!((it.counts(), gpu.live()), (counts(1, 1, 0), 2));
    shutdown(it);
}

/// A list with a handle of no held set, or with one twice, is refused whole, wherever that handle stands. Of
/// the sets before it some would have been kept, and some freed.
#[test]
fn a_refused_list_frees_no_set() {
    for keep in [0, 1, 4, u32::MAX] {
        let gpu = Gpu::default();
        let (mut it, layouts) = manager(&gpu, keep);
        // Two layouts in turn. Of the first some are kept already, and one set is there at a cleanup.
        let mut sets = vec![it.allocate(layouts[0]).unwrap()];
        it.cleanup();
        for at in 1..8 {
            sets.push(it.allocate(layouts[[0, MARKED][at % 2]]).unwrap());
        }
        let raws = all_raw(&it, &sets);
        let freed = it.allocate_many(layouts[0], 2).unwrap();
        let kept: Vec<_> = all_raw(&it, &freed);
        free(&mut it, &freed);
        it.begin_frame().unwrap();
        let frame_set = it.allocate_for_frame(layouts[1]).unwrap();

        let kept_counts = |it: &Sets| layouts.map(|at| it.kept_count(at));
        let before = (it.counts(), kept_counts(&it), gpu.calls.get());
        for wrong in [Some(SetHandle::NONE), Some(freed[0]), Some(frame_set), None] {
            for at in 0..=sets.len() {
                let mut list = sets.clone();
                // Or a set of the list again.
                list.insert(at, wrong.unwrap_or(sets[(at + 3) % sets.len()]));
                // SAFETY: the device isn't in use.
                let answer = unsafe { it.free(&list) };
                assert_eq!(answer, Err(FreeError::NoSet));
                assert_eq!((it.counts(), kept_counts(&it), gpu.calls.get()), before);
                assert_eq!(all_raw(&it, &sets), raws);
            }
        }

        // The kept sets are still a stack.
        let most = keep.min(2) as usize;
        let again = it.allocate_many(layouts[0], most as u32).unwrap();
        let mut expected = kept[..most].to_vec();
        expected.reverse();
        assert_eq!(all_raw(&it, &again), expected);
        free(&mut it, &again);
        free(&mut it, &sets);
        assert!(sets.iter().all(|old| it.set(*old).is_none()));
        assert_eq!(kept_counts(&it), [keep.min(5), 0, 0, keep.min(4)]);
        shutdown(it);
    }
}

/// Hundreds of layouts at once, each of its own counts.
#[test]
fn memory_is_found_for_hundreds_of_layouts() {
    let gpu = Gpu::default();
    let mut it = SetManager::new(&gpu, LIMIT);
    for samplers in 1..=600 {
        let mut next = layout(0);
        next.counts.sampler = samplers;
        // SAFETY: it is the device's, and stays.
        let next = unsafe { it.add_layout(next) }.unwrap();
        let _live = it.allocate(next).unwrap();
    }
    // SAFETY: the device isn't in use.
    unsafe { it.free_all() };
    shutdown(it);
}

/// Of ten sets as many are kept as are to be, and the others are new the next time.
#[test]
fn as_many_are_kept_as_are_to_be() {
    for keep in KEEPS {
        let gpu = Gpu::default();
        let (mut it, layouts) = manager(&gpu, keep);
        let kept = keep.min(10);
        let sets = it.allocate_many(layouts[0], 10).unwrap();
        let first: HashSet<_> = sets.iter().map(|set| raw(&it, *set)).collect();
        free(&mut it, &sets);
        assert_eq!(
            (it.kept_count(layouts[0]), gpu.live()),
            (kept, kept as usize)
        );
        assert_eq!(it.counts(), counts(0, 0, u64::from(kept)));
        assert_eq!(it.outstanding(), 0);

        let calls = gpu.calls.get();
        let sets = it.allocate_many(layouts[0], 10).unwrap();
        let again = sets.iter().filter(|set| first.contains(&raw(&it, **set)));
        assert_eq!(
            (again.count(), gpu.made.get()),
            (kept as usize, 20 - kept as usize)
        );
        // The device isn't asked if all ten were kept.
        assert_eq!(gpu.calls.get() == calls, kept == 10);
        assert_eq!(it.counts(), counts(10, 0, 0));

        // The same, one by one and after a frame.
        it.begin_frame().unwrap();
        for set in sets {
            it.free_after(&[set], 1).unwrap();
            let _frame_set = it.allocate_for_frame(layouts[0]).unwrap();
        }
        it.end_frame();
        // Ten were destroyed, and ten were drawn.
        assert_eq!(it.counts(), counts(0, 20, 0));
        let kept = keep.min(20);
        done(&mut it, 1);
        assert_eq!(it.counts(), counts(0, 0, u64::from(kept)));
        assert_eq!(gpu.live(), kept as usize);
        shutdown(it);
    }
}

/// The kept sets of a layout are a stack.
#[test]
fn the_set_kept_last_is_first() {
    let gpu = Gpu::default();
    let (mut it, layouts) = manager(&gpu, 2);
    let sets = it.allocate_many(layouts[0], 3).unwrap();
    let raws: Vec<_> = sets.iter().map(|set| raw(&it, *set)).collect();
    for set in &sets {
        free(&mut it, &[*set]);
    }
    // Two were kept, so the device freed the third.
    assert!(!gpu.is_live(raws[2]));
    for expected in [raws[1], raws[0]] {
        let set = it.allocate(layouts[0]).unwrap();
        assert_eq!(raw(&it, set), expected);
    }
    shutdown(it);
}

/// Also not if the layouts share pools.
#[test]
fn a_kept_set_of_another_layout_is_not_reused() {
    for (own, other) in [(0, 1), (1, 0), (0, 2), (3, 1)] {
        let gpu = Gpu::default();
        let (mut it, layouts) = manager(&gpu, u32::MAX);
        let set = it.allocate(layouts[own]).unwrap();
        let kept = raw(&it, set);
        free(&mut it, &[set]);
        let mut others = it.allocate_many(layouts[other], 2).unwrap();
        others.push(it.allocate(layouts[other]).unwrap());
        it.begin_frame().unwrap();
        others.push(it.allocate_for_frame(layouts[other]).unwrap());
        for set in others {
            assert_ne!(raw(&it, set), kept);
            assert_eq!(gpu.sets.borrow()[&raw(&it, set)].1, other as u32);
        }
        let counts = (it.kept_count(layouts[own]), it.kept_count(layouts[other]));
        assert_eq!(counts, (1, 0));
        let set = it.allocate_for_frame(layouts[own]).unwrap();
        assert_eq!(raw(&it, set), kept);
        shutdown(it);
    }
}

#[test]
fn an_old_handle_finds_nothing_after_its_set_was_reused() {
    let gpu = Gpu::default();
    let (mut it, layouts) = manager(&gpu, u32::MAX);
    let mut old = Vec::new();
    let mut set = it.allocate(layouts[0]).unwrap();
    let kept = raw(&it, set);
    for frame in 1..=20 {
        old.push(set);
        it.free_after(&[set], 0).unwrap();
        done(&mut it, 0);
        it.begin_frame().unwrap();
        let frame_set = it.allocate_for_frame(layouts[0]).unwrap();
        assert_eq!(raw(&it, frame_set), kept);
        old.push(frame_set);
        it.end_frame();
        done(&mut it, frame);
        set = it.allocate(layouts[0]).unwrap();
        assert_eq!(raw(&it, set), kept);
        for handle in &old {
            assert_eq!(it.set(*handle), None);
            assert_eq!(it.free_after(&[*handle], 0), Err(FreeError::NoSet));
            // SAFETY: the device isn't in use.
            let answer = unsafe { it.free(&[*handle]) };
            assert_eq!(answer, Err(FreeError::NoSet));
        }
    }
    assert_eq!(gpu.made.get(), 1);
    shutdown(it);
}

/// A refusal while sets are kept frees these, destroys empty pools, and retries once.
#[test]
fn a_refusal_while_sets_are_kept() {
    let reasons = [
        (0, OutOfDeviceMemory),
        (1, OutOfHostMemory),
        (2, Fragmentation),
    ];
    for (reason, error) in reasons {
        for count in [1, 2] {
            let gpu = Gpu::default();
            let (mut it, layouts) = manager(&gpu, u32::MAX);
            let kept = it.allocate_many(layouts[0], 5).unwrap();
            let held = it.allocate(layouts[2]).unwrap();
            free(&mut it, &kept);
            // Five are kept and one is held, each layout in a pool of its own.
            assert_eq!((gpu.pools.borrow().len(), gpu.live()), (2, 6));
            // The first pool of the layout is refused: once, and the second try is granted, or twice.
            gpu.refuse(count, 0, reason);
            let answer = it.allocate(layouts[3]);
            match count {
                1 => assert_eq!(gpu.sets.borrow()[&raw(&it, answer.unwrap())].1, 3),
                _ => assert_eq!(answer, Err(RequestError::Allocation(error))),
            }
            // Those that were kept are gone, and their pool, but what is held stays.
            let new = usize::from(count == 1);
            assert_eq!(it.counts(), counts(1 + new as u64, 0, 0));
            assert_eq!((gpu.pools.borrow().len(), gpu.live()), (1 + new, 1 + new));
            assert!(gpu.is_live(raw(&it, held)));
            // It was there, so it isn't kept; what came later is.
            free(&mut it, &[held]);
            assert_eq!(it.kept_count(layouts[2]), 0);
            if let Ok(set) = answer {
                free(&mut it, &[set]);
                assert_eq!(it.kept_count(layouts[3]), 1);
            }
            shutdown(it);
        }
    }
}

/// If nothing is kept the refusal is returned at once, and no set gets old by it.
#[test]
fn a_refusal_while_none_is_kept() {
    let gpu = Gpu::default();
    let (mut it, layouts) = manager(&gpu, u32::MAX);
    let held = it.allocate(layouts[2]).unwrap();
    gpu.refuse(1, 0, 0);
    let answer = it.allocate(layouts[3]);
    assert_eq!(answer, Err(RequestError::Allocation(OutOfDeviceMemory)));
    free(&mut it, &[held]);
    assert_eq!(it.kept_count(layouts[2]), 1);
    shutdown(it);
}

/// A batch takes kept sets first. If the others are refused, all of it are new.
#[test]
fn a_batch_that_is_refused_while_sets_are_kept() {
    let gpu = Gpu::default();
    let (mut it, layouts) = manager(&gpu, u32::MAX);
    let two = it.allocate_many(layouts[0], 2).unwrap();
    let raws = two.iter().map(|set| raw(&it, *set)).collect::<Vec<_>>();
    free(&mut it, &two);
    let five = it.allocate_many(layouts[0], 5).unwrap();
    let again = five.iter().filter(|set| raws.contains(&raw(&it, **set)));
    assert_eq!((again.count(), gpu.made.get(), gpu.live()), (2, 5, 5));
    free(&mut it, &five);
    assert_eq!((it.kept_count(layouts[0]), gpu.live()), (5, 5));

    gpu.refuse(1, 0, 0);
    let seven = it.allocate_many(layouts[0], 7).unwrap();
    // The device freed the five, and all seven are new.
    assert_eq!((gpu.made.get(), gpu.live()), (5 + 7, 7));
    assert_eq!(it.counts(), counts(7, 0, 0));
    free(&mut it, &seven);

    gpu.refuse(2, 0, 0);
    let answer = it.allocate_many(layouts[0], 8);
    assert_eq!(answer, Err(RequestError::Allocation(OutOfDeviceMemory)));
    assert_eq!((it.counts(), gpu.is_empty()), (counts(0, 0, 0), true));
    shutdown(it);
}

/// Kept sets hold the limit until they are wanted elsewhere.
#[test]
fn the_limit_while_sets_are_kept() {
    let gpu = Gpu::default();
    let (mut it, layouts) = manager(&gpu, u32::MAX);
    // One pool takes all that the limit allows.
    let many = LIMIT / DESCRIPTORS;
    let sets = it.allocate_many(layouts[MARKED], many).unwrap();
    let mut other = layout(MARKED);
    other.counts.sampler = DESCRIPTORS + 1;
    // SAFETY: it is the device's, and stays.
    let other = unsafe { it.add_layout(other) }.unwrap();
    let refused = Err(RequestError::Allocation(Fragmentation));
    assert_eq!(it.allocate(other), refused);
    free(&mut it, &sets);
    assert_eq!(it.kept_count(layouts[MARKED]), many);
    let set = it.allocate(other).unwrap();
    assert_eq!((it.counts(), gpu.live()), (counts(1, 0, 0), 1));
    free(&mut it, &[set]);
    shutdown(it);
}

/// A marked layout whose sets have so many descriptors.
fn add_marked(it: &mut Sets, descriptors: u32) -> LayoutHandle {
    let mut marked = layout(MARKED);
    marked.counts.sampler = descriptors;
    // SAFETY: it is the device's, and stays.
    unsafe { it.add_layout(marked) }.unwrap()
}

/// A request that alone exceeds the limit fails whatever is freed, so kept sets stay.
#[test]
fn a_request_above_the_limit_leaves_kept_sets() {
    let gpu = Gpu::default();
    let (mut it, layouts) = manager(&gpu, u32::MAX);
    let large = add_marked(&mut it, LIMIT + 1);
    let plain = it.allocate_many(layouts[0], 5).unwrap();
    let marked = it.allocate_many(layouts[MARKED], 3).unwrap();
    free(&mut it, &plain);
    free(&mut it, &marked);
    it.begin_frame().unwrap();
    let calls = gpu.calls.get();
    let refused = RequestError::Allocation(Fragmentation);
    for _ in 0..3 {
        assert_eq!(it.allocate(large), Err(refused));
        assert_eq!(it.allocate_for_frame(large), Err(refused));
        assert_eq!(it.allocate_many(large, 2), Err(refused));
        // Next to the three kept ones 78 are still needed. They would fit, but all 81 never do.
        let many = LIMIT / DESCRIPTORS + 1;
        assert_eq!(it.allocate_many(layouts[MARKED], many), Err(refused));
    }
    assert_eq!((it.counts(), gpu.calls.get()), (counts(0, 0, 8), calls));
    assert_eq!(it.kept_count(layouts[MARKED]), 3);
    it.end_frame();
    shutdown(it);
}

/// A request that takes the whole limit doesn't exceed it: kept sets are freed, and it is met.
#[test]
fn a_request_of_the_whole_limit_frees_kept_sets() {
    for many in [1, LIMIT / DESCRIPTORS] {
        let gpu = Gpu::default();
        let (mut it, layouts) = manager(&gpu, u32::MAX);
        let all = add_marked(&mut it, LIMIT / many);
        let plain = it.allocate_many(layouts[0], 5).unwrap();
        let other = add_marked(&mut it, DESCRIPTORS + 1);
        let marked = it.allocate(other).unwrap();
        free(&mut it, &plain);
        free(&mut it, &[marked]);
        let sets = match many {
            1 => vec![it.allocate(all).unwrap()],
            _ => it.allocate_many(all, many).unwrap(),
        };
        assert_eq!(it.counts(), counts(many.into(), 0, 0));
        free(&mut it, &sets);
        shutdown(it);
    }
}

/// No memory for a slot: the device isn't asked, and kept sets stay.
#[test]
fn a_request_without_memory_for_a_slot_leaves_kept_sets() {
    let gpu = Gpu::default();
    let (mut it, layouts) = manager(&gpu, u32::MAX);
    let four = it.allocate_many(layouts[0], 4).unwrap();
    free(&mut it, &four);
    let device_calls = gpu.calls.get();
    // The slots are full.
    let (answer, calls) = with_refused(0, || it.allocate(layouts[2]));
    assert_eq!(answer, Err(RequestError::Allocation(OutOfHostMemory)));
    assert_eq!(calls, 1);
    assert_eq!(
        (it.counts(), gpu.calls.get()),
        (counts(0, 0, 4), device_calls)
    );
    let set = it.allocate(layouts[2]).unwrap();
    assert_eq!(it.counts(), counts(1, 0, 4));
    free(&mut it, &[set]);
    shutdown(it);
}

/// An open frame isn't done, whatever is said.
#[test]
fn the_open_frame_is_not_done() {
    for keep in KEEPS {
        let gpu = Gpu::default();
        let (mut it, layouts) = manager(&gpu, keep);
        it.skip_to(6).unwrap();
        let sets = it.allocate_many(layouts[0], 2).unwrap();
        let frame = it.begin_frame().unwrap();
        let frame_set = it.allocate_for_frame(layouts[0]).unwrap();
        it.free_after(&[sets[0]], frame).unwrap();
        it.free_after(&[sets[1]], frame - 1).unwrap();
        // Three wait: the frame set and the first set for the open frame, the second set for the one before.
        for say in [0, frame - 2] {
            done(&mut it, say);
            assert_eq!(it.counts(), counts(0, 3, 0));
        }
        // Only the second set is freed, whatever is said.
        let kept = u64::from(keep.min(1));
        for say in [frame, u64::MAX, frame - 1] {
            done(&mut it, say);
            assert_eq!(it.counts(), counts(0, 2, kept));
            assert!(it.set(frame_set).is_some());
        }
        it.end_frame();
        assert_eq!(it.set(frame_set), None);
        assert_eq!(it.counts(), counts(0, 2, kept));
        let kept = u64::from(keep.min(3));
        done(&mut it, frame);
        assert_eq!(it.counts(), counts(0, 0, kept));
        shutdown(it);
    }
}

/// Sets that are live at a cleanup aren't kept once they are freed, so pools become empty.
#[test]
fn a_cleanup_while_sets_are_out() {
    let gpu = Gpu::default();
    let (mut it, layouts) = manager(&gpu, u32::MAX);
    let sets = it.allocate_many(layouts[0], 4).unwrap();
    it.begin_frame().unwrap();
    let _frame_set = it.allocate_for_frame(layouts[0]).unwrap();
    free(&mut it, &sets[..1]);
    it.free_after(&[sets[1]], 0).unwrap();
    // Two are held; the destroyed one and the frame set wait; the freed one is kept.
    assert_eq!((it.counts(), gpu.live()), (counts(2, 2, 1), 5));
    it.cleanup();
    assert_eq!((it.counts(), gpu.live()), (counts(2, 2, 0), 4));
    // What comes after it is kept.
    let later = it.allocate(layouts[0]).unwrap();
    done(&mut it, 0);
    free(&mut it, &sets[2..3]);
    it.end_frame();
    done(&mut it, 1);
    assert_eq!((it.counts(), gpu.live()), (counts(2, 0, 0), 2));
    free(&mut it, &[later]);
    assert_eq!((it.counts(), gpu.live()), (counts(1, 0, 1), 2));
    // A kept set that is reused counts as a new one.
    let later = it.allocate(layouts[0]).unwrap();
    free(&mut it, &[later, sets[3]]);
    assert_eq!((it.counts(), gpu.live()), (counts(0, 0, 1), 1));
    it.cleanup();
    assert!(gpu.is_empty());
    shutdown(it);
}

/// A trim leaves kept sets and their pools, and takes each pool that has none, wherever it stands.
#[test]
fn a_trim_with_kept_sets() {
    let gpu = Gpu::default();
    let (mut it, layouts) = manager(&gpu, 4);
    let sets: Vec<SetHandle> = (0..2000)
        .map(|_| it.allocate(layouts[0]).unwrap())
        .collect();
    // Seven: for 64, 64, 128, 256 and three times 512 sets.
    assert!(gpu.pools.borrow().len() > 6);
    free(&mut it, &sets[1..1999]);
    let counted = it.counts();
    it.trim();
    // What is kept may lie in as many pools as sets are kept.
    assert_eq!((it.counts(), gpu.live()), (counted, 6));
    assert!(gpu.pools.borrow().len() <= 6);
    free(&mut it, &[sets[0], sets[1999]]);
    it.cleanup();
    assert!(gpu.is_empty());
    shutdown(it);
}

/// A smaller `keep` frees at once what is too much of each layout.
#[test]
fn fewer_are_kept_from_now_on() {
    let gpu = Gpu::default();
    let (mut it, layouts) = manager(&gpu, u32::MAX);
    for layout in layouts {
        let sets = it.allocate_many(layout, 9).unwrap();
        free(&mut it, &sets);
    }
    for keep in [9, 4, 6, 1, 0] {
        it.set_max_kept(keep);
        // What is freed with 4 isn't freed again with 6.
        let kept = keep.min(4 + 5 * u32::from(keep == 9));
        assert!(layouts.iter().all(|at| it.kept_count(*at) == kept));
        assert_eq!(gpu.live(), 4 * kept as usize);
    }
    it.set_max_kept(u32::MAX);
    let set = it.allocate(layouts[0]).unwrap();
    free(&mut it, &[set]);
    assert_eq!(it.kept_count(layouts[0]), 1);
    // SAFETY: the device isn't in use.
    unsafe { it.free_all() };
    assert_eq!((it.counts(), gpu.live()), (counts(0, 0, 0), 0));
    shutdown(it);
}

/// In a frame loop neither the device nor the allocator of memory is asked for anything, once all frames
/// in flight have had their sets.
#[test]
fn a_frame_loop_asks_for_nothing() {
    let gpu = Gpu::default();
    let (mut it, layouts) = manager(&gpu, u32::MAX);
    let mut before = (0, 0, 0);
    let mut materials = it.allocate_many(layouts[1], 8).unwrap();
    for turn in 0..200 {
        let frame = it.begin_frame().unwrap();
        done(&mut it, frame.saturating_sub(3));
        for at in 0..50 {
            let layout = layouts[[0, 2, 0][at % 3]];
            let frame_set = counted(|| it.allocate_for_frame(layout)).unwrap();
            assert!(it.set(frame_set).is_some());
        }
        it.end_frame();
        let new = counted(|| it.allocate(layouts[1])).unwrap();
        let old = std::mem::replace(&mut materials[turn % 8], new);
        it.free_after(&[old], frame).unwrap();
        let now = (gpu.calls.get(), calls(), bytes());
        if turn >= 5 {
            assert_eq!(now, before);
        }
        before = now;
    }
    // Eight materials, the frame sets of three frames, and three materials more: two wait as one comes.
    assert_eq!(gpu.made.get(), 8 + 50 * 3 + 3);
    shutdown(it);
}

/// What a set is in use for. A frame set has its frame, and one that waits has its last use.
#[derive(Clone, Copy, Debug, PartialEq)]
enum Use {
    Held,
    InFrame(u64),
    Waits(u64),
    Kept,
}

/// A set that the set manager has to have.
#[derive(Debug)]
struct Known {
    raw: u64,
    layout: usize,
    handle: Option<SetHandle>,
    used: Use,

    /// Whether it was there at a cleanup.
    leaves: bool,
}

/// A set manager and the list of its sets.
struct Model<'a> {
    gpu: &'a Gpu,
    it: Sets<'a>,
    layouts: [LayoutHandle; LAYOUTS],
    keep: u32,
    sets: Vec<Known>,

    /// Handles that are invalid by now, and all that were given, so that none is given twice.
    old: Vec<SetHandle>,
    seen: HashSet<SetHandle>,

    /// How many requests were refused, and how many sets were reused.
    refusals: usize,
    again: usize,
}

impl Model<'_> {
    fn count(&self, is_it: impl Fn(&Known) -> bool) -> usize {
        self.sets.iter().filter(|set| is_it(set)).count()
    }

    fn kept(&self, layout: usize) -> usize {
        self.count(|set| set.layout == layout && set.used == Use::Kept)
    }

    /// The handles of the held sets.
    fn handles(&self) -> Vec<SetHandle> {
        let held = self.sets.iter().filter(|set| set.used == Use::Held);
        held.map(|set| set.handle.unwrap()).collect()
    }

    /// A new handle has come: that of a kept set of the layout, or of one that wasn't there.
    fn come(&mut self, layout: usize, handle: SetHandle, used: Use) -> bool {
        assert!(self.seen.insert(handle), "no handle comes twice");
        let raw = raw(&self.it, handle);
        assert_eq!(self.gpu.sets.borrow()[&raw].1, layout as u32);
        if let Some(known) = self.sets.iter_mut().find(|set| set.raw == raw) {
            assert_eq!((known.layout, known.used), (layout, Use::Kept));
            known.used = used;
            known.handle = Some(handle);
            return true;
        }
        self.sets.push(Known {
            raw,
            layout,
            handle: Some(handle),
            used,
            leaves: false,
        });
        false
    }

    /// The sets that pass the test are freed. It says how many of a layout are kept, but not which.
    fn come_back(&mut self, is_it: impl Fn(&Known) -> bool) {
        let mut room: [usize; LAYOUTS] =
            std::array::from_fn(|at| (self.keep as usize).saturating_sub(self.kept(at)));
        let mut may_stay = [0; LAYOUTS];
        let mut stay = [0; LAYOUTS];
        let (gpu, old) = (self.gpu, &mut self.old);
        self.sets.retain_mut(|set| {
            if !is_it(set) {
                return true;
            }
            old.extend(set.handle.take());
            set.used = Use::Kept;
            may_stay[set.layout] += usize::from(!set.leaves);
            let is_live = gpu.is_live(set.raw);
            assert!(!(is_live && set.leaves), "it was there at a cleanup");
            stay[set.layout] += usize::from(is_live);
            is_live
        });
        for at in 0..LAYOUTS {
            room[at] = room[at].min(may_stay[at]);
        }
        assert_eq!(stay, room);
    }

    /// All kept sets are gone, and the others are marked: they aren't kept later.
    fn clean(&mut self) {
        self.sets.retain(|set| set.used != Use::Kept);
        for set in &mut self.sets {
            set.leaves = true;
        }
    }

    /// What a request for sets does, with all that it may do.
    fn request(
        &mut self,
        layout: usize,
        many: usize,
        used: Use,
        ask: impl FnOnce(&mut Sets, LayoutHandle) -> Result<Vec<SetHandle>, RequestError>,
    ) {
        let (kept, refused, calls) = (
            self.kept(layout),
            self.gpu.refused.get(),
            self.gpu.calls.get(),
        );
        let all_kept: Vec<u64> = self
            .sets
            .iter()
            .filter(|set| set.used == Use::Kept)
            .map(|set| set.raw)
            .collect();
        let answer = ask(&mut self.it, self.layouts[layout]);
        let was_refused = self.gpu.refused.get() > refused;
        if many <= kept {
            assert_eq!(self.gpu.calls.get(), calls, "enough are kept");
        }
        // A refusal frees the kept sets of all layouts, unless the request alone exceeds the limit. Nothing
        // else in a request frees one.
        let is_above = layout == MARKED && many as u32 * DESCRIPTORS > LIMIT;
        let gone = all_kept
            .iter()
            .filter(|raw| !self.gpu.is_live(**raw))
            .count();
        match answer {
            Ok(handles) => {
                assert!(!is_above);
                assert_eq!(handles.len(), many);
                assert!(gone == 0 || gone == all_kept.len());
                let mut first = kept.min(many);
                if gone > 0 {
                    // The device refused, or the limit before it was asked. So no set is reused.
                    assert!(was_refused || layout == MARKED);
                    self.clean();
                    first = 0;
                }
                let mut again = 0;
                for handle in handles {
                    again += usize::from(self.come(layout, handle, used));
                }
                assert_eq!(again, first);
                self.again += again;
            }
            Err(RequestError::Allocation(error)) => {
                assert!(was_refused || (layout, error) == (MARKED, Fragmentation));
                assert!(many > kept);
                if is_above {
                    assert_eq!((gone, self.gpu.calls.get()), (0, calls));
                } else {
                    assert_eq!(gone, all_kept.len());
                }
                if gone > 0 {
                    self.clean();
                }
                self.refusals += 1;
            }
            Err(error) => panic!("{error}"),
        }
    }

    fn allocate_for_frame(&mut self, layout: usize) {
        let used = Use::InFrame(self.it.frame());
        self.request(layout, 1, used, |it, layout| {
            Ok(vec![it.allocate_for_frame(layout)?])
        });
    }

    fn create(&mut self, layout: usize) {
        self.request(layout, 1, Use::Held, |it, layout| {
            Ok(vec![it.allocate(layout)?])
        });
    }

    fn create_many(&mut self, layout: usize, many: usize, is_into: bool) {
        self.request(layout, many, Use::Held, |it, layout| {
            if !is_into {
                return it.allocate_many(layout, many as u32);
            }
            let mut sets = vec![SetHandle::NONE; many];
            let answer = it.allocate_into(layout, &mut sets);
            if answer.is_err() {
                assert!(sets.iter().all(|set| *set == SetHandle::NONE));
            }
            answer.map(|()| sets)
        });
    }

    fn free(&mut self, handles: &[SetHandle]) {
        free(&mut self.it, handles);
        self.come_back(|set| set.handle.is_some_and(|it| handles.contains(&it)));
    }

    fn destroy(&mut self, handles: &[SetHandle], last_use: u64) {
        self.it.free_after(handles, last_use).unwrap();
        for set in &mut self.sets {
            if set.handle.is_some_and(|it| handles.contains(&it)) {
                set.used = Use::Waits(last_use);
                self.old.extend(set.handle.take());
            }
        }
    }

    fn end(&mut self) {
        self.it.end_frame();
        for set in &mut self.sets {
            if let Use::InFrame(frame) = set.used {
                set.used = Use::Waits(frame);
                self.old.extend(set.handle.take());
            }
        }
    }

    fn done(&mut self, frame: u64) {
        done(&mut self.it, frame);
        // An open frame isn't done.
        let last = self.it.frame() - u64::from(self.it.is_frame_open());
        let frame = frame.min(last);
        self.come_back(|set| matches!(set.used, Use::Waits(it) | Use::InFrame(it) if it <= frame));
    }

    fn set_max_kept(&mut self, keep: u32) {
        self.it.set_max_kept(keep);
        self.keep = keep;
        let before: [usize; LAYOUTS] = std::array::from_fn(|at| self.kept(at));
        let gpu = self.gpu;
        self.sets
            .retain(|set| set.used != Use::Kept || gpu.is_live(set.raw));
        for (at, before) in before.into_iter().enumerate() {
            assert_eq!(self.kept(at), before.min(keep as usize));
        }
    }

    fn cleanup(&mut self) {
        self.it.cleanup();
        self.clean();
        self.gpu.check_front();
    }

    fn free_all(&mut self) {
        // SAFETY: the device isn't in use.
        unsafe { self.it.free_all() };
        self.old
            .extend(self.sets.drain(..).filter_map(|set| set.handle));
        assert!(!self.it.is_frame_open());
    }

    /// All is as the list says.
    fn check(&self) {
        assert_eq!(self.gpu.live(), self.sets.len(), "no other set");
        for set in &self.sets {
            assert!(self.gpu.is_live(set.raw));
            match set.handle {
                Some(handle) => assert_eq!(self.it.set(handle), Some(&set.raw)),
                None => assert!(!matches!(set.used, Use::Held | Use::InFrame(_))),
            }
        }
        let held = self.count(|set| set.used == Use::Held) as u64;
        let kept = self.count(|set| set.used == Use::Kept) as u64;
        let waiting = self.sets.len() as u64 - held - kept;
        assert_eq!(self.it.counts(), counts(held, waiting, kept));
        assert_eq!(self.it.outstanding(), held + waiting);
        for (at, layout) in self.layouts.iter().enumerate() {
            assert_eq!(self.it.kept_count(*layout), self.kept(at) as u32);
        }
        for old in self.old.iter().rev().take(8) {
            assert_eq!(self.it.set(*old), None);
        }
    }
}

/// Numbers by chance.
struct Random(u64);

impl Random {
    fn below(&mut self, end: usize) -> usize {
        self.0 = self
            .0
            .wrapping_mul(6364136223846793005)
            .wrapping_add(1442695040888963407);
        ((self.0 >> 33) % end as u64) as usize
    }

    /// At most `most` of the handles, in any order.
    fn some(&mut self, mut handles: Vec<SetHandle>, most: usize) -> Vec<SetHandle> {
        let count = self.below(most.min(handles.len()) + 1);
        (0..count)
            .map(|_| handles.swap_remove(self.below(handles.len())))
            .collect()
    }
}

/// One call by chance. Now and then some of the device's next calls are to be refused.
fn step(model: &mut Model, random: &mut Random, changes_keep: bool) {
    if random.below(25) == 0 {
        let count = 1 + random.below(3) as u64;
        let (after, reason) = (random.below(3) as u64, random.below(4));
        model.gpu.refuse(count, after, reason);
    }
    let layout = random.below(LAYOUTS);
    let frame = model.it.frame();
    let is_open = model.it.is_frame_open();
    let held = model.handles();
    match random.below(40) {
        0..9 if is_open => model.allocate_for_frame(layout),
        9..12 => model.create(layout),
        12..15 => {
            let many = match random.below(4) {
                0 if layout == MARKED => (LIMIT / DESCRIPTORS) as usize + 1,
                _ => random.below(9),
            };
            model.create_many(layout, many, random.below(2) == 0);
        }
        15..19 => {
            let some = random.some(held, 6);
            model.free(&some);
        }
        19..24 => {
            let some = random.some(held, 6);
            model.destroy(&some, random.below(frame as usize + 1) as u64);
        }
        24..31 if is_open => model.end(),
        24..31 => assert_eq!(model.it.begin_frame(), Ok(frame + 1)),
        31..36 => {
            let ago = random.below(4) as u64;
            model.done((frame + 1).saturating_sub(ago));
        }
        36 if random.below(8) == 0 => model.cleanup(),
        37 if random.below(20) == 0 => model.free_all(),
        38 if random.below(8) == 0 && changes_keep => {
            model.set_max_kept(KEEPS[random.below(KEEPS.len())]);
        }
        39 if random.below(4) == 0 && !is_open => {
            let to = frame + random.below(3) as u64;
            model.it.skip_to(to).unwrap();
        }
        _ => {
            // A list with an old handle, or with one twice, is refused whole.
            let mut list = random.some(held, 3);
            let bad = model.old.len().checked_sub(1 + random.below(20));
            let bad = bad.map(|at| model.old[at]).or(list.first().copied());
            list.extend(bad);
            if !list.is_empty() {
                let at = random.below(list.len());
                let last = list.len() - 1;
                list.swap(at, last);
                assert_eq!(model.it.free_after(&list, 0), Err(FreeError::NoSet));
                // SAFETY: the device isn't in use.
                let answer = unsafe { model.it.free(&list) };
                assert_eq!(answer, Err(FreeError::NoSet));
                let answer = model.it.free_after(&list, frame + 1);
                assert_eq!(answer, Err(FreeError::FrameAhead));
            }
        }
    }
}

/// Runs `steps` steps. Returns how many requests were refused, and how many sets were reused.
fn run(keep: u32, changes_keep: bool, steps: usize) -> (usize, usize) {
    let gpu = Gpu::default();
    let (it, layouts) = manager(&gpu, keep);
    let mut model = Model {
        gpu: &gpu,
        it,
        layouts,
        keep,
        sets: Vec::new(),
        old: Vec::new(),
        seen: HashSet::new(),
        refusals: 0,
        again: 0,
    };
    let mut random = Random(u64::from(keep) + 1);
    for number in 0..steps {
        step(&mut model, &mut random, changes_keep);
        model.check();
        // Frames that are never done would make the list long.
        if model.sets.len() > 150 {
            model.destroy(&model.handles(), 0);
            model.done(model.it.frame());
        }
        if model.old.len() > 1000 {
            model.old.drain(..900);
        }
        if number % 10_000 == 0 {
            model.seen.retain(|it| model.it.set(*it).is_some());
        }
    }
    let Model {
        it,
        refusals,
        again,
        ..
    } = model;
    shutdown(it);
    (refusals, again)
}

/// Random steps with each `keep`, and with one that changes. Enough requests have to be refused.
#[test]
fn against_a_model() {
    let steps = std::env::var("STEPS").map_or(20_000, |it| it.parse().unwrap());
    for keep in KEEPS {
        let (refusals, again) = run(keep, false, steps);
        println!("keep {keep}: {refusals} refusals, {again} sets came again");
        assert!(refusals > steps / 500);
        assert_eq!(again > 0, keep > 0);
    }
    let (refusals, again) = run(0, true, steps);
    println!("any keep: {refusals} refusals, {again} sets came again");
    assert!(refusals > steps / 500 && again > steps / 100);
}
