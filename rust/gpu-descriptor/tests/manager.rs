//! `SetManager` compared with a list of what it has to have: each call of the device and each growth of memory is
//! refused in turn; handles that are stale, foreign or doubled; batches, all or none; panics. What it
//! keeps is only counted here: kept.rs has a model of that.

mod gpu;
mod refuses;

use gpu::{Fault, Gpu, REASONS, Random, Set, layout};
use gpu_descriptor::AllocationError::{self, *};
use gpu_descriptor::manager::*;
use refuses::{bytes, calls, counted, refuse};
use std::collections::{BTreeSet, HashSet};
use std::panic::{AssertUnwindSafe, catch_unwind};

type Sets<'a> = SetManager<u32, usize, Set, &'a Gpu>;

/// How many sets of a layout are kept.
const KEEPS: [u32; 4] = [0, 1, 7, u32::MAX];

/// A set manager, and what it has to have.
struct Stage<'a> {
    gpu: &'a Gpu,
    manager: Sets<'a>,
    keep: u32,
    layouts: Vec<LayoutHandle>,

    /// The frame sets of the open frame, what is held, and what waits, with its last use.
    drawn: Vec<(SetHandle, Set)>,
    held: Vec<(SetHandle, Set)>,
    retired: Vec<(u64, Set)>,

    /// Handles that are invalid by now.
    old_draws: Vec<SetHandle>,
    old_sets: Vec<SetHandle>,

    /// All handles of sets that ever came.
    seen: HashSet<SetHandle>,

    /// Why requests were refused, and how often a layout was.
    refusals: Vec<AllocationError>,
    layouts_refused: u64,
}

/// A call that may take no memory.
fn without_memory<R>(run: impl FnOnce() -> R) -> R {
    let before = calls();
    let answer = counted(run);
    assert_eq!(calls(), before, "no memory is taken");
    answer
}

impl<'a> Stage<'a> {
    /// It keeps all.
    fn new(gpu: &'a Gpu) -> Self {
        let mut stage = Stage {
            gpu,
            manager: without_memory(|| SetManager::new(gpu, 10_000)),
            keep: u32::MAX,
            layouts: Vec::new(),
            drawn: Vec::new(),
            held: Vec::new(),
            retired: Vec::new(),
            old_draws: Vec::new(),
            old_sets: Vec::new(),
            seen: HashSet::new(),
            refusals: Vec::new(),
            layouts_refused: 0,
        };
        for number in 0..3 {
            let mut new = layout(number);
            let handle = loop {
                // SAFETY: the device knows no layouts.
                match counted(|| unsafe { stage.manager.add_layout(new) }) {
                    Ok(handle) => break handle,
                    Err(error) => new = error.into_inner(),
                }
                assert_eq!(new.layout, number);
                stage.layouts_refused += 1;
            };
            stage.layouts.push(handle);
        }
        stage
    }

    fn with_keep(gpu: &'a Gpu, keep: u32) -> Self {
        let mut stage = Stage::new(gpu);
        stage.set_max_kept(keep);
        stage
    }

    fn set_max_kept(&mut self, keep: u32) {
        without_memory(|| self.manager.set_max_kept(keep));
        self.keep = keep;
        self.check();
    }

    fn frame(&self) -> u64 {
        self.manager.frame()
    }

    /// How many sets are kept, of all layouts.
    fn kept(&self) -> u64 {
        let kept = |it: &LayoutHandle| u64::from(self.manager.kept_count(*it));
        self.layouts.iter().map(kept).sum()
    }

    /// How many sets of the device aren't kept.
    fn live(&self) -> usize {
        self.gpu.live_sets() - self.kept() as usize
    }

    /// The set manager has exactly these sets, and the device no other but those that are kept.
    fn check(&self) {
        let it = &self.manager;
        let counts = Counts {
            held: self.held.len() as u64,
            waiting: (self.drawn.len() + self.retired.len()) as u64,
            kept: self.kept(),
        };
        assert_eq!(it.counts(), counts);
        let mut all = BTreeSet::new();
        for (handle, raw) in self.drawn.iter().chain(&self.held) {
            assert_eq!(it.set(*handle), Some(raw));
            all.insert(*raw);
        }
        all.extend(self.retired.iter().map(|it| it.1));
        assert!(all.iter().all(|raw| self.gpu.is_live(*raw)));
        let count = self.drawn.len() + self.held.len() + self.retired.len();
        assert_eq!(all.len(), count, "no set is there twice");
        assert_eq!(self.live(), count, "and no other one");
        assert_eq!(it.outstanding(), count as u64);
        let old = self.old_draws.iter().chain(&self.old_sets);
        assert!(old.into_iter().all(|old| it.set(*old).is_none()));
        for (handle, number) in self.layouts.iter().zip(0..) {
            assert_eq!(it.layout(*handle).map(|it| it.layout), Some(number));
            assert!(it.kept_count(*handle) <= self.keep);
        }
    }

    /// Notes why a request was refused. It changed nothing.
    fn refused(&mut self, error: RequestError) -> bool {
        let RequestError::Allocation(error) = error else {
            panic!("{error}");
        };
        self.refusals.push(error);
        self.check();
        false
    }

    /// This and the next two make a request, note what came, and return whether it was granted.
    fn allocate_for_frame(&mut self, layout: usize) -> bool {
        match counted(|| self.manager.allocate_for_frame(self.layouts[layout])) {
            Ok(handle) => {
                let raw = self.come(handle);
                self.drawn.push((handle, raw));
                true
            }
            Err(error) => self.refused(error),
        }
    }

    fn create(&mut self, layout: usize) -> bool {
        match counted(|| self.manager.allocate(self.layouts[layout])) {
            Ok(handle) => {
                self.hold(handle);
                true
            }
            Err(error) => self.refused(error),
        }
    }

    fn create_many(&mut self, layout: usize, count: u32) -> bool {
        match counted(|| self.manager.allocate_many(self.layouts[layout], count)) {
            Ok(handles) => {
                assert_eq!(handles.len(), count as usize);
                handles.into_iter().for_each(|it| self.hold(it));
                true
            }
            Err(error) => self.refused(error),
        }
    }

    /// The set of a new handle.
    fn come(&mut self, handle: SetHandle) -> Set {
        let raw = *self.manager.set(handle).unwrap();
        assert!(!self.gpu.is_read(raw), "a frame in flight reads it");
        assert!(self.seen.insert(handle), "no handle comes twice");
        raw
    }

    /// The set of a new handle is held.
    fn hold(&mut self, handle: SetHandle) {
        let raw = self.come(handle);
        self.held.push((handle, raw));
    }

    /// The handles of `count` held sets from a place on, which are then no longer held.
    fn take(&mut self, from: usize, count: usize) -> Vec<(SetHandle, Set)> {
        let taken: Vec<_> = self.held.drain(from..from + count).collect();
        self.old_sets.extend(taken.iter().map(|it| it.0));
        taken
    }

    fn free(&mut self, from: usize, count: usize) {
        let taken = self.take(from, count);
        let handles: Vec<_> = taken.iter().map(|it| it.0).collect();
        // SAFETY: the device sees to it that no frame in flight reads one.
        let answer = without_memory(|| unsafe { self.manager.free(&handles) });
        assert_eq!(answer, Ok(()));
        assert!(self.keep > 0 || taken.iter().all(|it| !self.gpu.is_live(it.1)));
    }

    fn destroy_many(&mut self, from: usize, count: usize, last_use: u64) {
        let taken = self.take(from, count);
        let handles: Vec<_> = taken.iter().map(|it| it.0).collect();
        let answer = without_memory(|| self.manager.free_after(&handles, last_use));
        assert_eq!(answer, Ok(()));
        self.retired.extend(taken.iter().map(|it| (last_use, it.1)));
    }

    fn free_all(&mut self) {
        self.take(0, self.held.len());
        self.old_draws.extend(self.drawn.drain(..).map(|it| it.0));
        self.retired.clear();
        // SAFETY: the device sees to it that no frame in flight reads one.
        without_memory(|| unsafe { self.manager.free_all() });
        assert_eq!(self.gpu.live_sets(), 0);
        self.check();
    }

    fn destroy(&mut self, place: usize, last_use: u64) {
        let (handle, raw) = self.held.swap_remove(place);
        assert_eq!(
            without_memory(|| self.manager.free_after(&[handle], last_use)),
            Ok(())
        );
        self.retired.push((last_use, raw));
        self.old_sets.push(handle);
    }

    fn begin(&mut self) {
        let frame = self.frame();
        assert_eq!(without_memory(|| self.manager.begin_frame()), Ok(frame + 1));
    }

    fn end(&mut self) {
        let frame = self.frame();
        without_memory(|| self.manager.end_frame());
        for (handle, raw) in self.drawn.drain(..) {
            self.retired.push((frame, raw));
            self.old_draws.push(handle);
        }
    }

    fn done(&mut self, frame: u64) {
        self.gpu.wait(frame);
        // SAFETY: the device checks that no frame in flight reads a set that is freed.
        without_memory(|| unsafe { self.manager.frame_done(frame) });
        // An open frame isn't done.
        let is_open = u64::from(self.manager.is_frame_open());
        let done = frame.min(self.frame() - is_open);
        self.retired.retain(|it| it.0 > done);
        self.check();
    }

    fn cleanup(&mut self) {
        without_memory(|| self.manager.cleanup());
        assert_eq!(self.kept(), 0);
        self.check();
    }

    fn shutdown(self) {
        self.gpu.wait(u64::MAX);
        // SAFETY: as above.
        without_memory(|| unsafe { self.manager.shutdown() });
        assert!(self.gpu.is_empty(), "nothing is left");
    }
}

/// A scene of eight frames, three of them in flight. A call that is refused is made again, and granted.
/// Returns the refusals, and how often a layout was refused.
fn scene(gpu: &Gpu, keep: u32) -> (Vec<AllocationError>, u64) {
    let mut stage = Stage::with_keep(gpu, keep);
    for number in 0..4 {
        assert!(stage.create(number % 3) || stage.create(number % 3));
    }
    for frame in 1..=8 {
        stage.begin();
        for layout in [0, 1, 2, 1, 1, 0, 1, 2] {
            assert!(stage.allocate_for_frame(layout) || stage.allocate_for_frame(layout));
        }
        stage.check();
        let layout = frame as usize % 3;
        assert!(stage.create(layout) || stage.create(layout));
        let count = 3 * frame as u32;
        assert!(stage.create_many(layout, count) || stage.create_many(layout, count));
        stage.free(stage.held.len() - 2, 2);
        let held = stage.held.iter().map(|it| it.1);
        gpu.submit(frame, stage.drawn.iter().map(|it| it.1).chain(held));
        stage.end();
        stage.destroy(frame as usize % stage.held.len(), frame);
        stage.destroy_many(1, frame as usize, frame);
        stage.done(frame.saturating_sub(2));
        if frame == 5 {
            stage.cleanup();
        }
    }
    let refusals = (std::mem::take(&mut stage.refusals), stage.layouts_refused);
    stage.shutdown();
    refusals
}

/// A refusal while sets are kept isn't the end: they are freed, and it retries once.
#[test]
fn the_device_refuses_each_call() {
    for keep in KEEPS {
        let gpu = Gpu::new();
        assert_eq!(scene(&gpu, keep), (vec![], 0));
        let all = gpu.calls.get();
        println!("{all} calls");
        assert!(all > 30);
        for reason in 0..REASONS {
            let mut seen = 0;
            for call in 0..all {
                let gpu = Gpu::with_fault(call, Fault::Refuses(reason));
                let (refusals, _) = scene(&gpu, keep);
                assert!(gpu.calls.get() > call, "the call was made");
                assert!(refusals.len() <= 1);
                let wanted = [OutOfDeviceMemory, OutOfHostMemory, Fragmentation];
                // A pool that refuses for its own sake may be passed over; want of memory is reported.
                if reason < 2 && (keep == 0 || !refusals.is_empty()) {
                    assert_eq!(refusals, [wanted[reason]]);
                }
                seen += refusals.len();
            }
            println!("{all} calls refused for reason {reason}, keep {keep}: {seen} refusals");
            assert!(seen > 0);
        }
    }
}

/// A growth that is refused costs one call, or none if sets are kept: then it retries once.
#[test]
fn each_growth_is_refused() {
    for keep in KEEPS {
        for number in 0.. {
            refuse(number);
            let (refusals, layouts) = scene(&Gpu::new(), keep);
            if number >= calls() {
                assert_eq!((refusals.len(), layouts), (0, 0));
                println!("{number} calls for memory");
                assert!(number > 10);
                break;
            }
            let seen = refusals.len() as u64 + layouts;
            assert!(seen == 1 || keep > 0 && seen == 0, "growth {number}");
            assert!(refusals.iter().all(|it| *it == OutOfHostMemory));
        }
    }
}

/// Memory for a slot is taken before the device is asked, so if it is missing no set is freed.
#[test]
fn out_of_memory_frees_no_set() {
    for number in 0.. {
        refuse(number);
        let gpu = Gpu::new();
        let mut stage = Stage::new(&gpu);
        for _ in 0..9 {
            stage.begin();
            stage.create(2);
            stage.allocate_for_frame(0);
            stage.end();
        }
        assert_eq!(gpu.releases.get(), 0);
        let refusals = stage.refusals.len() as u64 + stage.layouts_refused;
        stage.shutdown();
        assert_eq!(refusals, u64::from(number < calls()));
        if refusals == 0 {
            assert!(number > 10);
            break;
        }
    }
}

/// Calls by chance, some of which the device refuses.
#[test]
fn by_chance() {
    let mut random = Random(1);
    let mut refusals = 0;
    for round in 0..600 {
        let gpu = Gpu::new();
        let mut stage = Stage::with_keep(&gpu, KEEPS[round % 4]);
        for _ in 0..200 {
            if random.below(10) == 0 {
                gpu.faulty.set(gpu.calls.get() + random.below(3));
                let reason = random.below(REASONS as u64) as usize;
                gpu.fault.set(Fault::Refuses(reason));
            }
            let layout = random.below(3) as usize;
            let frame = stage.frame();
            match random.below(22) {
                0..5 if stage.manager.is_frame_open() => _ = stage.allocate_for_frame(layout),
                5..8 => _ = stage.create(layout),
                8..11 if !stage.held.is_empty() => {
                    let place = random.below(stage.held.len() as u64) as usize;
                    stage.destroy(place, random.below(frame + 1));
                }
                11..13 if !stage.manager.is_frame_open() => stage.begin(),
                11..13 => stage.end(),
                13 => stage.done(random.below(frame + 2)),
                14 => stage.cleanup(),
                15..17 => _ = stage.create_many(layout, random.below(9) as u32),
                17..21 => {
                    let held = stage.held.len() as u64;
                    let from = random.below(held + 1);
                    let count = random.below((held - from).min(6) + 1) as usize;
                    match random.below(2) {
                        0 => stage.free(from as usize, count),
                        _ => stage.destroy_many(from as usize, count, random.below(frame + 1)),
                    }
                }
                _ if random.below(8) == 0 => stage.free_all(),
                _ if random.below(8) == 0 => stage.set_max_kept(KEEPS[layout]),
                _ => {
                    if let Some(old) = stage.old_sets.last() {
                        let answer = stage.manager.free_after(&[*old], 0);
                        assert_eq!(answer, Err(FreeError::NoSet));
                    }
                }
            }
            stage.check();
        }
        refusals += stage.refusals.len();
        stage.shutdown();
    }
    assert!(refusals > 1000);
}

/// The handle of a set that was freed, or of an older frame, is invalid.
#[test]
fn stale_handles() {
    let gpu = Gpu::new();
    let mut stage = Stage::new(&gpu);
    stage.create(0);
    let (old, raw) = stage.held[0];
    stage.destroy(0, 0);
    stage.done(0);
    // The same slot and the same raw set, under another handle.
    stage.create(0);
    assert_eq!(stage.held[0].1, raw);
    assert_ne!(stage.held[0].0, old);
    assert_eq!(stage.manager.set(old), None);
    let answer = stage.manager.free_after(&[old], 0);
    assert_eq!(answer, Err(FreeError::NoSet));
    // A frame set of an older frame, whose set is reused.
    stage.begin();
    stage.allocate_for_frame(0);
    let (frame_set, raw) = stage.drawn[0];
    // It isn't held.
    let answer = stage.manager.free_after(&[frame_set], 0);
    assert_eq!(answer, Err(FreeError::NoSet));
    // SAFETY: the device isn't in use.
    let answer = unsafe { stage.manager.free(&[frame_set]) };
    assert_eq!(answer, Err(FreeError::NoSet));
    stage.end();
    assert_eq!(stage.manager.set(frame_set), None);
    stage.begin();
    stage.done(1);
    stage.allocate_for_frame(0);
    assert_eq!(stage.drawn[0].1, raw);
    assert_eq!(stage.manager.set(frame_set), None);
    stage.check();
    stage.shutdown();
}

/// Handles of another set manager are invalid.
#[test]
fn foreign_handles() {
    let (gpu, other_gpu) = (Gpu::new(), Gpu::new());
    let (mut stage, mut other) = (Stage::new(&gpu), Stage::new(&other_gpu));
    for it in [&mut stage, &mut other] {
        it.begin();
        it.allocate_for_frame(0);
        it.create(0);
    }
    let it = &mut stage.manager;
    assert_eq!(it.set(other.drawn[0].0), None);
    assert_eq!(it.set(other.held[0].0), None);
    assert!(it.layout(other.layouts[0]).is_none());
    assert_eq!(it.kept_count(other.layouts[0]), 0);
    assert_eq!(
        it.allocate_for_frame(other.layouts[0]),
        Err(RequestError::NoLayout)
    );
    assert_eq!(it.allocate(other.layouts[0]), Err(RequestError::NoLayout));
    let answer = it.allocate_many(other.layouts[0], 0);
    assert_eq!(answer, Err(RequestError::NoLayout));
    let answer = it.free_after(&[other.held[0].0], 0);
    assert_eq!(answer, Err(FreeError::NoSet));
    stage.check();
    other.check();
    stage.shutdown();
    other.shutdown();
}

/// A list with a wrong handle at any place is refused whole, and after that the sets are as they were.
#[test]
fn wrong_handles_in_a_batch() {
    let (gpu, other_gpu) = (Gpu::new(), Gpu::new());
    let (mut stage, mut other) = (Stage::new(&gpu), Stage::new(&other_gpu));
    stage.begin();
    stage.create_many(0, 7);
    stage.free(6, 1);
    // In its place, under another handle.
    stage.create_many(0, 1);
    stage.create_many(1, 3);
    stage.destroy_many(8, 1, 1);
    // At the same places, and at one that is nowhere here.
    other.create_many(0, 40);
    let held: Vec<_> = stage.held.iter().map(|it| it.0).collect();
    let raws: Vec<_> = stage.held.iter().map(|it| it.1).collect();
    // One that was freed and whose place is taken, one that waits, and two of the other set manager.
    let wrong = [
        stage.old_sets[0],
        stage.old_sets[1],
        other.held[3].0,
        other.held[39].0,
    ];
    for place in 0..held.len() {
        let doubled = held[(place + 1) % held.len()];
        for bad in wrong.into_iter().chain([doubled]) {
            let mut list = held.clone();
            list[place] = bad;
            let releases = gpu.releases.get();
            let answer = without_memory(|| unsafe { stage.manager.free(&list) });
            assert_eq!(answer, Err(FreeError::NoSet));
            let answer = without_memory(|| stage.manager.free_after(&list, 0));
            assert_eq!(answer, Err(FreeError::NoSet));
            assert_eq!(gpu.releases.get(), releases);
            stage.check();
        }
        let answer = stage.manager.free_after(&held, 2);
        assert_eq!(answer, Err(FreeError::FrameAhead));
        stage.check();
    }
    let mut twice = held.clone();
    twice.extend(&held);
    let answer = without_memory(|| unsafe { stage.manager.free(&twice) });
    assert_eq!(answer, Err(FreeError::NoSet));
    let now: Vec<_> = held
        .iter()
        .map(|it| *stage.manager.set(*it).unwrap())
        .collect();
    assert_eq!(now, raws);
    // What was refused is granted without the wrong handle, and the other set manager has its sets.
    stage.free(0, held.len());
    stage.check();
    other.check();
    stage.shutdown();
    other.shutdown();
}

/// A request for many sets that is refused leaves none.
#[test]
fn a_batch_is_all_or_none() {
    let gpu = Gpu::new();
    let mut stage = Stage::new(&gpu);
    // Five update-after-bind descriptors a set, of 10,000.
    assert!(!stage.create_many(2, 2_001));
    assert_eq!(stage.refusals, [Fragmentation]);
    assert!(stage.create_many(2, 50));
    // Two sets to a pool: the third pool is refused.
    gpu.faulty.set(gpu.calls.get() + 4);
    gpu.fault.set(Fault::Refuses(0));
    assert!(!stage.create_many(1, 9));
    assert_eq!(stage.refusals, [Fragmentation, OutOfDeviceMemory]);
    assert!(stage.create_many(1, 9));
    assert!(stage.create_many(0, 0));
    // In one call they go back.
    stage.set_max_kept(0);
    assert!(stage.create_many(0, 30));
    let releases = gpu.releases.get();
    stage.free(59, 30);
    assert_eq!(gpu.releases.get(), releases + 1);
    stage.free(0, 0);
    stage.destroy_many(0, 0, 0);
    stage.check();
    stage.shutdown();
}

/// A batch as large as one before finds all memory but that of the handles which it returns.
#[test]
fn a_batch_allocates_its_handles_alone() {
    for keep in KEEPS {
        let gpu = Gpu::new();
        let mut stage = Stage::with_keep(&gpu, keep);
        for _ in 0..2 {
            assert!(stage.create_many(0, 50));
            stage.free(0, 50);
        }
        let before = calls();
        assert!(stage.create_many(0, 50));
        assert_eq!(calls(), before + 1);
        stage.shutdown();
    }
}

/// Slots are used again under other handles, so memory follows the peak of sets.
#[test]
fn slots_are_used_again() {
    for keep in KEEPS {
        let gpu = Gpu::new();
        let mut stage = Stage::with_keep(&gpu, keep);
        let mut seen = HashSet::with_capacity(40_000);
        let mut most = 0;
        for round in 0..300 {
            // One list is freed at once, and the other waits for a frame.
            let mut lists = [Vec::new(), Vec::new()];
            for at in 0..40 {
                let layout = stage.layouts[0];
                let many = stage.manager.allocate_many(layout, 2).unwrap();
                lists[at % 2].extend(many);
                lists[at % 2].push(stage.manager.allocate(layout).unwrap());
            }
            assert!(lists.iter().flatten().all(|it| seen.insert(*it)));
            // SAFETY: the device isn't in use.
            unsafe { stage.manager.free(&lists[round % 2]) }.unwrap();
            let rest = &lists[1 - round % 2];
            stage.manager.free_after(rest, 0).unwrap();
            // SAFETY: as above.
            unsafe { stage.manager.frame_done(0) };
            drop(lists);
            if round == 1 {
                most = bytes();
            }
        }
        assert_eq!(seen.len(), 36_000);
        assert_eq!(bytes(), most);
        stage.check();
        stage.shutdown();
    }
}

/// The places of sets that are gone are free for sets of other layouts.
#[test]
fn memory_follows_the_peak_of_sets() {
    for keep in KEEPS {
        let gpu = Gpu::new();
        let mut stage = Stage::with_keep(&gpu, keep);
        let mut asked = |layout, count| {
            let before = calls();
            assert!(stage.create_many(layout, count));
            let asked = calls() - before;
            stage.destroy_many(0, count as usize, 0);
            stage.done(0);
            // What was kept goes, but not the last pool, with its memory.
            stage.set_max_kept(0);
            stage.set_max_kept(keep);
            asked
        };
        // Memory for the pools of both.
        asked(0, 20);
        asked(2, 20);
        // And for the sets: places that are free don't count at the next request.
        assert!(asked(0, 60) > 1);
        asked(0, 60);
        for _ in 0..9 {
            // That of the list of handles alone.
            assert_eq!((asked(2, 60), asked(0, 60)), (1, 1));
        }
        stage.shutdown();
    }
}

/// What is held, drawn, waiting and kept is freed.
#[test]
fn all_sets_at_once() {
    let gpu = Gpu::new();
    let mut stage = Stage::new(&gpu);
    stage.free_all();
    for round in 0..5 {
        stage.create_many(round % 3, 20);
        for _ in 0..2 {
            stage.begin();
            stage.allocate_for_frame(0);
            stage.allocate_for_frame(1);
            stage.end();
        }
        stage.destroy_many(3, 8, stage.frame() - 1);
        stage.begin();
        stage.allocate_for_frame(2);
        stage.done(stage.frame() - 1);
        stage.free_all();
        // The frame is ended: in it a frame set would get the handle of one that is gone.
        assert!(!stage.manager.is_frame_open());
        stage.begin();
        assert!(stage.allocate_for_frame(0));
        stage.check();
        stage.end();
    }
    assert!(gpu.pools() > 0);
    stage.free_all();
    stage.cleanup();
    assert!(gpu.is_empty());
    stage.shutdown();
}

/// A program may count its frames itself.
#[test]
fn frames_are_skipped() {
    let gpu = Gpu::new();
    let mut stage = Stage::new(&gpu);
    stage.create_many(0, 4);
    let ahead = stage.held[0].0;
    let answer = stage.manager.free_after(&[ahead], 70);
    assert_eq!(answer, Err(FreeError::FrameAhead));
    assert_eq!(stage.manager.skip_to(70), Ok(()));
    assert_eq!((stage.frame(), stage.manager.is_frame_open()), (70, false));
    assert_eq!(stage.manager.skip_to(30), Ok(()));
    assert_eq!(stage.frame(), 70);
    stage.destroy_many(0, 2, 70);
    stage.destroy_many(0, 1, 69);
    stage.done(69);
    // One is held, and two wait for frame 70.
    assert_eq!(stage.live(), 3);
    stage.begin();
    assert_eq!(stage.frame(), 71);
    assert_eq!(stage.manager.skip_to(90), Err(BeginFrameError::FrameOpen));
    assert_eq!(stage.frame(), 71);
    stage.end();
    stage.done(70);
    assert_eq!(stage.live(), 1);
    assert_eq!(stage.manager.skip_to(u64::MAX), Ok(()));
    let answer = stage.manager.begin_frame();
    assert_eq!(answer, Err(BeginFrameError::NoMoreFrames));
    stage.destroy_many(0, 1, u64::MAX);
    stage.done(u64::MAX - 1);
    assert_eq!(stage.live(), 1);
    stage.done(u64::MAX);
    stage.shutdown();
}

/// Calls for which a frame has to be open, or not to be, and frames that are said to be done too early.
#[test]
fn frames_out_of_turn() {
    let gpu = Gpu::new();
    let mut stage = Stage::new(&gpu);
    let layout = stage.layouts[0];
    assert_eq!(
        stage.manager.allocate_for_frame(layout),
        Err(RequestError::NoFrame)
    );
    stage.end();
    stage.begin();
    assert_eq!(stage.manager.begin_frame(), Err(BeginFrameError::FrameOpen));
    stage.allocate_for_frame(0);
    stage.create(0);
    let answer = stage.manager.free_after(&[stage.held[0].0], 2);
    assert_eq!(answer, Err(FreeError::FrameAhead));
    // The sets of the open frame stay, and those that were used last in it, whatever is done.
    stage.create(0);
    stage.destroy(1, 1);
    stage.create(0);
    stage.destroy(1, 0);
    // The frame_set, one that is held, and two that wait.
    assert_eq!(stage.live(), 4);
    stage.done(u64::MAX);
    // The one with last use 0 was freed.
    assert_eq!((stage.drawn.len(), stage.retired.len()), (1, 1));
    stage.done(1);
    assert_eq!(stage.live(), 3);
    stage.end();
    stage.end();
    assert_eq!(
        stage.manager.allocate_for_frame(layout),
        Err(RequestError::NoFrame)
    );
    stage.done(1);
    assert_eq!(stage.live(), 1);
    let texts = [
        RequestError::NoFrame.to_string(),
        RequestError::from(OutOfHostMemory).to_string(),
        BeginFrameError::FrameOpen.to_string(),
        FreeError::NoSet.to_string(),
        RemoveLayoutError::NoLayout.to_string(),
    ];
    assert_eq!(
        texts,
        [
            "No open frame",
            "Host memory exhausted",
            "Frame already open",
            "Unknown set",
            "Unknown layout"
        ]
    );
    stage.shutdown();
}

#[test]
fn a_set_manager_shows_its_state() {
    let gpu = Gpu::new();
    let mut it = SetManager::new(&gpu, 10_000);
    // SAFETY: the device knows no layouts.
    let layout = unsafe { it.add_layout(layout(0)) }.unwrap();
    let held = it.allocate_many(layout, 6).unwrap();
    it.skip_to(6).unwrap();
    it.begin_frame().unwrap();
    it.free_after(&held[..1], 7).unwrap();
    // SAFETY: no frame is in flight.
    unsafe { it.free(&held[1..3]) }.unwrap();
    let text = "SetManager { frame: 7, is_frame_open: true, is_poisoned: false, \
        counts: Counts { held: 3, waiting: 1, kept: 2 }, .. }";
    assert_eq!(format!("{it:?}"), text);
    it.end_frame();
    assert!(format!("{it:?}").contains("frame: 7, is_frame_open: false"));
    // SAFETY: as above.
    unsafe { it.shutdown() };
}

/// A set that is destroyed in a frame in flight isn't freed before that frame is done.
#[test]
fn freed_in_flight() {
    let gpu = Gpu::new();
    let mut stage = Stage::with_keep(&gpu, 0);
    stage.create(0);
    let raw = stage.held[0].1;
    for frame in 1..=3 {
        stage.begin();
        gpu.submit(frame, [raw].into_iter());
        stage.end();
    }
    stage.destroy(0, 3);
    for done in [0, 1, 2] {
        stage.done(done);
        assert!(gpu.is_live(raw));
    }
    // The device sees it, should the frame not be over.
    let is_seen = catch_unwind(AssertUnwindSafe(|| unsafe { stage.manager.frame_done(3) }));
    assert!(is_seen.is_err());
    std::mem::forget(stage);

    for keep in [0, 1] {
        let gpu = Gpu::new();
        let mut stage = Stage::with_keep(&gpu, keep);
        stage.create(0);
        let raw = stage.held[0].1;
        stage.begin();
        gpu.submit(1, [raw].into_iter());
        stage.end();
        stage.destroy(0, 1);
        // It isn't reused, as the device would see.
        stage.create(0);
        assert!(gpu.is_live(raw));
        stage.done(1);
        assert_eq!(gpu.is_live(raw), keep == 1);
        stage.shutdown();
    }
}

/// A set with an earlier last use than sets that wait already is freed with its own frame.
#[test]
fn retired_late() {
    let gpu = Gpu::new();
    let mut stage = Stage::new(&gpu);
    for _ in 0..6 {
        stage.create(0);
    }
    for _ in 1..=5 {
        stage.begin();
        stage.allocate_for_frame(1);
        stage.end();
    }
    for last_use in [5, 1, 4, 0, 2, 2] {
        stage.destroy(0, last_use);
        stage.check();
    }
    // Of those six and a frame set of each of five frames: what is left once a frame is done.
    for (done, left) in [(0, 10), (1, 8), (2, 5), (3, 4), (4, 2), (5, 0)] {
        stage.done(done);
        assert_eq!(stage.live(), left);
    }
    stage.shutdown();
}

/// What a call of a poisoned set manager does: it panics.
fn panics<R>(what: &str, run: impl FnOnce() -> R) {
    let ran = catch_unwind(AssertUnwindSafe(|| drop(Some(run()))));
    let panic = ran.expect_err(what);
    let text = panic.downcast_ref::<&str>().expect("a text");
    assert_eq!(*text, "an earlier call of this allocator panicked");
}

/// After a panic of the device each call panics, and the device isn't called any more.
#[test]
fn a_panic_poisons() {
    let without = Gpu::new();
    scene(&without, 1);
    let mut tried = 0;
    for call in (0..without.calls.get()).step_by(7) {
        let gpu = Gpu::with_fault(call, Fault::Panics);
        let mut stage = Stage::with_keep(&gpu, 1);
        let ran = catch_unwind(AssertUnwindSafe(|| {
            for _ in 0..4 {
                stage.begin();
                for layout in [0, 1, 2, 1, 1] {
                    stage.allocate_for_frame(layout);
                    stage.create(layout);
                }
                stage.end();
            }
        }));
        // These frames make fewer calls than a scene: the last ones don't come.
        assert_eq!(ran.is_err(), gpu.calls.get() == call + 1);
        if ran.is_ok() {
            stage.shutdown();
            continue;
        }
        tried += 1;
        let (layouts, it) = (&stage.layouts, &mut stage.manager);
        assert!(it.is_poisoned());
        panics("draw", || it.allocate_for_frame(layouts[0]));
        panics("create", || it.allocate(layouts[0]));
        panics("create many", || it.allocate_many(layouts[0], 2));
        panics("free", || unsafe { it.free(&[]) });
        panics("free all", || unsafe { it.free_all() });
        panics("destroy", || it.free_after(&[], 0));
        panics("begin", || it.begin_frame());
        panics("skip", || it.skip_to(9));
        panics("end", || it.end_frame());
        panics("done", || unsafe { it.frame_done(9) });
        panics("cleanup", || it.cleanup());
        panics("keep", || it.set_max_kept(0));
        panics("add", || unsafe { it.add_layout(layout(0)) });
        // Readers still answer.
        for (handle, raw) in &stage.held {
            assert_eq!(it.set(*handle), Some(raw));
        }
        let calls = gpu.calls.get();
        panics("shutdown", || unsafe { stage.manager.shutdown() });
        assert_eq!((gpu.calls.get(), gpu.releases.get()), (calls, 0));
    }
    assert!(tried > 3);
}

fn is_sent<T: Send>(it: T) -> T {
    it
}

/// A set manager that owns its device moves to another thread, and returns the device.
#[test]
fn owns_a_device() {
    let mut manager = is_sent(SetManager::new(Gpu::new(), 0));
    let handle = unsafe { manager.add_layout(layout(0)) }.unwrap();
    let _held = manager.allocate(handle).unwrap();
    assert_eq!(manager.device().live_sets(), 1);
    assert_eq!(
        format!("{manager:?}"),
        "SetManager { frame: 0, is_frame_open: false, is_poisoned: false, \
         counts: Counts { held: 1, waiting: 0, kept: 0 }, .. }"
    );
    let gpu = unsafe { manager.shutdown() };
    assert!(gpu.is_empty());
}

/// Two queues that count frames for themselves have a set manager each: no set of one is freed by the other's frames.
#[test]
fn sets_of_two_queues() {
    let gpu = Gpu::new();
    let mut queues = [10, 10].map(|limit| SetManager::new(&gpu, limit));
    // SAFETY: the device knows no layouts.
    let layouts = queues
        .each_mut()
        .map(|it| unsafe { it.add_layout(layout(0)) }.unwrap());
    let [graphics, compute] = &mut queues;
    graphics.skip_to(100).unwrap();
    compute.skip_to(5_000).unwrap();
    let set = graphics.allocate(layouts[0]).unwrap();
    let raw = *graphics.set(set).unwrap();
    graphics.free_after(&[set], 100).unwrap();
    let other = compute.allocate(layouts[1]).unwrap();
    compute.free_after(&[other], 5_000).unwrap();
    // SAFETY: the compute queue is idle.
    unsafe { compute.frame_done(5_000) };
    let waiting = [&*graphics, compute].map(|it| it.counts().waiting);
    assert_eq!(waiting, [1, 0]);
    let mut again = compute.allocate_many(layouts[1], 2).unwrap();
    assert!(again.iter().all(|it| *compute.set(*it).unwrap() != raw));
    // A set of a submission, once its fence has signaled.
    // SAFETY: as above.
    unsafe { compute.free(&[again.remove(0)]) }.unwrap();
    assert_eq!((compute.outstanding(), graphics.outstanding()), (1, 1));
    for it in queues {
        // SAFETY: both queues are idle.
        unsafe { it.shutdown() };
    }
    assert!(gpu.is_empty());
}
