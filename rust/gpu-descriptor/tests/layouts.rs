//! Layouts of a `SetManager` that are removed: what their handles name, what becomes of their sets, and that
//! memory follows the peak of layouts.

mod gpu;
mod refuses;

use gpu::{Gpu, Set, layout};
use gpu_descriptor::manager::*;
use gpu_descriptor::{DescriptorSetLayoutCreateFlags, DescriptorTotalCount, SetLayout};
use refuses::{bytes, calls, counted, refuse, with_refused};
use std::collections::HashSet;

type Sets<'a> = SetManager<u32, usize, Set, &'a Gpu>;

fn add(it: &mut Sets, number: u32) -> LayoutHandle {
    // SAFETY: the device knows no layouts.
    counted(|| unsafe { it.add_layout(layout(number)) }).unwrap()
}

/// Removes a layout, without memory.
fn remove(it: &mut Sets, handle: LayoutHandle) -> Result<u32, RemoveLayoutError> {
    let before = calls();
    let removed = counted(|| it.remove_layout(handle));
    assert_eq!(calls(), before, "no memory is taken");
    removed.map(|it| it.layout)
}

fn free(it: &mut Sets, sets: &[SetHandle]) {
    // SAFETY: no frame in flight reads one.
    unsafe { it.free(sets) }.unwrap();
}

fn shutdown(gpu: &Gpu, it: Sets) {
    // SAFETY: no frame is in flight.
    unsafe { it.shutdown() };
    assert!(gpu.is_empty());
}

/// Each call with the handle is refused, as with one of another set manager.
fn is_unknown(it: &mut Sets, handle: LayoutHandle) {
    assert!(it.layout(handle).is_none());
    assert_eq!(it.kept_count(handle), 0);
    assert_eq!(it.allocate(handle), Err(RequestError::NoLayout));
    assert_eq!(it.allocate_many(handle, 2), Err(RequestError::NoLayout));
    it.begin_frame().unwrap();
    assert_eq!(it.allocate_for_frame(handle), Err(RequestError::NoLayout));
    it.end_frame();
    assert_eq!(remove(it, handle), Err(RemoveLayoutError::NoLayout));
}

#[test]
fn a_removed_handle_is_invalid() {
    let (gpu, other_gpu) = (Gpu::new(), Gpu::new());
    let (mut it, mut other) = (
        SetManager::new(&gpu, 10_000),
        SetManager::new(&other_gpu, 10_000),
    );
    let (first, second) = (add(&mut it, 0), add(&mut it, 1));
    let foreign = add(&mut other, 2);
    is_unknown(&mut it, foreign);
    let mut seen = HashSet::from([first, second]);
    let mut last = first;
    for round in 0..100 {
        assert_eq!(remove(&mut it, last), Ok(round % 3));
        is_unknown(&mut it, last);
        let next = add(&mut it, (round + 1) % 3);
        assert!(seen.insert(next), "no handle comes twice");
        is_unknown(&mut it, last);
        assert_eq!(it.layout(next).map(|it| it.layout), Some((round + 1) % 3));
        assert_eq!(it.layout(second).map(|it| it.layout), Some(1));
        last = next;
    }
    shutdown(&gpu, it);
    shutdown(&other_gpu, other);
}

/// The numbers that mark handles don't come again soon. Each set manager here has a layout and a set at the same place.
#[test]
fn handles_of_a_thousand_set_managers() {
    let (gpu, other_gpu) = (Gpu::new(), Gpu::new());
    let mut it = SetManager::new(&gpu, 10_000);
    let layout = add(&mut it, 0);
    let set = it.allocate(layout).unwrap();
    for _ in 0..1000 {
        let mut other = SetManager::new(&other_gpu, 10_000);
        let own = add(&mut other, 0);
        let held = other.allocate(own).unwrap();
        assert!(other.layout(layout).is_none() && other.set(set).is_none());
        // SAFETY: no frame in flight reads one.
        assert_eq!(unsafe { other.free(&[set]) }, Err(FreeError::NoSet));
        assert!(other.set(held).is_some());
        shutdown(&other_gpu, other);
    }
    shutdown(&gpu, it);
}

/// The next layout has the counts of the removed one, so its sets are in the same pools.
#[test]
fn sets_of_a_removed_layout() {
    let gpu = Gpu::new();
    let mut it = SetManager::new(&gpu, 10_000);
    let old = add(&mut it, 0);
    let held = it.allocate_many(old, 4).unwrap();
    it.begin_frame().unwrap();
    let drawn = it.allocate_for_frame(old).unwrap();
    // SAFETY: no frame in flight reads it.
    unsafe { it.free(&held[..1]) }.unwrap();
    assert_eq!((it.kept_count(old), gpu.live_sets()), (1, 5));
    assert_eq!(remove(&mut it, old), Ok(0));
    assert_eq!(gpu.live_sets(), 4, "the kept set is freed, and no other");
    let new = add(&mut it, 0);
    let raws: Vec<_> = held[1..].iter().map(|set| *it.set(*set).unwrap()).collect();
    assert!(it.set(drawn).is_some());
    // None is kept for the new layout, however it is freed.
    it.end_frame();
    it.free_after(&[held[1]], 1).unwrap();
    // SAFETY: no frame in flight reads one.
    unsafe { it.free(&held[2..3]) }.unwrap();
    assert_eq!((it.kept_count(new), it.counts().kept), (0, 0));
    assert!(!gpu.is_live(raws[1]));
    // SAFETY: as above.
    unsafe { it.frame_done(1) };
    assert_eq!((it.kept_count(new), it.counts().kept), (0, 0));
    assert_eq!((it.counts().held, gpu.live_sets()), (1, 1));
    assert!(gpu.is_live(raws[2]));
    // Sets of the new layout are kept.
    let own = it.allocate_many(new, 2).unwrap();
    // SAFETY: as above.
    unsafe { it.free(&[own[0], held[3], own[1]]) }.unwrap();
    assert_eq!((it.kept_count(new), gpu.live_sets()), (2, 2));
    shutdown(&gpu, it);
}

#[test]
fn memory_follows_the_peak_of_layouts() {
    let gpu = Gpu::new();
    let mut it = SetManager::new(&gpu, 10_000);
    let mut live: Vec<_> = (0..30).map(|number| add(&mut it, number % 3)).collect();
    let mut turn = |at: usize| {
        let set = counted(|| it.allocate(live[at])).unwrap();
        // SAFETY: no frame is in flight.
        unsafe { it.free(&[set]) }.unwrap();
        let number = it.layout(live[at]).unwrap().layout;
        assert_eq!(remove(&mut it, live[at]), Ok(number));
        live[at] = add(&mut it, number);
    };
    (0..30).for_each(&mut turn);
    let before = (calls(), bytes());
    (0..10_000).for_each(|round| turn(round * 7 % 30));
    assert_eq!((calls(), bytes()), before);
    shutdown(&gpu, it);
}

/// However many layouts there are: the lists that have one place for each may be full.
#[test]
fn the_number_of_a_removed_layout_takes_no_memory() {
    let gpu = Gpu::new();
    let mut it = SetManager::new(&gpu, 10_000);
    for number in 0..40 {
        refuse(u64::MAX);
        let last = add(&mut it, number % 3);
        assert_eq!(remove(&mut it, last), Ok(number % 3));
        // SAFETY: the device knows no layouts.
        let (added, calls) = with_refused(0, || unsafe { it.add_layout(layout(1)) });
        assert_eq!((it.layout(added.unwrap()).unwrap().layout, calls), (1, 0));
    }
    shutdown(&gpu, it);
}

/// Whichever call for memory is refused, the set manager has the layouts that it had, and adds it at the next try.
#[test]
fn a_layout_that_is_refused_memory_comes_back() {
    for refused in 0.. {
        let gpu = Gpu::new();
        let mut it = SetManager::new(&gpu, 10_000);
        let mut refusals = 0;
        refuse(refused);
        for number in 0..40 {
            // SAFETY: the device knows no layouts.
            if let Err(error) = counted(|| unsafe { it.add_layout(layout(number % 3)) }) {
                let texts = (error.to_string(), format!("{error:?}"));
                assert_eq!(texts.0, "Host memory exhausted");
                assert_eq!(texts.1, "AddLayoutError(..)");
                assert_eq!(error.into_inner().layout, number % 3);
                assert_eq!(it.statistics().layouts, u64::from(number));
                refusals += 1;
                let _ = add(&mut it, number % 3);
            }
            assert_eq!(it.statistics().layouts, u64::from(number) + 1);
        }
        assert_eq!(refusals, u32::from(refused < calls()));
        shutdown(&gpu, it);
        if refusals == 0 {
            assert!(refused > 10);
            break;
        }
    }
}

/// Only then, since another layout with its memory would keep them.
#[test]
fn memory_of_a_removed_layout_is_used_again_once_its_sets_are_freed() {
    let gpu = Gpu::new();
    let mut it = SetManager::new(&gpu, 10_000);
    let leave_a_set = |it: &mut Sets| {
        let layout = add(it, 0);
        let set = it.allocate(layout).unwrap();
        remove(it, layout).unwrap();
        set
    };
    let held: Vec<_> = (0..30).map(|_| leave_a_set(&mut it)).collect();
    let before = calls();
    free(&mut it, &held);
    let new: Vec<_> = (0..30).map(|number| add(&mut it, number % 3)).collect();
    assert_eq!(calls(), before, "no memory is taken");
    assert!(new.iter().all(|layout| it.kept_count(*layout) == 0));
    shutdown(&gpu, it);
}

/// Each has a key of its own, whose last pool goes with it.
#[test]
fn layouts_with_counts_of_their_own() {
    let gpu = Gpu::new();
    let mut it = SetManager::new(&gpu, 10_000);
    for sampler in 1..=10_000 {
        let layout = SetLayout {
            layout: sampler,
            counts: DescriptorTotalCount {
                sampler,
                ..Default::default()
            },
            flags: DescriptorSetLayoutCreateFlags::empty(),
        };
        // SAFETY: the device knows no layouts.
        let handle = unsafe { it.add_layout(layout) }.unwrap();
        let sets = it.allocate_many(handle, 2).unwrap();
        free(&mut it, &sets);
        assert_eq!((gpu.pools(), gpu.live_sets()), (1, 2));
        assert_eq!(remove(&mut it, handle), Ok(sampler));
        assert!(gpu.is_empty());
    }
    assert_eq!(it.statistics().pools, 0);
    shutdown(&gpu, it);
}

/// A layout that is removed takes the empty pools of its key with it, and no others.
#[test]
fn a_removed_layout_beside_one_of_its_key() {
    let gpu = Gpu::new();
    let mut it = SetManager::new(&gpu, 10_000);
    let [first, second, other] = [0, 0, 1].map(|number| add(&mut it, number));
    // An empty pool of another key.
    it.set_max_kept(0);
    let set = it.allocate(other).unwrap();
    free(&mut it, &[set]);
    it.set_max_kept(u32::MAX);
    // A pool that both layouts have sets of, and one behind it.
    let stays = it.allocate(second).unwrap();
    let goes = it.allocate_many(first, 64).unwrap();
    free(&mut it, &goes);
    free(&mut it, &[stays]);
    assert_eq!((it.pool_count(second), it.pool_count(other)), (2, 1));
    assert_eq!(remove(&mut it, first), Ok(0));
    assert_eq!((it.pool_count(second), it.pool_count(other)), (1, 1));
    assert_eq!((it.kept_count(second), gpu.live_sets()), (1, 1));
    // Its set is reused without a call, and stays when the layout goes. The pool that it leaves stays too.
    let calls = gpu.calls.get();
    let held = it.allocate(second).unwrap();
    assert_eq!(gpu.calls.get(), calls);
    assert_eq!(remove(&mut it, second), Ok(0));
    free(&mut it, &[held]);
    assert_eq!((gpu.pools(), gpu.live_sets()), (2, 0));
    it.trim();
    assert!(gpu.is_empty());
    shutdown(&gpu, it);
}

/// Sets of two keys, allocated in turn, whose layouts were removed: one call frees those of a pool.
#[test]
fn sets_that_go_in_turn_are_freed_by_pool() {
    for waits in [false, true] {
        let gpu = Gpu::new();
        let mut it = SetManager::new(&gpu, 10_000);
        let layouts = [add(&mut it, 0), add(&mut it, 2)];
        let in_turn = (0..8).map(|at| it.allocate(layouts[at % 2]).unwrap());
        let sets: Vec<_> = in_turn.collect();
        for layout in layouts {
            remove(&mut it, layout).unwrap();
        }
        assert_eq!((gpu.pools(), gpu.releases.get()), (2, 0));
        if waits {
            it.free_after(&sets, 0).unwrap();
            // SAFETY: no frame is in flight.
            unsafe { it.frame_done(0) };
        } else {
            free(&mut it, &sets);
        }
        assert_eq!((gpu.live_sets(), gpu.releases.get()), (0, 2));
        shutdown(&gpu, it);
    }
}
