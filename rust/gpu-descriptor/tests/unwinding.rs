//! A program that cleans up in a `Drop` ends by its first panic, whatever panicked. Without std nobody can
//! see that a thread unwinds, and such a `Drop` ends the program.
#![cfg(feature = "std")]

mod gpu;

use gpu::{AS_TOLD, Gpu, Set, layout};
use gpu_descriptor::frames::FrameManager;
use gpu_descriptor::manager::{LayoutHandle, SetHandle, SetManager};
use gpu_descriptor::*;
use std::panic::{AssertUnwindSafe, catch_unwind};

/// The message of a panic.
fn panic_of(run: impl FnOnce()) -> String {
    let panic = catch_unwind(AssertUnwindSafe(run)).expect_err("a panic");
    match panic.downcast::<&str>() {
        Ok(text) => text.to_string(),
        Err(panic) => *panic.downcast::<String>().unwrap(),
    }
}

/// A set manager that is shut down at a drop, as programs do it.
struct App<'a> {
    manager: Option<SetManager<u32, usize, Set, &'a Gpu>>,
    layout: LayoutHandle,
    held: Vec<SetHandle>,
}

impl<'a> App<'a> {
    /// Four sets are held, and one is drawn.
    fn new(gpu: &'a Gpu) -> Self {
        let mut it = SetManager::new(gpu, 0);
        // SAFETY: the device knows no layouts.
        let layout = unsafe { it.add_layout(layout(0)) }.unwrap();
        let held = it.allocate_many(layout, 4).unwrap();
        it.begin_frame().unwrap();
        let _drawn = it.allocate_for_frame(layout).unwrap();
        App {
            manager: Some(it),
            layout,
            held,
        }
    }

    fn manager(&mut self) -> &mut SetManager<u32, usize, Set, &'a Gpu> {
        self.manager.as_mut().unwrap()
    }
}

impl Drop for App<'_> {
    fn drop(&mut self) {
        let mut it = self.manager.take().unwrap();
        it.end_frame();
        it.free_after(&[self.held[0]], 1).unwrap();
        it.free_after(&self.held[1..2], 1).unwrap();
        // SAFETY: the device isn't in use, here and below.
        unsafe { it.free(&self.held[2..3]) }.unwrap();
        unsafe { it.frame_done(1) };
        it.cleanup();
        unsafe { it.free_all() };
        let _gpu = unsafe { it.shutdown() };
    }
}

/// Nothing more is asked of a device that panicked.
#[test]
fn a_set_manager_after_a_panic_of_its_device() {
    let gpu = Gpu::new();
    let why = panic_of(|| {
        let mut app = App::new(&gpu);
        gpu.faulty.set(gpu.calls.get());
        let layout = app.layout;
        let _drawn = app.manager().allocate_for_frame(layout);
    });
    assert_eq!((why.as_str(), gpu.releases.get()), (AS_TOLD, 0));
    let gpu = Gpu::new();
    let why = panic_of(|| {
        let mut app = App::new(&gpu);
        gpu.panics_at_release.set(true);
        unsafe { app.manager().free_all() };
    });
    assert_eq!((why.as_str(), gpu.releases.get()), (AS_TOLD, 1));
}

/// A frame that is ended at a drop, in which a set is drawn.
#[test]
fn a_frame_after_a_panic_of_the_device() {
    struct Frame<'a, 'b>(&'b mut App<'a>);

    impl Drop for Frame<'_, '_> {
        fn drop(&mut self) {
            self.0.manager().end_frame();
        }
    }

    let gpu = Gpu::new();
    let mut app = App::new(&gpu);
    app.manager().end_frame();
    let why = panic_of(|| {
        app.manager().begin_frame().unwrap();
        let frame = Frame(&mut app);
        gpu.faulty.set(gpu.calls.get());
        let layout = frame.0.layout;
        let _drawn = frame.0.manager().allocate_for_frame(layout);
    });
    assert_eq!(why, AS_TOLD);
    // The thread doesn't unwind any more: the set manager's calls panic, and the device can be taken.
    let manager = app.manager.take().unwrap();
    assert!(manager.is_poisoned());
    manager.into_device();
    std::mem::forget(app);
}

/// A manager with its device, which frees all at a drop.
struct Frames<'a> {
    manager: FrameManager<usize, Set>,
    gpu: &'a Gpu,
    used: Vec<DescriptorSet<Set>>,
}

impl<'a> Frames<'a> {
    /// One set is in use, and one is retired.
    fn new(gpu: &'a Gpu) -> Self {
        let mut manager = FrameManager::new(0);
        let mut used = unsafe { manager.allocate_for(gpu, &layout(0), 2) }.unwrap();
        manager.retire(1, used.pop().unwrap()).unwrap();
        Frames { manager, gpu, used }
    }
}

impl Drop for Frames<'_> {
    fn drop(&mut self) {
        // SAFETY: the device isn't in use.
        unsafe { self.manager.finish(self.gpu, 1) };
        unsafe { self.manager.free(self.gpu, self.used.drain(..)) };
        unsafe { self.manager.cleanup(self.gpu) };
    }
}

/// A manager whose device panicked doesn't call it again either: there is the one release.
#[test]
fn a_manager_after_a_panic_of_its_device() {
    let gpu = Gpu::new();
    let why = panic_of(|| {
        let mut frames = Frames::new(&gpu);
        gpu.panics_at_release.set(true);
        unsafe { frames.manager.finish(&gpu, 1) };
    });
    assert_eq!((why.as_str(), gpu.releases.get()), (AS_TOLD, 1));
}

/// If the panic has nothing to do with the device, all sets and pools go.
#[test]
fn after_another_panic() {
    let gpu = Gpu::new();
    let why = panic_of(|| {
        let _app = App::new(&gpu);
        panic!("another");
    });
    assert!(why == "another" && gpu.is_empty());
    let why = panic_of(|| {
        let _frames = Frames::new(&gpu);
        panic!("another");
    });
    assert!(why == "another" && gpu.is_empty());
}

/// A set of another allocator is a panic, but not while the thread unwinds.
#[test]
fn a_set_of_another_manager_after_a_panic() {
    let gpu = Gpu::new();
    let mut other = FrameManager::new(0);
    let why = panic_of(|| {
        let mut frames = Frames::new(&gpu);
        let foreign = unsafe { other.allocate_one(&gpu, &layout(0)) }.unwrap();
        frames.used.push(foreign);
        panic!("another");
    });
    assert_eq!(why, "another");
    // What is left is the other manager's.
    assert_eq!((gpu.live_sets(), gpu.pools()), (1, 1));
    std::mem::forget(other);
}
