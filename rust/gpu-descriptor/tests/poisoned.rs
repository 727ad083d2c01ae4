//! Every public call of an allocator, a manager and a set manager that are poisoned: it panics and makes no
//! call of the device, or it reads. While the thread unwinds, those that a `Drop` makes do nothing.
//!
//! The lists name every public method: `every_call_is_listed` compares them with the sources.

#[allow(dead_code)]
mod hostile_device;

use gpu_descriptor::frames::FrameManager;
use gpu_descriptor::manager::{LayoutHandle, SetHandle, SetManager};
use gpu_descriptor::*;
use hostile_device::{Device, Fault, Set};
use std::any::Any;
use std::collections::BTreeSet;
use std::mem::forget;
use std::panic::{AssertUnwindSafe, catch_unwind};

/// What a call does once the thing that it is of is poisoned.
#[derive(Clone, Copy, Debug, PartialEq)]
enum After {
    Panics,

    /// It panics, but does nothing while the thread unwinds.
    PanicsButInADrop,

    /// It reads, or retires sets.
    Answers,
}
use After::*;

/// A public call by its name, and what it does.
struct Call<T> {
    name: &'static str,
    after: After,
    run: fn(&mut T),
}

/// Calls with what they do. The name of each is that of the method which it calls.
macro_rules! calls {
    ($type:ty, $stage:ident: $($after:ident ($it:expr).$name:ident($($argument:expr),*)$(.$unwrap:ident())?;)*) => {
        vec![$(Call::<$type> {
            name: stringify!($name),
            after: $after,
            run: |$stage| {
                #[allow(unused_unsafe, clippy::let_unit_value)]
                // SAFETY: the device keeps book, and the layouts are what they are said to be.
                let _ = unsafe { $it.$name($($argument),*) }$(.$unwrap())?;
            },
        },)*]
    };
}

const POISONED: &str = "an earlier call of this allocator panicked";

fn message(panic: Box<dyn Any + Send>) -> String {
    match panic.downcast::<String>() {
        Ok(text) => *text,
        Err(panic) => panic.downcast::<&str>().unwrap().to_string(),
    }
}

fn layout() -> SetLayout<String> {
    let counts = DescriptorTotalCount {
        sampler: 1,
        ..Default::default()
    };
    SetLayout {
        layout: String::new(),
        counts,
        flags: DescriptorSetLayoutCreateFlags::empty(),
    }
}

/// What the calls are made of: a thing that owns sets, its device, and what the calls take.
trait Stage: Sized {
    /// One set is live when a call panics.
    fn poisoned() -> Self;

    fn device(&self) -> &Device;

    fn is_poisoned(&self) -> bool;
}

/// How many calls a device was asked for, and how many sets it has back.
fn seen(device: &Device) -> (u64, usize) {
    (device.calls.get(), device.released())
}

/// Makes each call of a poisoned thing.
fn try_each<T: Stage>(calls: &[Call<T>]) {
    for call in calls {
        let mut stage = T::poisoned();
        let before = seen(stage.device());
        let ran = catch_unwind(AssertUnwindSafe(|| (call.run)(&mut stage)));
        if call.after == Answers {
            assert!(ran.is_ok(), "{}", call.name);
        } else {
            assert_eq!(
                message(ran.expect_err(call.name)),
                POISONED,
                "{}",
                call.name
            );
        }
        assert_eq!(seen(stage.device()), before, "{}", call.name);
        assert!(stage.is_poisoned(), "{}", call.name);
        // Without std its drop is a panic.
        forget(stage);
    }
}

/// Makes a call when it is dropped.
#[cfg(feature = "std")]
struct InADrop<'a, T>(&'a mut T, fn(&mut T));

#[cfg(feature = "std")]
impl<T> Drop for InADrop<'_, T> {
    fn drop(&mut self) {
        (self.1)(self.0);
    }
}

/// Makes the calls that a `Drop` makes while the thread unwinds. A panic there would end the program.
#[cfg(feature = "std")]
fn try_each_in_a_drop<T: Stage>(calls: &[Call<T>]) {
    for call in calls.iter().filter(|it| it.after != Panics) {
        let mut stage = T::poisoned();
        let before = seen(stage.device());
        let ran = catch_unwind(AssertUnwindSafe(|| {
            let _in_a_drop = InADrop(&mut stage, call.run);
            panic!("the first one");
        }));
        assert_eq!(message(ran.unwrap_err()), "the first one", "{}", call.name);
        assert_eq!(seen(stage.device()), before, "{}", call.name);
        assert!(stage.is_poisoned(), "{}", call.name);
    }
}

/// An allocator, with what its calls take.
struct Allocating {
    it: DescriptorAllocator<u64, Set>,
    device: Device,
    layout: SetLayout<String>,
    sets: Vec<DescriptorSet<Set>>,
}

impl Stage for Allocating {
    fn poisoned() -> Self {
        let (mut it, device, layout) = (DescriptorAllocator::new(0), Device::new(), layout());
        let sets = unsafe { it.allocate_for(&device, &layout, 1) }.unwrap();
        device.fault.set(Fault::PanicsAtAlloc);
        let ran = catch_unwind(AssertUnwindSafe(|| unsafe {
            it.allocate_one(&device, &layout)
        }));
        assert!(ran.is_err());
        device.fault.set(Fault::None);
        Allocating {
            it,
            device,
            layout,
            sets,
        }
    }

    fn device(&self) -> &Device {
        &self.device
    }

    fn is_poisoned(&self) -> bool {
        self.it.is_poisoned()
    }
}

fn calls_of_an_allocator() -> Vec<Call<Allocating>> {
    calls! { Allocating, on:
        Panics (on.it).allocate(&on.device, &on.layout.layout, on.layout.flags, &on.layout.counts, 1);
        Panics (on.it).allocate_for(&on.device, &on.layout, 0);
        Panics (on.it).allocate_into(&on.device, &on.layout, 1, &mut on.sets);
        Panics (on.it).allocate_one(&on.device, &on.layout);
        PanicsButInADrop (on.it).free(&on.device, on.sets.drain(..));
        PanicsButInADrop (on.it).cleanup(&on.device);
        PanicsButInADrop (on.it).trim(&on.device);
        PanicsButInADrop (on.it).trim_layout(&on.device, &on.layout);
        Panics (on.it).set_max_pool_descriptors(None);
        Answers (on.it).max_pool_descriptors();
        Answers (on.it).outstanding();
        Answers (on.it).update_after_bind_descriptors();
        Answers (on.it).update_after_bind_capacity();
        Answers (on.it).update_after_bind_limit();
        Answers (on.it).pool_count(&on.layout.counts, false);
        Answers (on.it).pool(&on.layout.counts, false, 0);
        Answers (on.it).ids();
        Answers (on.it).is_poisoned();
    }
}

#[test]
fn a_poisoned_allocator() {
    try_each(&calls_of_an_allocator());
    #[cfg(feature = "std")]
    try_each_in_a_drop(&calls_of_an_allocator());
}

/// A manager, with what its calls take. It has a retired set.
struct Managing {
    it: FrameManager<u64, Set>,
    device: Device,
    layout: SetLayout<String>,
    sets: Vec<DescriptorSet<Set>>,
}

impl Stage for Managing {
    fn poisoned() -> Self {
        let (mut it, device, layout) = (FrameManager::new(0), Device::new(), layout());
        let mut sets = unsafe { it.allocate_for(&device, &layout, 2) }.unwrap();
        it.retire(1, sets.pop().unwrap()).unwrap();
        device.fault.set(Fault::PanicsAtAlloc);
        let ran = catch_unwind(AssertUnwindSafe(|| unsafe {
            it.allocate_one(&device, &layout)
        }));
        assert!(ran.is_err());
        device.fault.set(Fault::None);
        Managing {
            it,
            device,
            layout,
            sets,
        }
    }

    fn device(&self) -> &Device {
        &self.device
    }

    fn is_poisoned(&self) -> bool {
        self.it.is_poisoned()
    }
}

fn calls_of_a_manager() -> Vec<Call<Managing>> {
    calls! { Managing, on:
        Panics (on.it).allocate(&on.device, &on.layout.layout, on.layout.flags, &on.layout.counts, 1);
        Panics (on.it).allocate_for(&on.device, &on.layout, 0);
        Panics (on.it).allocate_into(&on.device, &on.layout, 1, &mut on.sets);
        Panics (on.it).allocate_one(&on.device, &on.layout);
        PanicsButInADrop (on.it).finish(&on.device, 1);
        PanicsButInADrop (on.it).free(&on.device, on.sets.drain(..));
        PanicsButInADrop (on.it).cleanup(&on.device);
        PanicsButInADrop (on.it).trim(&on.device);
        PanicsButInADrop (on.it).trim_layout(&on.device, &on.layout);
        Panics (on.it).set_max_pool_descriptors(None);
        Answers (on.it).max_pool_descriptors();
        Answers (on.it).reserve(1);
        Answers (on.it).retire(1, on.sets.remove(0));
        Answers (on.it).retire_all(1, std::mem::take(&mut on.sets));
        Answers (on.it).outstanding();
        Answers (on.it).update_after_bind_capacity();
        Answers (on.it).update_after_bind_limit();
        Answers (on.it).pool_count(&on.layout.counts, false);
        Answers (on.it).pool(&on.layout.counts, false, 0);
        Answers (on.it).retired();
        Answers (on.it).greatest();
        Answers (on.it).is_poisoned();
    }
}

#[test]
fn a_poisoned_manager() {
    try_each(&calls_of_a_manager());
    #[cfg(feature = "std")]
    try_each_in_a_drop(&calls_of_a_manager());
}

/// The set manager is taken by two of its calls.
struct Rendering {
    it: Option<SetManager<String, u64, Set, &'static Device>>,
    device: &'static Device,
    layout: LayoutHandle,
    drawn: SetHandle,
    held: SetHandle,
}

impl Stage for Rendering {
    fn poisoned() -> Self {
        let device: &'static Device = Box::leak(Box::new(Device::new()));
        let mut it = SetManager::new(device, 0);
        let layouts = [(); 2].map(|()| unsafe { it.add_layout(layout()) }.unwrap());
        let [layout, other] = layouts;
        let (held, kept) = (it.allocate(layout).unwrap(), it.allocate(layout).unwrap());
        it.begin_frame().unwrap();
        let drawn = it.allocate_for_frame(layout).unwrap();
        // A set that could be reused.
        unsafe { it.free(&[kept]) }.unwrap();
        device.fault.set(Fault::PanicsAtAlloc);
        let ran = catch_unwind(AssertUnwindSafe(|| it.allocate_for_frame(other)));
        assert!(ran.is_err());
        device.fault.set(Fault::None);
        Rendering {
            it: Some(it),
            device,
            layout,
            drawn,
            held,
        }
    }

    fn device(&self) -> &Device {
        self.device
    }

    fn is_poisoned(&self) -> bool {
        self.it.as_ref().is_none_or(SetManager::is_poisoned)
    }
}

fn calls_of_a_set_manager() -> Vec<Call<Rendering>> {
    calls! { Rendering, on:
        Panics (on.it.as_mut().unwrap()).add_layout(layout());
        Panics (on.it.as_mut().unwrap()).remove_layout(on.layout);
        Panics (on.it.as_mut().unwrap()).begin_frame();
        Panics (on.it.as_mut().unwrap()).skip_to(9);
        Panics (on.it.as_mut().unwrap()).set_max_kept(0);
        Panics (on.it.as_mut().unwrap()).set_max_pool_descriptors(None);
        Answers (on.it.as_mut().unwrap()).max_pool_descriptors();
        Panics (on.it.as_mut().unwrap()).allocate_for_frame(on.layout);
        Panics (on.it.as_mut().unwrap()).allocate(on.layout);
        Panics (on.it.as_mut().unwrap()).allocate_many(on.layout, 0);
        Panics (on.it.as_mut().unwrap()).allocate_into(on.layout, &mut []);
        PanicsButInADrop (on.it.as_mut().unwrap()).end_frame();
        PanicsButInADrop (on.it.as_mut().unwrap()).frame_done(9);
        PanicsButInADrop (on.it.as_mut().unwrap()).cleanup();
        PanicsButInADrop (on.it.as_mut().unwrap()).trim();
        PanicsButInADrop (on.it.as_mut().unwrap()).free(&[on.held]).unwrap();
        PanicsButInADrop (on.it.as_mut().unwrap()).free_after(&[on.held], 1).unwrap();
        PanicsButInADrop (on.it.as_mut().unwrap()).free_after(&[on.held], 1).unwrap();
        PanicsButInADrop (on.it.as_mut().unwrap()).free_all();
        PanicsButInADrop (on.it.take().unwrap()).shutdown();
        Answers (on.it.take().unwrap()).into_device();
        Answers (on.it.as_mut().unwrap()).set(on.drawn).unwrap();
        Answers (on.it.as_mut().unwrap()).set(on.held).unwrap();
        Answers (on.it.as_mut().unwrap()).layout(on.layout).unwrap();
        Answers (on.it.as_mut().unwrap()).device();
        Answers (on.it.as_mut().unwrap()).frame();
        Answers (on.it.as_mut().unwrap()).is_frame_open();
        Answers (on.it.as_mut().unwrap()).is_poisoned();
        Answers (on.it.as_mut().unwrap()).counts();
        Answers (on.it.as_mut().unwrap()).kept_count(on.layout);
        Answers (on.it.as_mut().unwrap()).outstanding();
        Answers (on.it.as_mut().unwrap()).update_after_bind_capacity();
        Answers (on.it.as_mut().unwrap()).update_after_bind_limit();
        Answers (on.it.as_mut().unwrap()).pool_count(on.layout);
        Answers (on.it.as_mut().unwrap()).pool(on.layout, 0).unwrap();
        Answers (on.it.as_mut().unwrap()).layouts().count();
        Answers (on.it.as_mut().unwrap()).statistics();
        Answers (on.it.as_mut().unwrap()).layout_statistics(on.layout).unwrap();
        Answers (on.it.as_mut().unwrap()).write_statistics(&mut String::new(), |_| 0).unwrap();
    }
}

#[test]
fn a_poisoned_set_manager() {
    try_each(&calls_of_a_set_manager());
    #[cfg(feature = "std")]
    try_each_in_a_drop(&calls_of_a_set_manager());
}

/// The methods that a file has for all: its lines `    pub fn name(..&self..)`.
fn methods(source: &str) -> BTreeSet<&str> {
    let heads = source.split("\n    pub ").skip(1);
    let heads = heads.map(|it| it.strip_prefix("unsafe ").unwrap_or(it));
    let heads = heads.filter_map(|it| it.strip_prefix("fn "));
    let methods = heads.filter(|it| it.split(" {\n").next().unwrap().contains("self"));
    methods
        .map(|it| it.split(['(', '<']).next().unwrap())
        .collect()
}

fn names<T>(calls: &[Call<T>]) -> BTreeSet<&str> {
    calls.iter().map(|call| call.name).collect()
}

#[test]
fn every_call_is_listed() {
    let listed = calls_of_an_allocator();
    assert_eq!(names(&listed), methods(include_str!("../src/allocator.rs")));
    let mut all = methods(include_str!("../src/frames.rs"));
    // That of an error.
    assert!(all.remove("into_inner"));
    assert_eq!(names(&calls_of_a_manager()), all);
    let mut all = methods(include_str!("../src/manager.rs"));
    all.extend(methods(include_str!("../src/manager/statistics.rs")));
    assert_eq!(names(&calls_of_a_set_manager()), all);
}
