//! What a drop says: a line on standard error, or without std a panic. And what is dropped before what.

use gpu_descriptor::frames::FrameManager;
use gpu_descriptor::manager::SetManager;
use gpu_descriptor::*;

include!("numbers/device.rs");

/// What a drop says of live sets, and of a set manager's pools that exist.
const SETS: &str = "Descriptor sets were not deallocated";
const POOLS: &str = "Descriptor pools were not destroyed";

fn layout() -> SetLayout<u64> {
    let counts = DescriptorTotalCount {
        sampler: 1,
        ..Default::default()
    };
    SetLayout {
        layout: 0,
        counts,
        flags: DescriptorSetLayoutCreateFlags::empty(),
    }
}

type Allocator = DescriptorAllocator<u64, u64>;
type Manager = FrameManager<u64, u64>;
type Sets = SetManager<u64, u64, u64, Device>;

/// An allocator with one live set.
fn allocator() -> (Allocator, Device, DescriptorSet<u64>) {
    let (mut allocator, device) = (Allocator::new(0), Device::default());
    let set = unsafe { allocator.allocate_one(&device, &layout()) }.unwrap();
    (allocator, device, set)
}

/// A frame manager with one live set.
fn frame_manager() -> (Manager, Device, DescriptorSet<u64>) {
    let (mut frame_manager, device) = (Manager::new(0), Device::default());
    let set = unsafe { frame_manager.allocate_one(&device, &layout()) }.unwrap();
    (frame_manager, device, set)
}

/// A set manager with one pool and a kept set.
fn manager() -> Sets {
    let mut manager = SetManager::new(Device::default(), 0);
    let layout = unsafe { manager.add_layout(layout()) }.unwrap();
    let set = manager.allocate(layout).unwrap();
    unsafe { manager.free(&[set]) }.unwrap();
    manager
}

/// Makes something and drops it.
type Drops = fn();

/// Drops, each with what it says.
const DROPS: [(Drops, Option<&str>); 9] = [
    (|| drop(allocator()), Some(SETS)),
    (
        || {
            // The pool stays.
            let (mut allocator, device, set) = allocator();
            unsafe { allocator.free(&device, [set]) };
        },
        None,
    ),
    (|| drop(frame_manager()), Some(SETS)),
    (
        || {
            let (mut frame_manager, _, set) = frame_manager();
            frame_manager.retire(1, set).unwrap();
        },
        Some(SETS),
    ),
    (
        || {
            let (mut frame_manager, device, set) = frame_manager();
            frame_manager.retire(1, set).unwrap();
            unsafe { frame_manager.finish(&device, 1) };
        },
        None,
    ),
    (|| drop(manager()), Some(POOLS)),
    (
        || {
            let _device = unsafe { manager().shutdown() };
        },
        None,
    ),
    (
        || {
            let _device = manager().into_device();
        },
        None,
    ),
    (
        || {
            let _unused = Sets::new(Device::default(), 0);
        },
        None,
    ),
];

/// Each drop is made in a process of its own, whose standard error is read.
#[cfg(feature = "std")]
#[test]
fn what_a_drop_writes() {
    if let Ok(place) = std::env::var("DROPPED") {
        return DROPS[place.parse::<usize>().unwrap()].0();
    }
    for (place, (_, line)) in DROPS.iter().enumerate() {
        let ran = std::process::Command::new(std::env::current_exe().unwrap())
            .args(["what_a_drop_writes", "--exact", "--nocapture"])
            .env("DROPPED", place.to_string())
            .output()
            .unwrap();
        assert!(ran.status.success(), "{place}");
        let errors = String::from_utf8(ran.stderr).unwrap();
        let lines = errors.lines().filter(|it| [SETS, POOLS].contains(it));
        assert!(lines.eq(*line), "{place}: {errors}");
        let ends = line.is_none_or(|it| errors.contains(&format!("{it}\n")));
        assert!(ends, "the line has its end");
    }
}

/// A drop that has a line to write is no panic if standard error is full.
#[cfg(all(feature = "std", target_os = "linux"))]
#[test]
fn a_line_that_can_not_be_written() {
    let full = std::fs::File::options().write(true).open("/dev/full");
    let ran = std::process::Command::new(std::env::current_exe().unwrap())
        .args(["what_a_drop_writes", "--exact", "--nocapture"])
        .env("DROPPED", "0")
        .stderr(full.unwrap())
        .output()
        .unwrap();
    assert!(ran.status.success());
}

#[cfg(not(feature = "std"))]
#[test]
fn when_a_drop_panics() {
    for (place, (run, text)) in DROPS.iter().enumerate() {
        let said = std::panic::catch_unwind(run).err().map(|panic| {
            let text = panic.downcast_ref::<String>().expect("a text");
            text.clone()
        });
        assert_eq!(said.as_deref(), *text, "{place}");
    }
}

/// Raw values and a device that note their drops. Without std the drop of pools is a panic.
#[cfg(feature = "std")]
mod order {
    use super::*;
    use std::cell::RefCell;
    use std::rc::Rc;

    type Log = Rc<RefCell<Vec<&'static str>>>;

    #[derive(Debug)]
    struct Noted(&'static str, Log);

    impl Drop for Noted {
        fn drop(&mut self) {
            self.1.borrow_mut().push(self.0);
        }
    }

    /// A device that holds what notes its drop.
    struct Gpu(Noted);

    impl DescriptorDevice<Noted, Noted, Noted> for Gpu {
        unsafe fn create_descriptor_pool(
            &self,
            _: &DescriptorTotalCount,
            _: u32,
            _: DescriptorPoolCreateFlags,
        ) -> Result<Noted, CreatePoolError> {
            Ok(Noted("pool", self.0.1.clone()))
        }

        unsafe fn destroy_descriptor_pool(&self, _: Noted) {}

        unsafe fn alloc_descriptor_sets<'a>(
            &self,
            _: &mut Noted,
            layouts: impl ExactSizeIterator<Item = &'a Noted>,
            sets: &mut impl Extend<Noted>,
        ) -> Result<(), DeviceAllocationError> {
            sets.extend(layouts.map(|_| Noted("set", self.0.1.clone())));
            Ok(())
        }

        unsafe fn dealloc_descriptor_sets(&self, _: &mut Noted, sets: impl Iterator<Item = Noted>) {
            sets.for_each(drop);
        }
    }

    /// A set manager with a layout, a pool, and sets that are drawn, held, waiting and kept.
    fn manager(log: &Log) -> SetManager<Noted, Noted, Noted, Gpu> {
        let mut manager = SetManager::new(Gpu(Noted("device", log.clone())), 0);
        let SetLayout { counts, flags, .. } = layout();
        let layout = SetLayout {
            layout: Noted("layout", log.clone()),
            counts,
            flags,
        };
        let layout = unsafe { manager.add_layout(layout) }.unwrap();
        let sets = manager.allocate_many(layout, 4).unwrap();
        manager.free_after(&sets[..2], 0).unwrap();
        // SAFETY: the device isn't in use.
        unsafe { manager.frame_done(0) };
        manager.free_after(&[sets[2]], 0).unwrap();
        manager.begin_frame().unwrap();
        let _drawn = manager.allocate_for_frame(layout).unwrap();
        manager
    }

    /// Nothing is dropped after the device that it came from.
    #[test]
    fn the_device_is_dropped_last() {
        let log = Log::default();
        drop(manager(&log));
        let mut noted = log.take();
        assert_eq!(noted.pop(), Some("device"));
        noted.sort();
        assert_eq!(noted, ["layout", "pool", "set", "set", "set", "set"]);
        // The device that is returned isn't dropped.
        for shuts_down in [false, true] {
            let manager = manager(&log);
            let gpu = match shuts_down {
                true => unsafe { manager.shutdown() },
                false => manager.into_device(),
            };
            let mut noted = log.take();
            noted.sort();
            assert_eq!(noted, ["layout", "pool", "set", "set", "set", "set"]);
            drop(gpu);
            assert_eq!(log.take(), ["device"]);
        }
    }
}
