//! Where the crate departs from gpu-descriptor 0.3.2, or has more than it.

mod gpu;

use gpu::{Fault, Gpu, Set};
use gpu_descriptor::*;

type Allocator = DescriptorAllocator<usize, Set>;
type Sets = Vec<DescriptorSet<Set>>;

fn samplers(sampler: u32) -> DescriptorTotalCount {
    DescriptorTotalCount {
        sampler,
        ..Default::default()
    }
}

fn take(
    allocator: &mut Allocator,
    device: &Gpu,
    counts: DescriptorTotalCount,
    is_marked: bool,
    count: u32,
) -> Result<Sets, AllocationError> {
    let mut flags = DescriptorSetLayoutCreateFlags::empty();
    flags.set(DescriptorSetLayoutCreateFlags::UPDATE_AFTER_BIND, is_marked);
    // SAFETY: each test has one device, and the layouts are what they are said to be.
    unsafe { allocator.allocate(device, &0, flags, &counts, count) }
}

/// In the original it panics or wraps.
#[test]
fn the_total_stops_at_the_greatest_number() {
    let mut counts = samplers(u32::MAX);
    assert_eq!(counts.total(), u32::MAX);
    counts.sampled_image = 1;
    assert_eq!(counts.total(), u32::MAX);
    counts.sampler = 5;
    assert_eq!(counts.total(), 6);
}

/// The original lets it past the limit: the product of 2^16 sets and 2^16 descriptors wraps to 0.
#[test]
fn a_product_of_33_bits_is_past_the_limit() {
    let (device, mut allocator) = (Gpu::new(), Allocator::new(u32::MAX));
    let sets = take(&mut allocator, &device, samplers(1 << 16), true, 1 << 16);
    assert!(matches!(sets, Err(AllocationError::Fragmentation)));
    assert_eq!(device.pools(), 0);
}

/// In the original it is a panic.
#[test]
fn a_new_pool_that_refuses_is_destroyed() {
    let (device, mut allocator) = (Gpu::with_fault(1, Fault::Refuses(3)), Allocator::new(0));
    let sets = take(&mut allocator, &device, samplers(1), false, 1);
    assert!(matches!(sets, Err(AllocationError::Fragmentation)));
    assert_eq!(device.pools(), 0);
}

/// The original counts the first set of a run to the run before, and refuses marked sets for good.
#[test]
fn marked_and_plain_sets_are_freed_in_one_call() {
    for marked_first in [false, true] {
        // The marked sets of a round use the whole limit, so a wrong count refuses those of the next.
        let (device, mut allocator) = (Gpu::new(), Allocator::new(64 * 5));
        for _ in 0..3 {
            let plain = take(&mut allocator, &device, samplers(3), false, 1).unwrap();
            let marked = take(&mut allocator, &device, samplers(5), true, 64).unwrap();
            let (mut first, last) = if marked_first {
                (marked, plain)
            } else {
                (plain, marked)
            };
            first.extend(last);
            unsafe { allocator.free(&device, first) };
            unsafe { allocator.cleanup(&device) };
        }
        assert_eq!((device.pools(), device.live_sets()), (0, 0));
    }
}

/// In the original the limit is on the live sets, and a driver refuses the pools.
#[test]
fn pools_of_marked_sets_keep_to_the_limit() {
    let (device, mut allocator) = (Gpu::new(), Allocator::new(100));
    // Their pool is for ten sets, by the whole limit: another key gets none, and six more sets fit.
    let sets = take(&mut allocator, &device, samplers(10), true, 4).unwrap();
    assert_eq!(sets.len(), 4);
    let refused = take(&mut allocator, &device, samplers(11), true, 1);
    assert!(matches!(refused, Err(AllocationError::Fragmentation)));
    let more = take(&mut allocator, &device, samplers(10), true, 6).unwrap();
    assert_eq!(device.pools(), 1);
    unsafe { allocator.free(&device, sets.into_iter().chain(more)) };
    unsafe { allocator.cleanup(&device) };
}

/// The calls that the crate bitflags has from its version 2 on, over which the original isn't tried.
#[test]
fn calls_of_flags() {
    type Flags = DescriptorPoolCreateFlags;
    let both = Flags::FREE_DESCRIPTOR_SET | Flags::UPDATE_AFTER_BIND;
    assert_eq!(Flags::from_bits_retain(6).bits(), 6);
    assert_eq!(Flags::from_bits_truncate(6), Flags::UPDATE_AFTER_BIND);
    assert_eq!(Flags::from_name("UPDATE_AFTER_BIND").unwrap().bits(), 2);
    assert_eq!(Flags::from_name("FREE"), None);
    let each: Vec<Flags> = both.iter().collect();
    assert_eq!(each, [Flags::FREE_DESCRIPTOR_SET, Flags::UPDATE_AFTER_BIND]);
    let named: Vec<(&str, Flags)> = Flags::UPDATE_AFTER_BIND.iter_names().collect();
    assert_eq!(named, [("UPDATE_AFTER_BIND", Flags::UPDATE_AFTER_BIND)]);
    let name = DescriptorSetLayoutCreateFlags::all().iter_names().next();
    assert_eq!(name.unwrap().0, "UPDATE_AFTER_BIND");
}

/// Flags with bits of no flag, as the documentation of bitflags 2 has them, over which the original isn't
/// tried.
macro_rules! unknown_bits_are_kept {
    ($flags:ident, $all:expr) => {{
        let (all, rest) = ($flags::all(), $flags::from_bits_retain(1 << 31 | 4));
        let both = all | rest;
        assert_eq!((all.bits(), both.bits()), ($all, $all | 1 << 31 | 4));
        // All flags are set, whatever else is, and the complement has flags alone.
        assert!(both.is_all() && all.is_all() && !rest.is_all());
        assert_eq!(
            (!both, both.complement()),
            ($flags::empty(), $flags::empty())
        );
        assert_eq!((!rest, rest.complement()), (all, all));
        assert_eq!((both - all, both.difference(all)), (rest, rest));
        assert_eq!((both & rest, both ^ rest, all ^ rest), (rest, all, both));
        assert!(both.contains(rest) && both.intersects(rest));
        assert!(!all.contains(rest) && !all.intersects(rest));
        assert_eq!($flags::from_bits(both.bits()), None);
        assert_eq!($flags::from_bits_truncate(both.bits()), all);
        // They come last, and together.
        assert_eq!(both.iter().last(), Some(rest));
        assert_eq!(both.iter().count(), all.iter().count() + 1);
        assert_eq!(both.iter().collect::<$flags>(), both);
        assert!(both.iter_names().eq(all.iter_names()));
        let mut changed = both;
        changed.remove($flags::from_bits_retain(4));
        changed.toggle(all);
        assert_eq!(changed.bits(), 1 << 31);
        changed.insert(rest);
        assert_eq!(changed, rest);
    }};
}

#[test]
fn flags_with_unknown_bits() {
    unknown_bits_are_kept!(DescriptorPoolCreateFlags, 3);
    unknown_bits_are_kept!(DescriptorSetLayoutCreateFlags, 2);
}

/// All pairs of three bits beside plain numbers; one of the bits is of no flag.
macro_rules! beside_numbers {
    ($flags:ident) => {
        for (a, b) in (0..8_u32).flat_map(|a| (0..8).map(move |b| (a, b))) {
            let (left, right) = ($flags::from_bits_retain(a), $flags::from_bits_retain(b));
            assert_eq!(
                ((left | right).bits(), (left & right).bits()),
                (a | b, a & b)
            );
            assert_eq!(
                ((left ^ right).bits(), (left - right).bits()),
                (a ^ b, a & !b)
            );
            assert_eq!(left.intersects(right), a & b != 0);
            assert_eq!(left.contains(right), a & b == b);
            let collected: $flags = [left, right, left, right].into_iter().collect();
            assert_eq!(collected.bits(), a | b);
            let calls: [(fn(&mut $flags, $flags), u32); 10] = [
                (|it, by| it.extend([by, by]), a | b),
                (|it, by| it.insert(by), a | b),
                (|it, by| it.remove(by), a & !b),
                (|it, by| it.toggle(by), a ^ b),
                (|it, by| it.set(by, true), a | b),
                (|it, by| it.set(by, false), a & !b),
                (|it, by| *it |= by, a | b),
                (|it, by| *it &= by, a & b),
                (|it, by| *it ^= by, a ^ b),
                (|it, by| *it -= by, a & !b),
            ];
            for (place, (call, wanted)) in calls.into_iter().enumerate() {
                let mut changed = left;
                call(&mut changed, right);
                assert_eq!(changed.bits(), wanted, "call {place} of {a} and {b}");
            }
        }
        for (name, flag) in $flags::all().iter_names() {
            assert_eq!($flags::from_name(name), Some(flag));
            assert_eq!($flags::from_name(&format!("{name}_2")), None);
            assert_eq!($flags::from_name(&name[1..]), None);
        }
    };
}

#[test]
fn flags_beside_numbers() {
    beside_numbers!(DescriptorPoolCreateFlags);
    beside_numbers!(DescriptorSetLayoutCreateFlags);
}

/// A device that is lent to it is one, as `&Device` and `&&Device` are.
#[test]
fn a_lent_device() {
    let (device, mut allocator) = (Gpu::new(), Allocator::new(0));
    let flags = DescriptorSetLayoutCreateFlags::empty();
    let lent = &&device;
    let sets = unsafe { allocator.allocate(lent, &0, flags, &samplers(1), 2) }.unwrap();
    unsafe { allocator.free(lent, sets) };
    unsafe { allocator.cleanup(lent) };
    assert_eq!((device.pools(), device.live_sets()), (0, 0));
}

/// Errors are values, and are errors without std too.
#[test]
fn errors_are_values() {
    fn is_value<T: Copy + Eq + Send + Sync + 'static>() {}
    fn is_error<T: core::error::Error>() {}
    is_value::<AllocationError>();
    is_value::<CreatePoolError>();
    is_value::<DeviceAllocationError>();
    is_error::<AllocationError>();
    is_error::<CreatePoolError>();
    is_error::<DeviceAllocationError>();
}

/// The texts of a device's errors, of which a request's are the same.
#[test]
fn texts_of_errors() {
    for error in [
        CreatePoolError::OutOfDeviceMemory,
        CreatePoolError::OutOfHostMemory,
        CreatePoolError::Fragmentation,
    ] {
        assert_eq!(error.to_string(), AllocationError::from(error).to_string());
    }
    for (error, text) in [
        (
            DeviceAllocationError::OutOfDeviceMemory,
            "Device memory exhausted",
        ),
        (
            DeviceAllocationError::OutOfHostMemory,
            "Host memory exhausted",
        ),
        (DeviceAllocationError::FragmentedPool, "Fragmented pool"),
        (
            DeviceAllocationError::OutOfPoolMemory,
            "Pool memory exhausted",
        ),
    ] {
        assert_eq!(error.to_string(), text);
    }
}

/// There are fourteen kinds, in the order of the fields.
#[test]
fn counts_by_kind() {
    let mut counts = DescriptorTotalCount::default();
    for kind in 0..14 {
        assert!(counts.set_kind(kind, kind as u32 + 1));
    }
    let before = counts;
    assert!(!counts.set_kind(14, 1) && !counts.set_kind(usize::MAX, 1));
    assert_eq!(
        (counts, counts.sampler, counts.inline_uniform_block_bindings),
        (before, 1, 14)
    );
    assert!(counts.to_array().into_iter().eq(1..=14));
}

/// The original warns once for each key with live sets.
#[cfg(feature = "std")]
#[test]
fn a_drop_warns_once() {
    if std::env::var_os("DROP_ALLOCATOR").is_some() {
        let (device, mut allocator) = (Gpu::new(), Allocator::new(0));
        for sampler in 1..4 {
            take(&mut allocator, &device, samplers(sampler), false, 1).unwrap();
        }
        return;
    }
    let ran = std::process::Command::new(std::env::current_exe().unwrap())
        .args(["a_drop_warns_once", "--exact", "--nocapture"])
        .env("DROP_ALLOCATOR", "")
        .output()
        .unwrap();
    let errors = String::from_utf8(ran.stderr).unwrap();
    assert!(ran.status.success());
    assert_eq!(
        errors
            .matches("Descriptor sets were not deallocated")
            .count(),
        1
    );
}

/// A program that names no feature has std, and no bound on pools.
#[test]
fn std_alone_is_the_default() {
    let manifest = include_str!("../Cargo.toml");
    let defaults: Vec<_> = manifest
        .lines()
        .filter(|it| it.starts_with("default"))
        .collect();
    assert_eq!(defaults, ["default = [\"std\"]"]);
}

/// A set shows whose it is.
#[test]
fn ids_tell_allocators_apart() {
    let device = Gpu::new();
    let (mut first, mut second) = (Allocator::new(0), Allocator::new(0));
    let flags = DescriptorSetLayoutCreateFlags::empty();
    let sets = unsafe { first.allocate(&device, &0, flags, &samplers(1), 1) }.unwrap();
    assert!(sets[0].has_id_in(&first.ids()));
    assert!(!sets[0].has_id_in(&second.ids()));
    let others = unsafe { second.allocate(&device, &0, flags, &samplers(1), 1) }.unwrap();
    assert!(others[0].has_id_in(&second.ids()) && !others[0].has_id_in(&first.ids()));
    // Ids don't come again soon.
    for _ in 0..1000 {
        let later = Allocator::new(0).ids();
        assert!(!sets[0].has_id_in(&later) && !others[0].has_id_in(&later));
    }
    unsafe { second.free(&device, others) };
    unsafe { second.cleanup(&device) };
    unsafe { first.free(&device, sets) };
    unsafe { first.cleanup(&device) };
}
