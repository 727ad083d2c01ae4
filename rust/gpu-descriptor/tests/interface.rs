//! The interface by its names: this file compiles over gpu-descriptor 0.3.2 (the original) too, and
//! tools/both runs it over that. So it has only what is the same there.
//!
//! Each call of an unsafe function has a block of its own, which would be an error around a safe one.
#![deny(unused_unsafe)]

use gpu_descriptor::{
    AllocationError, CreatePoolError, DescriptorAllocator, DescriptorDevice,
    DescriptorPoolCreateFlags, DescriptorSet, DescriptorSetLayoutCreateFlags, DescriptorTotalCount,
    DeviceAllocationError,
};
use std::cell::{Cell, RefCell};
use std::collections::HashSet;
use std::fmt::Debug;
use std::hash::Hash;
use std::panic::{RefUnwindSafe, UnwindSafe};
use std::rc::Rc;

/// Neither `Clone` nor `Debug`.
struct Pool(u32);

/// `Debug` alone, since `allocate` asks for it.
#[derive(Debug)]
struct Set(Rc<u32>, u64);

#[derive(Debug)]
struct Layout(DescriptorTotalCount);

/// A device as programs write it: with a lifetime at the release, and none at the layouts.
#[derive(Default)]
struct Device {
    next: Cell<u64>,
    pools: Cell<u32>,
    flags: RefCell<Vec<DescriptorPoolCreateFlags>>,
    released: RefCell<Vec<u64>>,
}

impl DescriptorDevice<Layout, Pool, Set> for Device {
    unsafe fn create_descriptor_pool(
        &self,
        descriptor_count: &DescriptorTotalCount,
        max_sets: u32,
        flags: DescriptorPoolCreateFlags,
    ) -> Result<Pool, CreatePoolError> {
        assert!(max_sets > 0 && descriptor_count.total() > 0);
        self.flags.borrow_mut().push(flags);
        self.pools.set(self.pools.get() + 1);
        Ok(Pool(self.pools.get()))
    }

    unsafe fn destroy_descriptor_pool(&self, pool: Pool) {
        assert!(pool.0 > 0);
        self.pools.set(self.pools.get() - 1);
    }

    unsafe fn alloc_descriptor_sets<'a>(
        &self,
        pool: &mut Pool,
        layouts: impl ExactSizeIterator<Item = &'a Layout>,
        sets: &mut impl Extend<Set>,
    ) -> Result<(), DeviceAllocationError> {
        let name = Rc::new(pool.0);
        let first = self.next.get();
        self.next.set(first + layouts.len() as u64);
        sets.extend(layouts.zip(first..).map(|(layout, number)| {
            assert!(layout.0.sampler > 0);
            Set(name.clone(), number)
        }));
        Ok(())
    }

    unsafe fn dealloc_descriptor_sets<'a>(&self, pool: &mut Pool, sets: impl Iterator<Item = Set>) {
        self.released.borrow_mut().extend(sets.map(|set| {
            assert_eq!(*set.0, pool.0);
            set.1
        }));
    }
}

/// A device of any layout, with a bound at the layouts and no lifetime at the release. It refuses: the
/// second function gives the reason at an allocation, and if it gives none, the first one at a creation.
struct Refuses(
    fn() -> CreatePoolError,
    fn() -> Option<DeviceAllocationError>,
);

impl<L: Debug> DescriptorDevice<L, (), ()> for Refuses {
    unsafe fn create_descriptor_pool(
        &self,
        _: &DescriptorTotalCount,
        _: u32,
        _: DescriptorPoolCreateFlags,
    ) -> Result<(), CreatePoolError> {
        if (self.1)().is_some() {
            Ok(())
        } else {
            Err((self.0)())
        }
    }

    unsafe fn destroy_descriptor_pool(&self, _: ()) {}

    unsafe fn alloc_descriptor_sets<'a>(
        &self,
        _: &mut (),
        _: impl ExactSizeIterator<Item = &'a L>,
        _: &mut impl Extend<()>,
    ) -> Result<(), DeviceAllocationError>
    where
        L: 'a,
    {
        Err((self.1)().unwrap())
    }

    unsafe fn dealloc_descriptor_sets(&self, _: &mut (), sets: impl Iterator<Item = ()>) {
        assert_eq!(sets.count(), 0);
    }
}

const ONE_SAMPLER: DescriptorTotalCount = counts(1);

const fn counts(sampler: u32) -> DescriptorTotalCount {
    DescriptorTotalCount {
        sampler,
        combined_image_sampler: 0,
        sampled_image: 0,
        storage_image: 0,
        uniform_texel_buffer: 0,
        storage_texel_buffer: 0,
        uniform_buffer: 0,
        storage_buffer: 0,
        uniform_buffer_dynamic: 0,
        storage_buffer_dynamic: 0,
        input_attachment: 0,
        acceleration_structure: 0,
        inline_uniform_block_bytes: 0,
        inline_uniform_block_bindings: 0,
    }
}

/// So many sets with one sampler each.
fn take(
    allocator: &mut DescriptorAllocator<Pool, Set>,
    device: &Device,
    count: u32,
) -> Vec<DescriptorSet<Set>> {
    let (layout, flags) = (Layout(ONE_SAMPLER), DescriptorSetLayoutCreateFlags::empty());
    unsafe { allocator.allocate(device, &layout, flags, &ONE_SAMPLER, count) }.unwrap()
}

/// Each call with its type parameters, which programs may write out.
#[test]
fn calls_of_an_allocator() {
    let device = Device::default();
    let new: fn(u32) -> DescriptorAllocator<Pool, Set> = DescriptorAllocator::new;
    let mut allocator = new(100);
    // The order of the parameters, and of the arguments.
    let layout = Layout(counts(7));
    let flags = DescriptorSetLayoutCreateFlags::UPDATE_AFTER_BIND;
    let sets: Result<Vec<DescriptorSet<Set>>, AllocationError> =
        unsafe { allocator.allocate::<Layout, Device>(&device, &layout, flags, &layout.0, 3) };
    let sets = sets.unwrap();
    unsafe { allocator.free::<Layout, Device, Vec<DescriptorSet<Set>>>(&device, sets) };
    unsafe { allocator.cleanup::<Layout>(&device) };
    assert_eq!(device.pools.get(), 0);
    assert_eq!(device.released.take(), [0, 1, 2]);
}

/// An option, an array, a part of a vector, a closure, and an iterator that is lent.
#[test]
fn sets_are_freed_by_any_iterator() {
    let device = Device::default();
    let mut allocator = DescriptorAllocator::new(0);
    assert!(take(&mut allocator, &device, 0).is_empty());
    let mut sets = take(&mut allocator, &device, 20);
    unsafe { allocator.free(&device, None) };
    unsafe { allocator.free(&device, sets.pop()) };
    unsafe { allocator.free(&device, [sets.remove(0), sets.remove(0)]) };
    unsafe { allocator.free(&device, sets.drain(..5)) };
    let mut popped = 0;
    let two = std::iter::from_fn(|| {
        popped += 1;
        if popped <= 2 { sets.pop() } else { None }
    });
    unsafe { allocator.free(&device, two) };
    let mut sets = sets.into_iter();
    unsafe { allocator.free(&device, &mut sets) };
    assert!(sets.next().is_none());
    let mut released = device.released.take();
    released.sort();
    assert!(released.into_iter().eq(0..20));
    unsafe { allocator.cleanup(&device) };
}

/// After its end an iterator isn't read, whatever it would give.
#[test]
fn an_iterator_that_goes_on_after_its_end() {
    let device = Device::default();
    let mut allocator = DescriptorAllocator::new(0);
    let mut sets = take(&mut allocator, &device, 5).into_iter();
    let mut reads = 0;
    let mut with_a_gap = std::iter::from_fn(|| {
        reads += 1;
        if reads == 3 { None } else { sets.next() }
    });
    unsafe { allocator.free(&device, &mut with_a_gap) };
    assert_eq!(device.released.borrow()[..], [0, 1]);
    unsafe { allocator.free(&device, with_a_gap) };
    assert_eq!(device.released.take(), [0, 1, 2, 3, 4]);
    unsafe { allocator.cleanup(&device) };
}

#[test]
fn places_are_reused() {
    let device = Device::default();
    let mut allocator = DescriptorAllocator::new(0);
    // A pool has 64 places at first.
    for _ in 0..3 {
        let sets = take(&mut allocator, &device, 64);
        assert_eq!(device.pools.get(), 1);
        unsafe { allocator.free(&device, sets) };
    }
    // Of several pools the oldest go when they are empty, but not the last.
    let (first, second) = (
        take(&mut allocator, &device, 64),
        take(&mut allocator, &device, 64),
    );
    let third = take(&mut allocator, &device, 1);
    assert_eq!(device.pools.get(), 3);
    unsafe { allocator.free(&device, second) };
    assert_eq!(device.pools.get(), 3);
    unsafe { allocator.free(&device, first) };
    assert_eq!(device.pools.get(), 1);
    unsafe { allocator.free(&device, third) };
    assert_eq!(device.pools.get(), 1);
    unsafe { allocator.cleanup(&device) };
    assert_eq!(device.pools.get(), 0);
}

/// A raw set can be read, and be replaced by an unsafe call.
#[test]
fn raw_sets() {
    let device = Device::default();
    let mut allocator = DescriptorAllocator::new(0);
    let mut sets = take(&mut allocator, &device, 2);
    let raw: &Set = sets[1].raw();
    assert_eq!((*raw.0, raw.1), (1, 1));
    let raw: &mut Set = unsafe { sets[1].raw_mut() };
    raw.1 = 7;
    unsafe { allocator.free(&device, sets) };
    assert_eq!(device.released.take(), [0, 7]);
}

#[test]
fn pools_have_the_flags_of_their_sets() {
    let device = Device::default();
    let mut allocator = DescriptorAllocator::new(1000);
    let layout = Layout(ONE_SAMPLER);
    let mut held = Vec::new();
    for is_marked in [false, true] {
        let mut flags = DescriptorSetLayoutCreateFlags::empty();
        flags.set(DescriptorSetLayoutCreateFlags::UPDATE_AFTER_BIND, is_marked);
        held.push(unsafe { allocator.allocate(&device, &layout, flags, &layout.0, 1) }.unwrap());
    }
    let free = DescriptorPoolCreateFlags::FREE_DESCRIPTOR_SET;
    let marked = DescriptorPoolCreateFlags::UPDATE_AFTER_BIND;
    assert_eq!(device.flags.take(), [free, free | marked]);
    for sets in held {
        unsafe { allocator.free(&device, sets) };
    }
}

/// What a request is refused for, once a creation or a new pool was.
fn refusal(
    create: fn() -> CreatePoolError,
    alloc: fn() -> Option<DeviceAllocationError>,
) -> String {
    let mut allocator = DescriptorAllocator::<(), ()>::new(0);
    let (device, flags) = (
        Refuses(create, alloc),
        DescriptorSetLayoutCreateFlags::empty(),
    );
    match unsafe { allocator.allocate(&device, &"layout", flags, &ONE_SAMPLER, 1) } {
        Ok(sets) => format!("{sets:?}"),
        Err(error) => error.to_string(),
    }
}

#[test]
fn refusals() {
    use {CreatePoolError as Create, DeviceAllocationError as Alloc};
    let [device, host, fragmented] = [
        "Device memory exhausted",
        "Host memory exhausted",
        "Fragmentation",
    ];
    assert_eq!(refusal(|| Create::OutOfDeviceMemory, || None), device);
    assert_eq!(refusal(|| Create::OutOfHostMemory, || None), host);
    assert_eq!(refusal(|| Create::Fragmentation, || None), fragmented);
    let create = || unreachable!();
    assert_eq!(refusal(create, || Some(Alloc::OutOfDeviceMemory)), device);
    assert_eq!(refusal(create, || Some(Alloc::OutOfHostMemory)), host);
    // A request past the limit.
    let mut allocator = DescriptorAllocator::<(), ()>::new(6);
    let flags = DescriptorSetLayoutCreateFlags::UPDATE_AFTER_BIND;
    let device = Refuses(|| unreachable!(), || None);
    let sets = unsafe { allocator.allocate(&device, &"layout", flags, &counts(7), 1) };
    assert!(matches!(sets, Err(AllocationError::Fragmentation)));
}

/// Each error has these cases, and no others.
#[test]
fn cases_of_errors() {
    for (error, text) in [
        (CreatePoolError::OutOfDeviceMemory, "OutOfDeviceMemory"),
        (CreatePoolError::OutOfHostMemory, "OutOfHostMemory"),
        (CreatePoolError::Fragmentation, "Fragmentation"),
    ] {
        assert_eq!(format!("{error:?}"), text);
        let error = AllocationError::from(error);
        assert_eq!(format!("{error:?}"), text);
        let display = match error {
            AllocationError::OutOfDeviceMemory => "Device memory exhausted",
            AllocationError::OutOfHostMemory => "Host memory exhausted",
            AllocationError::Fragmentation => "Fragmentation",
        };
        assert_eq!(error.to_string(), display);
    }
    for error in [
        DeviceAllocationError::OutOfDeviceMemory,
        DeviceAllocationError::OutOfHostMemory,
        DeviceAllocationError::FragmentedPool,
        DeviceAllocationError::OutOfPoolMemory,
    ] {
        let text = match error {
            DeviceAllocationError::OutOfDeviceMemory => "OutOfDeviceMemory",
            DeviceAllocationError::OutOfHostMemory => "OutOfHostMemory",
            DeviceAllocationError::FragmentedPool => "FragmentedPool",
            DeviceAllocationError::OutOfPoolMemory => "OutOfPoolMemory",
        };
        assert_eq!(format!("{error:?}"), text);
    }
}

#[cfg(feature = "std")]
#[test]
fn a_refusal_is_an_error() {
    fn fails() -> Result<(), Box<dyn std::error::Error + Send + Sync>> {
        Err(AllocationError::OutOfHostMemory)?
    }
    assert_eq!(fails().unwrap_err().to_string(), "Host memory exhausted");
}

#[test]
fn counts_of_descriptors() {
    let counts = DescriptorTotalCount {
        sampler: 1,
        combined_image_sampler: 2,
        sampled_image: 4,
        storage_image: 8,
        uniform_texel_buffer: 16,
        storage_texel_buffer: 32,
        uniform_buffer: 64,
        storage_buffer: 128,
        uniform_buffer_dynamic: 256,
        storage_buffer_dynamic: 512,
        input_attachment: 1024,
        acceleration_structure: 2048,
        inline_uniform_block_bytes: 4096,
        inline_uniform_block_bindings: 8192,
    };
    let total: u32 = counts.total();
    assert_eq!(total, (1 << 14) - 1);
    assert_eq!(DescriptorTotalCount::default().total(), 0);
    let text = format!("{:?}", self::counts(3));
    assert!(text.starts_with("DescriptorTotalCount { sampler: 3, combined_image_sampler: 0,"));
    assert!(text.ends_with(" inline_uniform_block_bindings: 0 }"));
    // Counts with one more of a kind are others.
    let mut seen = HashSet::from([counts]);
    let mut more = counts;
    more.inline_uniform_block_bindings += 1;
    assert!(seen.insert(more) && !seen.insert(counts));
}

/// What flags of either type do, which `all` and `one` are of.
macro_rules! flags_act_as_sets {
    ($flags:ident, $one:expr, $all:expr) => {{
        const EMPTY: $flags = $flags::empty();
        const ONE: $flags = $one;
        let (one, all): ($flags, $flags) = (ONE, $all);
        let rest = all - one;
        let _: u32 = one.bits();
        assert_eq!((EMPTY.bits(), $flags::all()), (0, all));
        assert!(EMPTY.is_empty() && !one.is_empty() && all.is_all());
        assert_eq!($flags::from_bits(one.bits()), Some(one));
        assert_eq!($flags::from_bits(1 << 31), None);
        assert_eq!($flags::from_bits_truncate(1 << 31 | one.bits()), one);
        assert!(all.contains(one) && all.intersects(one) && !rest.contains(one));
        assert!(!rest.intersects(one) && one.contains(EMPTY));
        assert_eq!((one | rest, one.union(rest)), (all, all));
        assert_eq!((all & one, all.intersection(one)), (one, one));
        assert_eq!((all ^ one, all.symmetric_difference(one)), (rest, rest));
        assert_eq!((all - one, all.difference(one)), (rest, rest));
        assert_eq!((!one, one.complement()), (rest, rest));
        let mut flags = EMPTY;
        flags |= all;
        flags &= one;
        assert_eq!(flags, one);
        flags ^= all;
        assert_eq!(flags, rest);
        flags -= rest;
        flags.insert(one);
        flags.toggle(all);
        assert_eq!(flags, rest);
        flags.remove(rest);
        flags.set(one, true);
        assert_eq!(flags, one);
        flags.set(one, false);
        flags.extend(Some(one));
        assert_eq!([flags, rest].into_iter().collect::<$flags>(), all);
        is_value::<$flags>();
    }};
}

#[test]
fn flags() {
    use {DescriptorPoolCreateFlags as OfPool, DescriptorSetLayoutCreateFlags as OfLayout};
    let both = OfPool::FREE_DESCRIPTOR_SET | OfPool::UPDATE_AFTER_BIND;
    flags_act_as_sets!(OfPool, OfPool::FREE_DESCRIPTOR_SET, both);
    flags_act_as_sets!(OfPool, OfPool::UPDATE_AFTER_BIND, both);
    let marked = OfLayout::UPDATE_AFTER_BIND;
    flags_act_as_sets!(OfLayout, OfLayout::UPDATE_AFTER_BIND, marked);
    assert_eq!(OfPool::FREE_DESCRIPTOR_SET.bits(), 1);
    assert_eq!(OfPool::UPDATE_AFTER_BIND.bits(), 2);
    assert_eq!(marked.bits(), 2);
}

/// A call of these compiles if the type is of the traits.
fn is_value<T: Copy + Debug + Eq + Hash + Send + Sync + Unpin + 'static>() {}
fn is_debug<T: Debug>() {}
fn is_shared<T: Send + Sync + Unpin + UnwindSafe + RefUnwindSafe + 'static>() {}

/// Fails to compile where the type is of a trait, since two impls then fit.
macro_rules! is_not {
    ($is:ident: $($type:ty),+) => {{
        trait Fits<Which> {
            fn fits() {}
        }
        struct Else;
        impl<T> Fits<()> for T {}
        impl<T: $is> Fits<Else> for T {}
        $(<$type as Fits<_>>::fits();)+
    }};
}

#[test]
fn bounds() {
    is_value::<DescriptorTotalCount>();
    is_shared::<DescriptorAllocator<u64, u32>>();
    is_shared::<DescriptorSet<u64>>();
    is_shared::<AllocationError>();
    is_shared::<CreatePoolError>();
    is_shared::<DeviceAllocationError>();
    is_debug::<DescriptorAllocator<u64, u32>>();
    is_debug::<DescriptorSet<u64>>();
    // Shared only where the device's own types are.
    type Allocator<P, S> = DescriptorAllocator<P, S>;
    is_not!(Send: Allocator<Rc<u32>, u32>, Allocator<u32, Rc<u32>>, DescriptorSet<Rc<u32>>);
    is_not!(Sync: Allocator<Cell<u32>, u32>, Allocator<u32, Cell<u32>>, DescriptorSet<Cell<u32>>);
    is_not!(Debug: Allocator<Pool, u32>, Allocator<u32, Pool>, DescriptorSet<Pool>);
    // A set is one only once.
    is_not!(Clone: DescriptorSet<u32>, Allocator<u32, u32>);
}

/// Drops an allocator with live sets, or without any, and perhaps in a panic.
fn drop_allocator(how: &str) {
    let device = Device::default();
    let mut allocator = DescriptorAllocator::new(0);
    let sets = take(&mut allocator, &device, 5);
    if how == "free" {
        unsafe { allocator.free(&device, sets) };
    }
    if how == "panic" {
        let _dropped = allocator;
        panic!("in the test");
    }
}

#[cfg(feature = "std")]
#[test]
fn a_drop_with_sets_warns() {
    if let Ok(how) = std::env::var("DROP_ALLOCATOR") {
        return drop_allocator(&how);
    }
    for (how, warnings) in [("free", 0), ("keep", 1), ("panic", 0)] {
        let ran = std::process::Command::new(std::env::current_exe().unwrap())
            .args(["a_drop_with_sets_warns", "--exact", "--nocapture"])
            .env("DROP_ALLOCATOR", how)
            .output()
            .unwrap();
        assert_eq!(ran.status.success(), how != "panic");
        let errors = String::from_utf8(ran.stderr).unwrap();
        let lines = errors.lines();
        let said = lines.filter(|line| *line == "Descriptor sets were not deallocated");
        assert_eq!(said.count(), warnings, "{how}");
    }
}

#[cfg(not(feature = "std"))]
#[test]
#[should_panic = "Descriptor sets were not deallocated"]
fn a_drop_with_sets_panics() {
    drop_allocator("free");
    drop_allocator("keep");
}
