//! Each allocation of memory in a request fails in turn. Freeing sets and cleaning up allocate nothing.

mod gpu;
mod refuses;

use gpu::{Gpu, TWO_A_POOL};
use gpu_descriptor::*;
use refuses::with_refused;

type Allocator = DescriptorAllocator<usize, (usize, usize)>;
type Set = DescriptorSet<(usize, usize)>;

/// The samplers of a set, whether its layout is marked, and how many sets are asked for.
#[derive(Clone, Copy)]
struct Request {
    samplers: u32,
    is_marked: bool,
    count: u32,
}

fn plain(samplers: u32, count: u32) -> Request {
    Request {
        samplers,
        is_marked: false,
        count,
    }
}

/// Makes a request. Its layout is the number of its samplers.
fn take(allocator: &mut Allocator, device: &Gpu, it: Request) -> Result<Vec<Set>, AllocationError> {
    let mut flags = DescriptorSetLayoutCreateFlags::empty();
    flags.set(
        DescriptorSetLayoutCreateFlags::UPDATE_AFTER_BIND,
        it.is_marked,
    );
    let counts = DescriptorTotalCount {
        sampler: it.samplers,
        ..Default::default()
    };
    unsafe { allocator.allocate(device, &it.samplers, flags, &counts, it.count) }
}

/// How many calls the device got, but for ends of pools.
fn all_calls(device: &Gpu) -> u64 {
    device.calls.get() + device.releases.get()
}

/// The books as their debug text, but for the place that is looked at first.
fn books(allocator: &Allocator) -> String {
    let text = format!("{allocator:?}");
    let hint = "last: ";
    let (before, rest) = text.split_once(hint).expect("the table has its hint");
    format!(
        "{before}{}",
        rest.trim_start_matches(|it: char| it.is_ascii_digit())
    )
}

/// The sets of several requests, all granted.
fn take_all(allocator: &mut Allocator, device: &Gpu, requests: &[Request]) -> Vec<Set> {
    let taken = requests.iter().map(|it| take(allocator, device, *it));
    taken.flat_map(Result::unwrap).collect()
}

/// After the requests of `before`, `last` is made and each allocation in it fails in turn: those at its
/// start, for a new key and for the sets, before the device is asked; and the others, for the books of new
/// pools.
fn refuse_each(before: &[Request], last: Request, at_start: u64, others: u64) {
    for number in 0..at_start + others {
        let (device, mut allocator) = (Gpu::new(), Allocator::new(100_000));
        let mut held = take_all(&mut allocator, &device, before);
        let (had, calls) = (books(&allocator), all_calls(&device));
        let (result, allocations) = with_refused(number, || take(&mut allocator, &device, last));
        assert!(matches!(result, Err(AllocationError::OutOfHostMemory)));
        assert!(allocations > number, "there is such an allocation");
        assert_eq!(device.live_sets(), held.len(), "what it took went back");
        if number < at_start {
            assert_eq!(all_calls(&device), calls);
            assert_eq!(books(&allocator), had, "nothing changed");
        }
        // With memory it is granted.
        held.extend(take(&mut allocator, &device, last).unwrap());
        give_back(allocator, &device, held);
    }
    // There is no other allocation.
    let (device, mut allocator) = (Gpu::new(), Allocator::new(100_000));
    let mut held = take_all(&mut allocator, &device, before);
    let (result, allocations) = with_refused(u64::MAX, || take(&mut allocator, &device, last));
    assert_eq!(allocations, at_start + others);
    held.extend(result.unwrap());
    give_back(allocator, &device, held);
}

/// Frees all sets, every fifth one first, and cleans up: without memory.
fn give_back(mut allocator: Allocator, device: &Gpu, held: Vec<Set>) {
    assert_eq!(device.live_sets(), held.len());
    let in_places = held.into_iter().enumerate();
    let (first, rest): (Vec<_>, Vec<_>) = in_places.partition(|(place, _)| place % 5 == 0);
    let sets = first.into_iter().chain(rest).map(|(_, set)| set);
    let ((), allocations) = with_refused(u64::MAX, || unsafe {
        allocator.free(device, sets);
        allocator.cleanup(device);
    });
    assert_eq!(allocations, 0, "free and cleanup take no memory");
    assert_eq!(device.live_sets(), 0);
    assert_eq!(device.pools(), 0);
}

#[test]
fn first_request() {
    // The table, its slots, the vector of sets, the pools and the list of open ones.
    refuse_each(&[], plain(1, 3), 3, 2);
}

/// The key and a pool with places are there: only the vector of sets takes memory.
#[test]
fn places_are_there() {
    refuse_each(&[plain(1, 3)], plain(1, 3), 1, 0);
}

#[test]
fn no_sets() {
    refuse_each(&[plain(1, 3)], plain(2, 0), 0, 0);
}

#[test]
fn many_pools() {
    // Both queues grow to 4, 8 and 16 places.
    refuse_each(&[], plain(TWO_A_POOL, 18), 3, 6);
    // One pool is there, with queues of 4 places: they grow to 8 and 16.
    refuse_each(&[plain(TWO_A_POOL, 1)], plain(TWO_A_POOL, 18), 1, 4);
    refuse_each(
        &[plain(TWO_A_POOL, 5), plain(7, 100)],
        plain(TWO_A_POOL, 100),
        1,
        // From 3 pools to 53: to 8, 16, 32 and 64 places.
        8,
    );
}

#[test]
fn marked() {
    let marked = |count| Request {
        is_marked: true,
        ..plain(5, count)
    };
    // The marked key has books with room for one more pool. Beside a plain key of the same counts it is new:
    // its pools, and the list of open ones.
    refuse_each(&[marked(10), plain(5, 10)], marked(300), 1, 0);
    refuse_each(&[plain(5, 10)], marked(300), 1, 2);
}

#[test]
fn many_keys() {
    let mut before = Vec::new();
    for samplers in 0..40_u32 {
        // The table has 4, 8, 16, 32 and 64 places, and twice as many slots.
        let grows = samplers == 0 || (samplers >= 4 && samplers.is_power_of_two());
        refuse_each(&before, plain(samplers, 2), if grows { 3 } else { 1 }, 2);
        before.push(plain(samplers, 2));
    }
}

/// A plain layout of so many samplers.
fn layout(samplers: u32) -> SetLayout<u32> {
    SetLayout {
        layout: samplers,
        counts: DescriptorTotalCount {
            sampler: samplers,
            ..Default::default()
        },
        flags: DescriptorSetLayoutCreateFlags::empty(),
    }
}

#[test]
fn one_set_takes_memory_for_the_books_alone() {
    let (device, mut allocator) = (Gpu::new(), Allocator::new(0));
    let mut held = Vec::new();
    // The table, its order, the pools and the list of open ones; then nothing.
    for wanted in [4, 0, 0] {
        let (set, growths) = with_refused(u64::MAX, || unsafe {
            allocator.allocate_one(&device, &layout(1))
        });
        held.push(set.unwrap());
        assert_eq!(growths, wanted);
    }
    give_back(allocator, &device, held);
}

/// Room in the caller's vector is used. If it has too little, one allocation is made, before the device
/// is asked.
#[test]
fn sets_are_appended_to_a_vector() {
    let (device, mut allocator) = (Gpu::new(), Allocator::new(0));
    let mut held = take(&mut allocator, &device, plain(1, 1)).unwrap();
    let first = *held[0].raw();
    held.reserve_exact(2);
    let room = held.capacity() - held.len();
    let mut into = |held: &mut Vec<Set>, count, refused| {
        with_refused(refused, || unsafe {
            allocator.allocate_into(&device, &layout(1), count, held)
        })
    };
    assert_eq!(into(&mut held, room as u32, 0), (Ok(()), 0), "they fit");
    assert_eq!((held.len(), *held[0].raw()), (1 + room, first));

    let calls = all_calls(&device);
    let refused = Err(AllocationError::OutOfHostMemory);
    assert_eq!(into(&mut held, 2, 0), (refused, 1));
    assert_eq!(all_calls(&device), calls, "the device was not asked");
    assert_eq!((held.len(), *held[0].raw()), (1 + room, first));

    assert_eq!(into(&mut held, 2, u64::MAX), (Ok(()), 1));
    assert_eq!((held.len(), *held[0].raw()), (3 + room, first));
    give_back(allocator, &device, held);
}

/// The books of a new pool find no memory when some sets came: these go back, and no others.
#[test]
fn a_vector_keeps_what_it_had() {
    let (device, mut allocator) = (Gpu::new(), Allocator::new(0));
    let mut held = take(&mut allocator, &device, plain(TWO_A_POOL, 1)).unwrap();
    let first = *held[0].raw();
    // Number 0 is for the vector, and 1 for the books of the fifth pool: they had room for four.
    let (result, _) = with_refused(1, || unsafe {
        allocator.allocate_into(&device, &layout(TWO_A_POOL), 40, &mut held)
    });
    assert_eq!(result, Err(AllocationError::OutOfHostMemory));
    assert_eq!((held.len(), *held[0].raw()), (1, first));
    assert_eq!(allocator.outstanding(), 1);
    give_back(allocator, &device, held);
}

/// The order of the remaining keys is made again.
#[test]
fn cleanup_takes_no_memory_where_keys_stay() {
    let (device, mut allocator) = (Gpu::new(), Allocator::new(0));
    let (mut held, mut back) = (Vec::new(), Vec::new());
    for samplers in 0..400 {
        let sets = if samplers % 4 == 0 {
            &mut back
        } else {
            &mut held
        };
        sets.extend(take(&mut allocator, &device, plain(samplers, 2)).unwrap());
    }
    let ((), allocations) = with_refused(u64::MAX, || unsafe {
        allocator.free(&device, back);
        allocator.cleanup(&device);
    });
    assert_eq!(allocations, 0);
    give_back(allocator, &device, held);
}
