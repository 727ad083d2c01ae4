//! The names of pools and of sets on the scripted device: that they rise, past 32 bits too, and end at
//! 18446744073709551614 and not before. No clause says that a name is there.

use crate::descriptor_script::{RawPool, RawSet, ScriptLayout, ScriptedDevice};
use crate::gpu_descriptor_types::{
    CreatePoolError, DescriptorDevice, DescriptorPoolCreateFlags, DescriptorTotalCount,
    DeviceAllocationError, Layouts, SetSink,
};
use crate::kit::alloc::Global;
use crate::kit::vec::Vec as Words;

/// Takes as many sets as were said.
struct Sets {
    sets: Vec<RawSet>,
    left: usize,
}

impl SetSink<RawSet> for Sets {
    type Kept = RawSet;

    fn room(&self) -> usize {
        self.left
    }

    fn put(&mut self, set: RawSet) {
        self.sets.push(set);
        self.left -= 1;
    }
}

fn samplers(sampler: u32) -> DescriptorTotalCount {
    DescriptorTotalCount {
        sampler,
        ..Default::default()
    }
}

/// A device without pools, with these names of a pool and of a set to come next.
fn device_from(pool: u64, set: u64) -> ScriptedDevice {
    ScriptedDevice::with_names(Global, Words::new(Global), pool, set)
}

fn create(device: &mut ScriptedDevice, count: u32) -> Result<RawPool, CreatePoolError> {
    let flags = DescriptorPoolCreateFlags::FREE_DESCRIPTOR_SET;
    device.create_descriptor_pool(&samplers(count), count, flags)
}

fn fill(
    device: &mut ScriptedDevice,
    pool: &mut RawPool,
    count: u32,
) -> Result<Vec<RawSet>, DeviceAllocationError> {
    let layout = ScriptLayout {
        counts: samplers(1),
        mark: false,
    };
    let mut sink = Sets {
        sets: Vec::new(),
        left: count as usize,
    };
    device.alloc_descriptor_sets(pool, Layouts::new(&layout, count), &mut sink)?;
    Ok(sink.sets)
}

/// Fills a pool with four sets after the other, and compares its name and those of its sets, which rise from
/// the second number.
fn are_named(device: &mut ScriptedDevice, names: &[(u64, u64)]) {
    for (id, from) in names {
        let mut pool = create(device, 4).unwrap();
        let sets = fill(device, &mut pool, 4).unwrap();
        assert_eq!(pool.id(), *id);
        let seen = sets.iter().map(|set| (set.id(), set.pool()));
        assert!(seen.eq((0..4).map(|place| (from + place, *id))));
    }
}

#[test]
fn names_pass_32_bits() {
    let names = [
        (4294967294, 4294967289),
        (4294967295, 4294967293),
        (4294967296, 4294967297),
    ];
    are_named(&mut device_from(4294967294, 4294967289), &names);
}

#[test]
fn names_of_pools_end() {
    let mut device = device_from(18446744073709551613, 0);
    let names = [(18446744073709551613, 0), (18446744073709551614, 4)];
    are_named(&mut device, &names);
    let end = CreatePoolError::OutOfHostMemory;
    assert_eq!(create(&mut device, 1).err(), Some(end));
}

#[test]
fn names_of_sets_end() {
    let mut device = device_from(0, 18446744073709551611);
    let end = DeviceAllocationError::OutOfHostMemory;
    let mut first = create(&mut device, 5).unwrap();
    assert_eq!(fill(&mut device, &mut first, 5).err(), Some(end));
    are_named(&mut device, &[(1, 18446744073709551611)]);
    assert_eq!(fill(&mut device, &mut first, 1).err(), Some(end));
}
