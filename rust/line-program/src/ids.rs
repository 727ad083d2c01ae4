//! Which ids an allocator takes: no clause says it.

use crate::descriptor_script::{RawPool, RawSet, ScriptLayout, ScriptedDevice};
use crate::gpu_descriptor::{AllocationError, DescriptorAllocator, DescriptorTotalCount};
use crate::kit::alloc::Global;
use crate::kit::vec::Vec;
use std::ops::Range;

/// Allocates a set under a range of ids, and sees that it has its id there and in no other range.
fn has_id_in(ids: Range<u64>) -> Result<(), AllocationError> {
    let counts = DescriptorTotalCount {
        sampler: 1,
        ..Default::default()
    };
    let layout = ScriptLayout {
        counts,
        mark: false,
    };
    let mut device = ScriptedDevice::new(Global, Vec::new(Global));
    let mut allocator = DescriptorAllocator::<RawPool, RawSet>::with_ids(Global, 0, ids.clone());
    let sets = allocator.allocate(&mut device, &layout, layout.flags(), &counts, 1)?;
    let other = ids.end..u64::MAX;
    assert!(sets[0].has_id_in(&ids) && !sets[0].has_id_in(&other));
    Ok(())
}

#[test]
fn ids_are_taken_from_the_range() {
    assert_eq!(has_id_in(0..1), Ok(()));
    assert_eq!(has_id_in(7..9), Ok(()));
    assert_eq!(has_id_in(7..7), Err(AllocationError::OutOfHostMemory));
}
