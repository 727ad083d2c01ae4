//! The names of sets and layouts in C: how a handle of the set manager is encoded in a `gd_set` and in a
//! `gd_layout`.

use crate::abi::GdSet;
use crate::descriptor_manager::{LayoutHandle, SetHandle};
use crate::descriptor_table::SetName;
use crate::gpu_descriptor::CompactDescriptorSet;
use core::mem::MaybeUninit;

/// The name of a layout in C: 64 bits, which no other layout of the allocator gets. It is never 0.
#[inline]
pub fn name_of(handle: LayoutHandle) -> u64 {
    u64::from(handle.slot.generation) << 32 | u64::from(handle.slot.place)
}

/// The set manager's handle of a layout with this name.
#[inline]
pub fn layout_of(owner: u64, name: u64) -> LayoutHandle {
    let slot = SetHandle {
        manager: owner,
        place: name as u32,
        generation: (name >> 32) as u32,
    };
    LayoutHandle { slot }
}

/// The driver's handle of a set that is there.
#[inline]
#[allow(unsafe_code)]
fn raw_of(set: Option<&CompactDescriptorSet<u64>>) -> u64 {
    // SAFETY: the table asks only about sets that are there, which is proved of each call (`SetName`).
    *unsafe { set.unwrap_unchecked() }.raw()
}

/// A changed `gd_set` is refused: it is another allocator's, or not the last handle of its place, or has not the
/// driver's handle of the set there.
impl SetName<CompactDescriptorSet<u64>> for GdSet {
    #[inline]
    fn handle(&self) -> SetHandle {
        SetHandle {
            manager: self.owner,
            place: self.place,
            generation: self.generation,
        }
    }

    #[inline]
    fn of(handle: SetHandle, set: Option<&CompactDescriptorSet<u64>>) -> Self {
        GdSet {
            handle: raw_of(set),
            place: handle.place,
            generation: handle.generation,
            owner: handle.manager,
        }
    }

    #[inline]
    fn fits(&self, set: Option<&CompactDescriptorSet<u64>>) -> bool {
        self.handle == raw_of(set)
    }
}

/// The host's memory for a set, which the host may never have written: it is only written here.
impl SetName<CompactDescriptorSet<u64>> for MaybeUninit<GdSet> {
    fn handle(&self) -> SetHandle {
        unreachable!("a set is created before its memory is read")
    }

    #[inline]
    fn of(handle: SetHandle, set: Option<&CompactDescriptorSet<u64>>) -> Self {
        MaybeUninit::new(GdSet::of(handle, set))
    }

    fn fits(&self, _: Option<&CompactDescriptorSet<u64>>) -> bool {
        unreachable!("a set is created before its memory is read")
    }
}
