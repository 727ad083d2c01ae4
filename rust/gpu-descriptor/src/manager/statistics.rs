//! Numbers of a set manager.

use super::{LayoutHandle, SetHandle, SetManager};
use crate::device::DescriptorDevice;
use crate::statistics::{self, LayoutStatistics, Statistics};
use core::fmt;

impl<L, P, S, D: DescriptorDevice<L, P, S>> SetManager<L, P, S, D> {
    /// The handles of all layouts, in no order. It is for a report of leaks: [`LayoutStatistics`] says how
    /// many sets are live. Going through all takes a time that is linear in the peak of the number of
    /// layouts, and no memory.
    pub fn layouts(&self) -> impl Iterator<Item = LayoutHandle> {
        let places = self.generations.iter().zip(0..);
        let handles = places.map(|(generation, place)| {
            let slot = SetHandle {
                manager: self.number,
                place,
                generation: *generation,
            };
            LayoutHandle { slot }
        });
        handles.filter(|handle| self.layout(*handle).is_some())
    }

    /// The numbers of sets, layouts and pools, and the peaks of those of pools. The time is that of
    /// [`counts`](Self::counts). It allocates no memory.
    #[must_use]
    pub fn statistics(&self) -> Statistics {
        let inner = self.inner.get();
        let layouts = self.layouts().count() as u64;
        statistics::of_set_manager(inner, &inner.device().pools.0, layouts)
    }

    /// The numbers of a layout. `None` if it was removed, or if the handle is another set manager's. The
    /// time is linear in the number of its pools. It allocates no memory.
    #[must_use]
    pub fn layout_statistics(&self, layout: LayoutHandle) -> Option<LayoutStatistics> {
        let inner = self.inner.get();
        let known = inner.layout(layout);
        known.map(|_| statistics::of_layout(inner, layout))
    }

    /// Writes the numbers of the set manager and of each layout as JSON. `handle` returns the driver's handle
    /// of a layout. Only `text` may allocate memory.
    ///
    /// The object has `"version"`, that of this crate, and the fields of [`Statistics`] by their names; but
    /// `"max_pool_descriptors"` is null without a bound, and `"layouts"` is a list, in no order. Each layout
    /// there has the fields of [`LayoutStatistics`], its `"handle"` as a hexadecimal text,
    /// `"update_after_bind"` as a Boolean, and `"descriptors"` with the kinds that a set has.
    ///
    /// ```
    /// # use gpu_descriptor::{DescriptorDevice, manager::SetManager};
    /// # fn show<P, S, D: DescriptorDevice<u64, P, S>>(manager: &SetManager<u64, P, S, D>) -> std::fmt::Result {
    /// let mut text = String::new();
    /// manager.write_statistics(&mut text, |layout| *layout)?; // with ash: layout.as_raw()
    /// println!("{text}");
    /// # Ok(())
    /// # }
    /// ```
    ///
    /// # Errors
    ///
    /// Those of `text`.
    pub fn write_statistics(
        &self,
        text: &mut impl fmt::Write,
        handle: impl Fn(&L) -> u64,
    ) -> fmt::Result {
        let (inner, numbers) = (self.inner.get(), self.statistics());
        statistics::write_set_manager(text, inner, &numbers, self.layouts(), handle)
    }
}
