//! The numbers of an allocator, as C has them.

use super::{Allocator, layout_of};
use crate::abi::{GdLayout, GdLayoutStatistics, GdStatistics, GdStatus};
use crate::descriptor_manager::LayoutHandle;
use crate::statistics::{self, LayoutStatistics, Statistics};
use core::fmt::{self, Write};

impl Allocator {
    /// The handles of all layouts, in no order.
    fn layouts(&self) -> impl Iterator<Item = LayoutHandle> {
        self.known.names().map(|name| layout_of(self.id, name))
    }

    fn numbers(&self) -> Statistics {
        let layouts = self.layouts().count() as u64;
        statistics::of_set_manager(&self.manager, &self.manager.device().pools, layouts)
    }

    pub fn statistics(&self) -> GdStatistics {
        self.numbers().into()
    }

    /// The set manager's handle of a layout, if it is one of this allocator.
    fn known_handle(&self, layout: GdLayout) -> Result<LayoutHandle, GdStatus> {
        let handle = layout_of(layout.owner, layout.index);
        let known = self.manager.layout(handle);
        known.map(|_| handle).ok_or(GdStatus::BAD_LAYOUT)
    }

    /// How many sets of a layout are kept.
    pub fn kept(&self, layout: GdLayout) -> Result<u64, GdStatus> {
        let handle = self.known_handle(layout)?;
        Ok(self.manager.kept_count(handle).into())
    }

    pub fn layout_statistics(&self, layout: GdLayout) -> Result<GdLayoutStatistics, GdStatus> {
        let handle = self.known_handle(layout)?;
        Ok(statistics::of_layout(&self.manager, handle).into())
    }

    /// Writes the numbers as JSON.
    pub fn write_statistics(&self, text: &mut impl Write) -> fmt::Result {
        let (manager, numbers) = (&self.manager, self.numbers());
        statistics::write_set_manager(text, manager, &numbers, self.layouts(), |it| it.handle)
    }
}

impl From<Statistics> for GdStatistics {
    fn from(it: Statistics) -> Self {
        GdStatistics {
            outstanding: it.outstanding,
            waiting: it.waiting,
            kept: it.kept,
            layouts: it.layouts,
            pools: it.pools,
            pool_sets: it.pool_sets,
            pool_descriptors: it.pool_descriptors,
            peak_pools: it.peak_pools,
            peak_pool_sets: it.peak_pool_sets,
            peak_pool_descriptors: it.peak_pool_descriptors,
            max_pool_descriptors: it.max_pool_descriptors.unwrap_or(u64::MAX),
            update_after_bind_capacity: it.update_after_bind_capacity.into(),
            update_after_bind_limit: it.update_after_bind_limit.into(),
        }
    }
}

impl From<LayoutStatistics> for GdLayoutStatistics {
    fn from(it: LayoutStatistics) -> Self {
        GdLayoutStatistics {
            kept: it.kept,
            pools: it.pools,
            pool_sets_used: it.pool_sets_used,
            pool_sets_free: it.pool_sets_free,
        }
    }
}
