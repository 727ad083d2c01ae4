//! Numbers of a set manager, and the same as JSON. The library for C has this file too.

use crate::descriptor_manager::{LayoutHandle, SetManager};
use crate::gpu_descriptor::{DescriptorSetLayoutCreateFlags, PoolView, SetLayout};
use crate::gpu_descriptor_types::DescriptorDevice;
use core::fmt::{self, Write};

/// The numbers of a set manager's sets, layouts and pools. A pool's sets and descriptors are those that it
/// can have.
#[derive(Clone, Copy, Debug, Default, PartialEq, Eq)]
#[non_exhaustive]
pub struct Statistics {
    /// Live sets, those that wait for a frame included.
    pub outstanding: u64,

    /// Sets that wait for a frame.
    pub waiting: u64,

    /// Kept sets of all layouts.
    pub kept: u64,

    /// Layouts that were added and not removed.
    pub layouts: u64,

    /// Pools that exist.
    pub pools: u64,

    /// The sets that these pools can have.
    pub pool_sets: u64,

    /// The descriptors that these pools can have, of all kinds together.
    pub pool_descriptors: u64,

    /// The peak of `pools` so far.
    pub peak_pools: u64,

    /// The peak of `pool_sets` so far.
    pub peak_pool_sets: u64,

    /// The peak of `pool_descriptors` so far.
    pub peak_pool_descriptors: u64,

    /// The bound on the descriptors of a new pool, `None` without one.
    pub max_pool_descriptors: Option<u64>,

    /// Descriptors of the pools for update-after-bind layouts: how much of the limit is in use.
    pub update_after_bind_capacity: u32,

    /// The limit on these descriptors.
    pub update_after_bind_limit: u32,
}

/// The numbers of a layout. Layouts with the same counts and flags share pools, so each number except
/// `kept` covers the sets of all these layouts, and of those that were removed. `pool_sets_used` less the
/// `kept` of all of them is how many of their sets are live.
#[derive(Clone, Copy, Debug, Default, PartialEq, Eq)]
#[non_exhaustive]
pub struct LayoutStatistics {
    /// Kept sets of this layout alone.
    pub kept: u64,

    /// Pools that exist.
    pub pools: u64,

    /// Sets of these pools that are live or kept.
    pub pool_sets_used: u64,

    /// Sets that these pools can still give. A pool that refused counts as full until a set of it is freed.
    pub pool_sets_free: u64,
}

/// How many sets and descriptors one pool can have.
#[derive(Clone, Copy, Debug)]
pub(crate) struct PoolSize {
    pub(crate) sets: u32,
    pub(crate) descriptors: u64,
}

/// How many pools there are, and how many sets and descriptors they can have together.
#[derive(Clone, Copy, Debug, Default)]
struct Pools {
    count: u64,
    sets: u64,
    descriptors: u64,
}

impl Pools {
    /// The greater of each number.
    fn max(self, other: Self) -> Self {
        Pools {
            count: self.count.max(other.count),
            sets: self.sets.max(other.sets),
            descriptors: self.descriptors.max(other.descriptors),
        }
    }
}

/// The pools that exist, and the peak of each number.
#[derive(Clone, Copy, Debug, Default)]
pub(crate) struct PoolCounts {
    now: Pools,
    peak: Pools,
}

impl PoolCounts {
    /// How many pools exist.
    pub(crate) fn count(&self) -> u64 {
        self.now.count
    }

    /// Counts a pool that was created.
    pub(crate) fn add(&mut self, pool: PoolSize) {
        self.now.count += 1;
        self.now.sets += u64::from(pool.sets);
        self.now.descriptors += pool.descriptors;
        self.peak = self.peak.max(self.now);
    }

    /// Counts a pool that was destroyed.
    pub(crate) fn remove(&mut self, pool: PoolSize) {
        self.now.count -= 1;
        self.now.sets -= u64::from(pool.sets);
        self.now.descriptors -= pool.descriptors;
    }

    /// The numbers of pools; all others are 0.
    pub(crate) fn statistics(&self) -> Statistics {
        Statistics {
            pools: self.now.count,
            pool_sets: self.now.sets,
            pool_descriptors: self.now.descriptors,
            peak_pools: self.peak.count,
            peak_pool_sets: self.peak.sets,
            peak_pool_descriptors: self.peak.descriptors,
            ..Statistics::default()
        }
    }
}

/// The numbers of a set manager with `layouts` layouts, whose device has these pools.
pub(crate) fn of_set_manager<L, P, S, D: DescriptorDevice<L, P, S>>(
    manager: &SetManager<L, P, S, D>,
    pools: &PoolCounts,
    layouts: u64,
) -> Statistics {
    let counts = manager.counts();
    Statistics {
        outstanding: counts.held + counts.waiting,
        waiting: counts.waiting,
        kept: counts.kept,
        layouts,
        max_pool_descriptors: manager.max_pool_descriptors(),
        update_after_bind_capacity: manager.update_after_bind_capacity(),
        update_after_bind_limit: manager.update_after_bind_limit(),
        ..pools.statistics()
    }
}

/// The numbers of a layout of a set manager. It visits the layout's pools.
pub(crate) fn of_layout<L, P, S, D: DescriptorDevice<L, P, S>>(
    manager: &SetManager<L, P, S, D>,
    layout: LayoutHandle,
) -> LayoutStatistics {
    let mut numbers = LayoutStatistics {
        kept: manager.kept_count(layout).into(),
        ..LayoutStatistics::default()
    };
    let pools = (0..).map_while(|index| manager.pool(layout, index));
    pools.for_each(|pool| numbers.add(pool));
    numbers
}

impl LayoutStatistics {
    fn add(&mut self, pool: PoolView) {
        self.pools += 1;
        self.pool_sets_used += u64::from(pool.allocated);
        self.pool_sets_free += u64::from(pool.available);
    }
}

/// The kinds of descriptors in the order of `DescriptorTotalCount::to_array`.
const KINDS: [&str; 14] = [
    "sampler",
    "combined_image_sampler",
    "sampled_image",
    "storage_image",
    "uniform_texel_buffer",
    "storage_texel_buffer",
    "uniform_buffer",
    "storage_buffer",
    "uniform_buffer_dynamic",
    "storage_buffer_dynamic",
    "input_attachment",
    "acceleration_structure",
    "inline_uniform_block_bytes",
    "inline_uniform_block_bindings",
];

/// Writes a set manager's numbers as JSON, with these layouts. `handle_of` returns a layout's handle in the
/// driver.
pub(crate) fn write_set_manager<L, P, S, D: DescriptorDevice<L, P, S>>(
    text: &mut impl Write,
    manager: &SetManager<L, P, S, D>,
    numbers: &Statistics,
    layouts: impl Iterator<Item = LayoutHandle>,
    handle_of: impl Fn(&L) -> u64,
) -> fmt::Result {
    write_numbers(text, numbers)?;
    let mut separator = "";
    for handle in layouts {
        let layout = manager.layout(handle).ok_or(fmt::Error)?;
        text.write_str(separator)?;
        let numbers = of_layout(manager, handle);
        write_layout(text, handle_of(&layout.layout), layout, numbers)?;
        separator = ", ";
    }
    text.write_str("]}")
}

/// Writes all up to the first layout.
fn write_numbers(text: &mut impl Write, numbers: &Statistics) -> fmt::Result {
    write!(text, "{{\"version\": \"{}\"", env!("CARGO_PKG_VERSION"))?;
    let members = [
        ("outstanding", numbers.outstanding),
        ("waiting", numbers.waiting),
        ("kept", numbers.kept),
        ("pools", numbers.pools),
        ("pool_sets", numbers.pool_sets),
        ("pool_descriptors", numbers.pool_descriptors),
        ("peak_pools", numbers.peak_pools),
        ("peak_pool_sets", numbers.peak_pool_sets),
        ("peak_pool_descriptors", numbers.peak_pool_descriptors),
        (
            "update_after_bind_capacity",
            numbers.update_after_bind_capacity.into(),
        ),
        (
            "update_after_bind_limit",
            numbers.update_after_bind_limit.into(),
        ),
    ];
    write_members(text, &members)?;
    match numbers.max_pool_descriptors {
        Some(max) => write!(text, ", \"max_pool_descriptors\": {max}")?,
        None => text.write_str(", \"max_pool_descriptors\": null")?,
    }
    text.write_str(", \"layouts\": [")
}

/// Writes a layout with this handle of the driver's. It is written as a text: a handle has 64 bits, and a
/// number of JSON may have fewer.
fn write_layout<L>(
    text: &mut impl Write,
    handle: u64,
    layout: &SetLayout<L>,
    numbers: LayoutStatistics,
) -> fmt::Result {
    let is_marked = layout
        .flags
        .contains(DescriptorSetLayoutCreateFlags::UPDATE_AFTER_BIND);
    write!(text, "{{\"handle\": \"{handle:#x}\"")?;
    write!(text, ", \"update_after_bind\": {is_marked}")?;
    let members = [
        ("kept", numbers.kept),
        ("pools", numbers.pools),
        ("pool_sets_used", numbers.pool_sets_used),
        ("pool_sets_free", numbers.pool_sets_free),
    ];
    write_members(text, &members)?;
    text.write_str(", \"descriptors\": {")?;
    let mut separator = "";
    for (kind, count) in KINDS.iter().zip(layout.counts.to_array()) {
        if count > 0 {
            write!(text, "{separator}\"{kind}\": {count}")?;
            separator = ", ";
        }
    }
    text.write_str("}}")
}

/// Members of an object, after others.
fn write_members(text: &mut impl Write, members: &[(&str, u64)]) -> fmt::Result {
    for (name, number) in members {
        write!(text, ", \"{name}\": {number}")?;
    }
    Ok(())
}
