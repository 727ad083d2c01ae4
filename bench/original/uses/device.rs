//! A device that refuses by chance, notes each call, and sees whether it is called rightly.

use crate::random::Random;
use std::collections::HashMap;
use std::ops::Range;
use std::panic::resume_unwind;

/// Why a call is refused: for memory of the device or the host, as fragmented, or as full.
#[derive(Clone, Copy, Debug, PartialEq, Eq, PartialOrd, Ord)]
pub enum Refusal {
    Device,
    Host,
    Fragmented,
    Full,
}

/// What a layout is: the descriptors of one set by kind, and whether it is update-after-bind.
#[derive(Clone, Copy, Debug)]
pub struct Kind {
    pub counts: [u32; 14],
    pub is_marked: bool,
}

fn sum(counts: &[u32; 14]) -> u64 {
    counts.iter().copied().map(u64::from).sum()
}

/// A call of the device that may be refused.
#[derive(Clone, Copy, Debug, PartialEq, Eq, PartialOrd, Ord)]
pub enum Call {
    Create,
    AllocateFromOldPool,
    AllocateFromNewPool,
}

impl Call {
    pub const ALL: [Call; 3] = [Call::Create, Call::AllocateFromOldPool, Call::AllocateFromNewPool];

    /// How it may be refused. A new pool that refuses for its own sake is a departure.
    pub fn refusals(self) -> &'static [Refusal] {
        use Refusal::{Device, Fragmented, Full, Host};
        match self {
            Call::Create => &[Device, Host, Fragmented],
            Call::AllocateFromOldPool => &[Device, Host, Fragmented, Full],
            Call::AllocateFromNewPool => &[Device, Host],
        }
    }
}

/// A line of a transcript: a call of the device, how it ended, or what a request returned.
#[derive(Debug, PartialEq, Eq, PartialOrd, Ord)]
pub enum Event {
    Create { counts: [u32; 14], places: u32, flags: u32 },
    Allocate { pool: u64, count: usize },
    Ended(Call, Option<Refusal>),
    Free { pool: u64, sets: Vec<u64> },
    Destroy { pool: u64 },
    Sets(Vec<u64>),
    Refused(String),
    Panicked,
}

/// Why a run of the original ends: it is about to act otherwise by design (docs/MIGRATING.md).
pub struct Departure {
    pub why: &'static str,

    /// The transcript up to there.
    pub before: Vec<Event>,
}

struct Pool {
    counts: [u32; 14],
    is_marked: bool,
    places: usize,
    live: usize,

    /// Whether it was ever asked for sets. Until then it is new.
    was_asked: bool,
}

pub struct Device {
    /// Each call so far, with its outcome.
    pub transcript: Vec<Event>,

    /// One call in so many is refused, where it is not 0, for each reason of `Call::refusals`.
    pub odds: usize,

    chance: Random,

    /// The limit that the original is held to: where it is about to pass it the run ends. Another allocator has none.
    limit: Option<u32>,

    pools: HashMap<u64, Pool>,

    /// How many pools were created, which is the next one's number.
    created: u64,

    /// The pool of each set, until it goes back.
    owners: Vec<Option<u64>>,
}

impl Device {
    pub fn new(limit: Option<u32>, odds: usize, seed: u64) -> Self {
        Device {
            transcript: Vec::new(),
            odds,
            chance: Random::new(seed),
            limit,
            pools: HashMap::new(),
            created: 0,
            owners: Vec::new(),
        }
    }

    pub fn note(&mut self, event: Event) {
        self.transcript.push(event);
    }

    /// Ends the run.
    pub fn depart(&mut self, why: &'static str) -> ! {
        let before = std::mem::take(&mut self.transcript);
        resume_unwind(Box::new(Departure { why, before }))
    }

    /// How a call ends.
    fn outcome(&mut self, call: Call) -> Result<(), Refusal> {
        let is_refused = self.odds > 0 && self.chance.below(self.odds) == 0;
        let refusal = is_refused.then(|| self.chance.one_of(call.refusals()));
        self.note(Event::Ended(call, refusal));
        refusal.map_or(Ok(()), Err)
    }

    /// Whether the marked pools, with one of these counts, have more descriptors than the limit.
    fn passes_limit(&self, counts: &[u32; 14]) -> bool {
        let marked = self.pools.values().filter(|pool| pool.is_marked);
        let load: u64 = marked.map(|pool| sum(&pool.counts)).sum();
        self.limit.is_some_and(|limit| load + sum(counts) > u64::from(limit))
    }

    pub fn create(&mut self, counts: [u32; 14], places: u32, flags: u32) -> Result<u64, Refusal> {
        // FREE_DESCRIPTOR_SET is 1, and UPDATE_AFTER_BIND, for marked sets, is 2.
        let is_marked = flags == 3;
        assert!(is_marked || flags == 1, "flags {flags}");
        if is_marked && self.passes_limit(&counts) {
            self.depart("a pool for marked sets passes the limit");
        }
        self.note(Event::Create { counts, places, flags });
        self.outcome(Call::Create)?;
        let pool = Pool { counts, is_marked, places: places as usize, live: 0, was_asked: false };
        self.pools.insert(self.created, pool);
        self.created += 1;
        Ok(self.created - 1)
    }

    pub fn allocate(&mut self, pool: u64, kind: &Kind, count: usize) -> Result<Range<u64>, Refusal> {
        let asked = self.pools.get_mut(&pool).expect("the pool is there");
        let was_asked = std::mem::replace(&mut asked.was_asked, true);
        assert!(asked.live + count <= asked.places, "too many sets");
        assert_eq!(asked.is_marked, kind.is_marked);
        self.note(Event::Allocate { pool, count });
        self.outcome(if was_asked { Call::AllocateFromOldPool } else { Call::AllocateFromNewPool })?;
        self.pools.get_mut(&pool).expect("the pool is there").live += count;
        let first = self.owners.len();
        self.owners.resize(first + count, Some(pool));
        Ok(first as u64..(first + count) as u64)
    }

    pub fn free(&mut self, pool: u64, sets: impl Iterator<Item = u64>) {
        let sets: Vec<u64> = sets.collect();
        for set in &sets {
            let owner = self.owners[*set as usize].take();
            assert_eq!(owner, Some(pool), "set {set} is not there");
        }
        self.pools.get_mut(&pool).expect("the pool is there").live -= sets.len();
        self.note(Event::Free { pool, sets });
    }

    pub fn destroy(&mut self, pool: u64) {
        self.note(Event::Destroy { pool });
        let gone = self.pools.remove(&pool).expect("the pool is there");
        assert!(gone.live == 0, "a pool with sets is destroyed");
    }
}
