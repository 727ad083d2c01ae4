//! The kit's crate `indexmap`.

use super::alloc::{AllocError, AllocFailed, Global};
use core::fmt::{self, Debug, Formatter};
use core::hash::{Hash, Hasher};
use core::ops::{Index, IndexMut};
use std_alloc::vec::Vec;

/// Pairs in the order in which their keys were added, each key once.
///
/// `slots` has each place of `entries` once, with the hash of its key: in the slot that the hash names, or
/// if that is taken in the first vacant one after it. There is a power of two of them, or none. At least
/// half of them are vacant, so a key is found in few steps.
pub struct IndexMap<K, V> {
    entries: Vec<(K, V)>,
    slots: Vec<Slot>,
}

/// A hash and a place, or `VACANT`. A key may have the hash 0, but none has that place.
type Slot = (u64, usize);

const VACANT: Slot = (0, usize::MAX);

/// The slot to look at first for a hash, if `last` is the last one. The upper bits of a hash depend on all
/// bits of the key.
#[inline]
fn first_slot(hash: u64, last: usize) -> usize {
    (hash >> 32) as usize & last
}

/// Out of line: in the search the compiler would take the key apart for it, from the words of the hash.
#[inline(never)]
fn are_same<K: Eq>(a: &K, b: &K) -> bool {
    a == b
}

/// Writes a place into the first vacant slot.
fn take_slot(slots: &mut [Slot], hash: u64, place: usize) {
    let last = slots.len() - 1;
    let mut at = first_slot(hash, last);
    while slots[at] != VACANT {
        at = (at + 1) & last;
    }
    slots[at] = (hash, place);
}

/// Hashes eight bytes at a time. `Eq` distinguishes keys with the same hash, so nothing but time
/// rests on it.
struct Mix(u64);

impl Hasher for Mix {
    fn write(&mut self, bytes: &[u8]) {
        for bytes in bytes.chunks(8) {
            let mut word = [0; 8];
            word[..bytes.len()].copy_from_slice(bytes);
            self.write_u64(u64::from_le_bytes(word));
        }
    }

    #[inline]
    fn write_u64(&mut self, word: u64) {
        self.0 = (self.0.rotate_left(23) ^ word).wrapping_mul(0x9e37_79b9_7f4a_7c15);
    }

    #[inline]
    fn write_u128(&mut self, words: u128) {
        self.write_u64(words as u64);
        self.write_u64((words >> 64) as u64);
    }

    #[inline]
    fn write_u8(&mut self, byte: u8) {
        self.write_u64(u64::from(byte));
    }

    fn finish(&self) -> u64 {
        self.0
    }
}

fn hash_of<K: Hash>(key: &K) -> u64 {
    let mut mix = Mix(0);
    key.hash(&mut mix);
    mix.finish()
}

/// The pairs alone: how many slots there are is a capacity.
impl<K: Debug, V: Debug> Debug for IndexMap<K, V> {
    fn fmt(&self, f: &mut Formatter<'_>) -> fmt::Result {
        self.entries.fmt(f)
    }
}

impl<K, V> IndexMap<K, V> {
    /// `empty`, `len`: it has no pair. It allocates nothing.
    pub fn new(_: Global) -> Self {
        IndexMap {
            entries: Vec::new(),
            slots: Vec::new(),
        }
    }

    /// `len`: how many pairs there are.
    #[inline]
    pub fn len(&self) -> usize {
        self.entries.len()
    }

    /// `entry`, `found`: the pair at the place, if there is one.
    #[inline]
    pub fn get_index(&self, index: usize) -> Option<(&K, &V)> {
        self.entries.get(index).map(|(key, value)| (key, value))
    }

    /// `value`, `writes_back`: the pair at the place, which has to be there; else a panic.
    #[inline]
    pub fn pair_mut(&mut self, index: usize) -> (&K, &mut V) {
        let (key, value) = &mut self.entries[index];
        (key, value)
    }

    /// `bound`, `partitioned`: the first place whose pair `pred` refuses.
    pub fn partition_point(&self, pred: impl Fn(&K, &V) -> bool) -> usize {
        self.entries
            .partition_point(|(key, value)| pred(key, value))
    }

    /// `entries`: nothing changes. `ok`: `additional` inserts need no allocation. `succeeds`: if they needed
    /// none before, it allocates no memory.
    pub fn reserve(&mut self, additional: usize) -> Result<(), AllocError> {
        self.entries
            .try_reserve(additional)
            .map_err(|_| AllocError)?;
        let wanted = (self.entries.capacity() * 2).next_power_of_two();
        if wanted <= self.slots.len() {
            return Ok(());
        }
        let mut slots = Vec::new();
        slots.try_reserve_exact(wanted).map_err(|_| AllocError)?;
        slots.resize(wanted, VACANT);
        for (hash, place) in self.slots.iter().filter(|slot| **slot != VACANT) {
            take_slot(&mut slots, *hash, *place);
        }
        self.slots = slots;
        Ok(())
    }
}

impl<K: Eq + Hash, V> IndexMap<K, V> {
    /// `index`: the place of the key, if it is there.
    pub fn get_index_of(&self, key: &K) -> Option<usize> {
        let hash = hash_of(key);
        let last = self.slots.len().checked_sub(1)?;
        let mut at = first_slot(hash, last);
        loop {
            let (other, place) = self.slots[at];
            if other == hash && are_same(&self.entries.get(place)?.0, key) {
                return Some(place);
            }
            if place == usize::MAX {
                return None;
            }
            at = (at + 1) & last;
        }
    }

    /// `value`: the value of the key, if it is there.
    pub fn get(&self, key: &K) -> Option<&V> {
        self.get_index_of(key).map(|place| &self.entries[place].1)
    }

    /// `entries`, `old`: a new key goes last, and a key that is there gets the value.
    /// `value_returned`, `err`: if an allocation failed, nothing changed. `succeeds`: if there is
    /// room, it allocates nothing.
    pub fn insert(&mut self, key: K, value: V) -> Result<Option<V>, AllocFailed<(K, V)>> {
        if let Some(place) = self.get_index_of(&key) {
            return Ok(Some(core::mem::replace(&mut self.entries[place].1, value)));
        }
        if self.reserve(1).is_err() {
            return Err(AllocFailed {
                value: (key, value),
            });
        }
        take_slot(&mut self.slots, hash_of(&key), self.entries.len());
        self.entries.push((key, value));
        Ok(None)
    }

    /// `filtered`: the pairs for which `keep` is true stay, in their order. `room`: it allocates and
    /// frees nothing.
    pub fn retain(&mut self, mut keep: impl FnMut(&K, &mut V) -> bool) {
        let before = self.entries.len();
        self.entries.retain_mut(|(key, value)| keep(key, value));
        if self.entries.len() == before {
            return;
        }
        self.slots.fill(VACANT);
        for (place, (key, _)) in self.entries.iter().enumerate() {
            take_slot(&mut self.slots, hash_of(key), place);
        }
    }
}

/// `value`: the value at the place, which has to be there; else a panic.
impl<K, V> Index<usize> for IndexMap<K, V> {
    type Output = V;

    fn index(&self, index: usize) -> &V {
        &self.entries[index].1
    }
}

impl<K, V> IndexMut<usize> for IndexMap<K, V> {
    fn index_mut(&mut self, index: usize) -> &mut V {
        &mut self.entries[index].1
    }
}

#[cfg(test)]
mod tests {
    use super::{Global, IndexMap, Vec};
    use core::hash::{Hash, Hasher};

    /// Only four hashes, so that most keys share theirs.
    #[derive(Clone, Copy, Debug, PartialEq, Eq)]
    struct Key(u32);

    impl Hash for Key {
        fn hash<H: Hasher>(&self, state: &mut H) {
            state.write_u64(u64::from(self.0 % 4));
        }
    }

    /// Counts, hashed as those of a layout are.
    #[derive(Debug, PartialEq, Eq)]
    struct Counts([u32; 14]);

    impl Hash for Counts {
        fn hash<H: Hasher>(&self, state: &mut H) {
            let word = |at: usize| u64::from(self.0[at]) | u64::from(self.0[at + 1]) << 32;
            for at in [0, 4, 8] {
                state.write_u128(u128::from(word(at)) | u128::from(word(at + 2)) << 64);
            }
            state.write_u64(word(12));
        }
    }

    #[test]
    fn a_partition_point_is_the_first_place_that_is_refused() {
        let mut map = IndexMap::new(Global);
        for key in 0..9_usize {
            map.insert(key, ()).unwrap();
        }
        for place in 0..=9 {
            assert_eq!(map.partition_point(|key, ()| *key < place), place);
        }
    }

    /// How many slots are looked at to find each key.
    fn looks<K, V>(map: &IndexMap<K, V>) -> usize {
        let last = map.slots.len() - 1;
        let slots = map.slots.iter().enumerate();
        let taken = slots.filter(|(_, slot)| **slot != super::VACANT);
        let looks = taken.map(|(at, slot)| at.wrapping_sub(super::first_slot(slot.0, last)) & last);
        looks.map(|it| it + 1).sum()
    }

    /// Whichever count is the one in which the keys differ.
    #[test]
    fn a_key_is_found_by_few_looks() {
        for kind in 0..14 {
            let mut map = IndexMap::new(Global);
            for count in 0..1000 {
                let mut counts = Counts([0; 14]);
                counts.0[kind] = count;
                map.insert(counts, ()).unwrap();
            }
            let looks = looks(&map);
            assert!(looks <= 8 * map.len(), "{looks} looks at kind {kind}");
        }
    }

    /// Beside a list of pairs.
    #[test]
    fn acts_as_a_list_of_pairs() {
        let (mut map, mut list) = (IndexMap::new(Global), Vec::<(Key, u32)>::new());
        let mut random = 1_u64;
        let mut below = |end: u64| {
            random = random
                .wrapping_mul(6364136223846793005)
                .wrapping_add(1442695040888963407);
            ((random >> 33) % end) as u32
        };
        for step in 0..100_000 {
            let key = Key(below(40));
            let place = list.iter().position(|it| it.0 == key);
            assert_eq!(map.get_index_of(&key), place);
            assert_eq!(map.get(&key), place.map(|place| &list[place].1));
            match below(20) {
                0 => {
                    let (by, rest) = (2 + below(9), below(2));
                    map.retain(|key: &Key, _: &mut u32| key.0 % by != rest);
                    list.retain(|it| it.0.0 % by != rest);
                }
                _ => {
                    let old = map.insert(key, step).unwrap();
                    assert_eq!(old, place.map(|place| list[place].1));
                    match place {
                        Some(place) => list[place].1 = step,
                        None => list.push((key, step)),
                    }
                }
            }
            assert_eq!(map.entries, list);
            let taken = map.slots.iter().filter(|slot| **slot != super::VACANT);
            assert_eq!(taken.count(), list.len());
        }
    }
}
