//! The kit's `indexmap`, for the scripted device and the layouts of the line program.
//!
//! The allocator itself takes the crate's table. That one has only the calls that the allocator makes.
//! This one has those of the line program too, and finds its places by Rust's `HashMap`.

use crate::kit::alloc::{AllocError, AllocFailed, Global};
use std::borrow::Borrow;
use std::collections::HashMap;
use std::hash::{BuildHasher, BuildHasherDefault, DefaultHasher, Hash};
use std::mem::replace;

pub mod map {
    use std::slice;

    pub type Pair<'a, K, V> = (&'a K, &'a V);
    pub type Iter<'a, K, V> =
        std::iter::Map<slice::Iter<'a, (K, V)>, fn(&(K, V)) -> Pair<'_, K, V>>;
}

/// Pairs, each key once. `places` has each place of `entries` once, under the hash of its key.
#[derive(Debug)]
pub struct IndexMap<K, V> {
    entries: Vec<(K, V)>,
    places: HashMap<u64, Vec<usize>>,
}

/// The same in each run.
fn hash_of<Q: ?Sized + Hash>(key: &Q) -> u64 {
    BuildHasherDefault::<DefaultHasher>::default().hash_one(key)
}

impl<K, V> IndexMap<K, V> {
    pub fn new(_: Global) -> Self {
        IndexMap {
            entries: Vec::new(),
            places: HashMap::new(),
        }
    }

    pub fn len(&self) -> usize {
        self.entries.len()
    }

    /// Memory for so many more pairs, but not for the list of places of a hash.
    pub fn reserve(&mut self, additional: usize) -> Result<(), AllocError> {
        let entries = self.entries.try_reserve(additional);
        let both = entries.and_then(|()| self.places.try_reserve(additional));
        both.map_err(|_| AllocError)
    }

    pub fn iter(&self) -> map::Iter<'_, K, V> {
        self.entries.iter().map(|(key, value)| (key, value))
    }

    pub fn values(&self) -> impl Iterator<Item = &V> {
        self.entries.iter().map(|(_, value)| value)
    }
}

impl<K: Eq + Hash, V> IndexMap<K, V> {
    pub fn get_index_of<Q: ?Sized + Eq + Hash>(&self, key: &Q) -> Option<usize>
    where
        K: Borrow<Q>,
    {
        let mut alike = self.places.get(&hash_of(key))?.iter().copied();
        alike.find(|place| self.entries[*place].0.borrow() == key)
    }

    pub fn get<Q: ?Sized + Eq + Hash>(&self, key: &Q) -> Option<&V>
    where
        K: Borrow<Q>,
    {
        self.get_index_of(key).map(|place| &self.entries[place].1)
    }

    pub fn get_mut(&mut self, key: &K) -> Option<&mut V> {
        self.get_index_of(key)
            .map(|place| &mut self.entries[place].1)
    }

    /// A new key goes last; a key that is there gets the value, and the old one is returned.
    pub fn insert(&mut self, key: K, value: V) -> Result<Option<V>, AllocFailed<(K, V)>> {
        if let Some(old) = self.get_mut(&key) {
            return Ok(Some(replace(old, value)));
        }
        if self.reserve(1).is_err() {
            let value = (key, value);
            return Err(AllocFailed { value });
        }
        let places = self.places.entry(hash_of(&key)).or_default();
        places.push(self.entries.len());
        self.entries.push((key, value));
        Ok(None)
    }

    /// Takes a pair out; the last pair comes to its place.
    pub fn swap_remove(&mut self, key: &K) -> Option<V> {
        let place = self.get_index_of(key)?;
        let last = self.entries.len() - 1;
        self.drop_place(hash_of(key), place);
        if place < last {
            let hash = hash_of(&self.entries[last].0);
            self.drop_place(hash, last);
            self.places.entry(hash).or_default().push(place);
        }
        Some(self.entries.swap_remove(place).1)
    }

    fn drop_place(&mut self, hash: u64, place: usize) {
        let places = self.places.get_mut(&hash).expect("each place is listed");
        places.retain(|it| *it != place);
        if places.is_empty() {
            self.places.remove(&hash);
        }
    }
}
