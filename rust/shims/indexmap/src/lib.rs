//! A stand-in for indexmap: what parquet-variant 60.0.0 names of it, and no more. Only its
//! builders do.
//!
//! A set, which a builder of metadata has its names in, and a map, which a builder of objects has its
//! fields in, have a table of hashes, by the library's hash function, as indexmap's own have it: the time
//! of both is taken.

use std::cmp::Ordering;
use std::collections::HashMap;
use std::hash::{BuildHasher, BuildHasherDefault, Hash, Hasher, RandomState};

/// Where the first thing of each hash stands.
#[derive(Debug, Default, Clone)]
struct Firsts {
    firsts: HashMap<u64, usize, BuildHasherDefault<Hashed>>,
    hashes: RandomState,
}

impl Firsts {
    fn hash(&self, thing: &impl Hash) -> u64 {
        self.hashes.hash_one(thing)
    }

    /// Where the first thing of a hash stands: a new one there, if there was none.
    fn first(&mut self, hash: u64, new: usize) -> usize {
        *self.firsts.entry(hash).or_insert(new)
    }

    fn truncate(&mut self, length: usize) {
        self.firsts.retain(|_, first| *first < length);
    }
}

/// What is hashed already.
#[derive(Debug, Default, Clone)]
struct Hashed(u64);

impl Hasher for Hashed {
    fn finish(&self) -> u64 {
        self.0
    }

    fn write(&mut self, _: &[u8]) {
        unreachable!("hashes are numbers of 64 bits")
    }

    fn write_u64(&mut self, hash: u64) {
        self.0 = hash;
    }
}

/// Keys with values, in the order in which they came.
#[derive(Debug, Clone)]
pub struct IndexMap<K, V> {
    entries: Vec<Entry<K, V>>,
    firsts: Firsts,
}

#[derive(Debug, Clone)]
struct Entry<K, V> {
    hash: u64,
    key: K,
    value: V,
}

impl<K, V> Default for IndexMap<K, V> {
    fn default() -> Self {
        IndexMap {
            entries: Vec::new(),
            firsts: Firsts::default(),
        }
    }
}

impl<K: Eq + Hash, V> IndexMap<K, V> {
    pub fn new() -> Self {
        Self::default()
    }

    pub fn len(&self) -> usize {
        self.entries.len()
    }

    pub fn is_empty(&self) -> bool {
        self.entries.is_empty()
    }

    pub fn truncate(&mut self, length: usize) {
        self.entries.truncate(length);
        self.firsts.truncate(length);
    }

    pub fn insert(&mut self, key: K, value: V) -> Option<V> {
        let (new, hash) = (self.entries.len(), self.firsts.hash(&key));
        let held = match self.firsts.first(hash, new) {
            first if first == new => None,
            first if self.entries[first].key == key => Some(first),
            // Another key has the same 64 bits, which hardly ever is.
            _ => self.entries.iter().position(|held| held.key == key),
        };
        match held {
            Some(index) => Some(std::mem::replace(&mut self.entries[index].value, value)),
            None => {
                self.entries.push(Entry { hash, key, value });
                None
            }
        }
    }

    pub fn sort_by<F: FnMut(&K, &V, &K, &V) -> Ordering>(&mut self, mut order: F) {
        self.entries
            .sort_by(|a, b| order(&a.key, &a.value, &b.key, &b.value));
        self.firsts.firsts.clear();
        for (index, entry) in self.entries.iter().enumerate() {
            self.firsts.first(entry.hash, index);
        }
    }

    pub fn iter(&self) -> impl ExactSizeIterator<Item = (&K, &V)> {
        self.entries.iter().map(|held| (&held.key, &held.value))
    }

    pub fn keys(&self) -> impl ExactSizeIterator<Item = &K> {
        self.entries.iter().map(|held| &held.key)
    }

    pub fn values(&self) -> impl ExactSizeIterator<Item = &V> {
        self.entries.iter().map(|held| &held.value)
    }
}

/// Things, each once, in the order in which they came.
#[derive(Debug, Clone)]
pub struct IndexSet<T> {
    things: Vec<T>,
    firsts: Firsts,
}

impl<T> Default for IndexSet<T> {
    fn default() -> Self {
        IndexSet {
            things: Vec::new(),
            firsts: Firsts::default(),
        }
    }
}

impl<T: Eq + Hash> IndexSet<T> {
    pub fn len(&self) -> usize {
        self.things.len()
    }

    pub fn is_empty(&self) -> bool {
        self.things.is_empty()
    }

    pub fn truncate(&mut self, length: usize) {
        self.things.truncate(length);
        self.firsts.truncate(length);
    }

    pub fn reserve(&mut self, more: usize) {
        self.things.reserve(more);
        self.firsts.firsts.reserve(more);
    }

    pub fn iter(&self) -> std::slice::Iter<'_, T> {
        self.things.iter()
    }

    pub fn insert_full(&mut self, thing: T) -> (usize, bool) {
        let new = self.things.len();
        let hash = self.firsts.hash(&thing);
        let held = match self.firsts.first(hash, new) {
            first if first == new => None,
            first if self.things[first] == thing => Some(first),
            // Another thing has the same 64 bits, which hardly ever is.
            _ => self.things.iter().position(|held| *held == thing),
        };
        match held {
            Some(index) => (index, false),
            None => {
                self.things.push(thing);
                (new, true)
            }
        }
    }
}

impl<T> std::ops::Index<usize> for IndexSet<T> {
    type Output = T;

    fn index(&self, index: usize) -> &T {
        &self.things[index]
    }
}

impl<'a, T> IntoIterator for &'a IndexSet<T> {
    type Item = &'a T;
    type IntoIter = std::slice::Iter<'a, T>;

    fn into_iter(self) -> Self::IntoIter {
        self.things.iter()
    }
}

impl<T> IntoIterator for IndexSet<T> {
    type Item = T;
    type IntoIter = std::vec::IntoIter<T>;

    fn into_iter(self) -> Self::IntoIter {
        self.things.into_iter()
    }
}
