//! Maps and sets in the order of insertion, over the crate `indexmap`.
use crate::shim::alloc::{AllocError, AllocFailed};
use std::collections::hash_map::RandomState;
use std::fmt;
use std::hash::{Hash, Hasher};
use std::ops::{Index, IndexMut};

pub mod map {
    pub use indexmap::map::{IntoIter, Iter};
}

/// What stands for a key where one is looked up: a `&K`, or a `&str` for a text. (The crate's own is for unsized types
/// behind a reference; Rattle's is for the reference.)
pub trait Equivalent<K>: Copy + Hash {
    fn equivalent(&self, key: &K) -> bool;
}

impl<K: Eq + Hash> Equivalent<K> for &K {
    fn equivalent(&self, key: &K) -> bool {
        **self == *key
    }
}

impl Equivalent<crate::shim::String> for &str {
    fn equivalent(&self, key: &crate::shim::String) -> bool {
        *self == key.as_str()
    }
}

#[derive(Clone, Copy)]
struct Query<Q>(Q);

impl<Q: Hash> Hash for Query<Q> {
    fn hash<H: Hasher>(&self, state: &mut H) {
        self.0.hash(state);
    }
}

impl<K, Q: Equivalent<K>> ::indexmap::Equivalent<K> for Query<Q> {
    fn equivalent(&self, key: &K) -> bool {
        self.0.equivalent(key)
    }
}

pub struct IndexMap<K, V>(::indexmap::IndexMap<K, V, RandomState>);

impl<K: Eq + Hash, V> IndexMap<K, V> {
    pub fn new() -> IndexMap<K, V> {
        IndexMap(::indexmap::IndexMap::default())
    }

    pub fn with_capacity(capacity: usize) -> Result<IndexMap<K, V>, AllocError> {
        let mut map = IndexMap::new();
        map.reserve(capacity)?;
        Ok(map)
    }

    

    /// (The crate's `try_reserve` is of its release 2.)
    pub fn reserve(&mut self, additional: usize) -> Result<(), AllocError> {
        self.0.reserve(additional);
        Ok(())
    }

    pub fn insert(&mut self, key: K, value: V) -> Result<Option<V>, AllocFailed<(K, V)>> {
        Ok(self.0.insert(key, value))
    }

    pub fn len(&self) -> usize {
        self.0.len()
    }

    pub fn is_empty(&self) -> bool {
        self.0.is_empty()
    }

    pub fn get<Q: Equivalent<K>>(&self, key: Q) -> Option<&V> {
        self.0.get(&Query(key))
    }

    pub fn get_mut<Q: Equivalent<K>>(&mut self, key: Q) -> Option<&mut V> {
        self.0.get_mut(&Query(key))
    }

    pub fn contains_key<Q: Equivalent<K>>(&self, key: Q) -> bool {
        self.0.contains_key(&Query(key))
    }

    pub fn get_index_of<Q: Equivalent<K>>(&self, key: Q) -> Option<usize> {
        self.0.get_index_of(&Query(key))
    }

    pub fn get_index(&self, index: usize) -> Option<(&K, &V)> {
        self.0.get_index(index)
    }

    pub fn shift_remove_index(&mut self, index: usize) -> Option<(K, V)> {
        self.0.shift_remove_index(index)
    }

    pub fn move_index(&mut self, from: usize, to: usize) {
        self.0.move_index(from, to);
    }

    pub fn retain<F: FnMut(&K, &mut V) -> bool>(&mut self, keep: F) {
        self.0.retain(keep);
    }

    pub fn truncate(&mut self, len: usize) {
        self.0.truncate(len);
    }

    /// (A stable sort, which takes memory that it cannot refuse.)
    pub fn sort_keys(&mut self) -> Result<(), AllocError>
    where
        K: Ord,
    {
        self.0.sort_keys();
        Ok(())
    }

    pub fn shrink_to_fit(&mut self) {
        self.0.shrink_to_fit();
    }

    pub fn iter(&self) -> map::Iter<'_, K, V> {
        self.0.iter()
    }
}

impl<K, V> Index<usize> for IndexMap<K, V> {
    type Output = V;

    fn index(&self, index: usize) -> &V {
        &self.0[index]
    }
}

impl<K, V> IndexMut<usize> for IndexMap<K, V> {
    fn index_mut(&mut self, index: usize) -> &mut V {
        &mut self.0[index]
    }
}

impl<K, V> IntoIterator for IndexMap<K, V> {
    type Item = (K, V);
    type IntoIter = map::IntoIter<K, V>;

    fn into_iter(self) -> map::IntoIter<K, V> {
        self.0.into_iter()
    }
}

impl<'a, K, V> IntoIterator for &'a IndexMap<K, V> {
    type Item = (&'a K, &'a V);
    type IntoIter = map::Iter<'a, K, V>;

    fn into_iter(self) -> map::Iter<'a, K, V> {
        self.0.iter()
    }
}

impl<K: fmt::Debug, V: fmt::Debug> fmt::Debug for IndexMap<K, V> {
    fn fmt(&self, f: &mut fmt::Formatter<'_>) -> fmt::Result {
        self.0.fmt(f)
    }
}

pub struct IndexSet<T>(::indexmap::IndexSet<T, RandomState>);

impl<T: Eq + Hash> IndexSet<T> {
    pub fn new() -> IndexSet<T> {
        IndexSet(::indexmap::IndexSet::default())
    }

    

    pub fn insert(&mut self, item: T) -> Result<bool, AllocFailed<T>> {
        Ok(self.0.insert(item))
    }

    pub fn len(&self) -> usize {
        self.0.len()
    }

    pub fn is_empty(&self) -> bool {
        self.0.is_empty()
    }

    pub fn contains<Q: Equivalent<T>>(&self, item: Q) -> bool {
        self.0.contains(&Query(item))
    }

    pub fn get_index(&self, index: usize) -> Option<&T> {
        self.0.get_index(index)
    }

    pub fn iter(&self) -> ::indexmap::set::Iter<'_, T> {
        self.0.iter()
    }
}

impl<T: fmt::Debug> fmt::Debug for IndexSet<T> {
    fn fmt(&self, f: &mut fmt::Formatter<'_>) -> fmt::Result {
        self.0.fmt(f)
    }
}
