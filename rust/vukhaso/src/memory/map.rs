use super::{AllocError, Vec};

/// A map in the order of its keys, whose growth may fail. It keeps its entries in one vector.
#[derive(Debug)]
pub struct BTreeMap<K, V>(Vec<(K, V)>);

impl<K: Ord + Copy, V: Copy> BTreeMap<K, V> {
    /// An empty map, which takes no memory.
    pub const fn new() -> Self {
        BTreeMap(Vec::new())
    }

    /// How many entries there are.
    pub fn len(&self) -> usize {
        self.0.len()
    }

    /// Whether there are no entries.
    pub fn is_empty(&self) -> bool {
        self.0.is_empty()
    }

    /// The value of a key, where it has one.
    pub fn get(&self, key: &K) -> Option<&V> {
        let at = self.0.binary_search_by_key(key, |entry| entry.0).ok()?;
        Some(&self.0[at].1)
    }

    /// Whether a key has a value.
    pub fn contains_key(&self, key: &K) -> bool {
        self.get(key).is_some()
    }

    /// Gives a key this value, and gives back the one that it had.
    pub fn insert(&mut self, key: K, value: V) -> Result<Option<V>, AllocError> {
        match self.0.binary_search_by_key(&key, |entry| entry.0) {
            Ok(at) => Ok(Some(core::mem::replace(&mut self.0[at].1, value))),
            Err(at) => {
                self.0.push((key, value))?;
                self.0[at..].rotate_right(1);
                Ok(None)
            }
        }
    }
}

impl<K: Ord + Copy, V: Copy> Default for BTreeMap<K, V> {
    fn default() -> Self {
        BTreeMap::new()
    }
}

impl<K, V> IntoIterator for BTreeMap<K, V> {
    type Item = (K, V);
    type IntoIter = alloc::vec::IntoIter<(K, V)>;

    fn into_iter(self) -> Self::IntoIter {
        self.0.into_iter()
    }
}
