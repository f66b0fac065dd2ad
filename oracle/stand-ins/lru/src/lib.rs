//! Stands in for lru: the cache of four wraps, which alters no answer.

use std::num::NonZeroUsize;

/// Entries in the order of their use, the latest last.
#[derive(Debug)]
pub struct LruCache<K, V> {
    most: usize,
    entries: Vec<(K, V)>,
}

impl<K: PartialEq, V> LruCache<K, V> {
    pub fn new(most: NonZeroUsize) -> Self {
        LruCache {
            most: most.get(),
            entries: Vec::new(),
        }
    }

    pub fn get_mut(&mut self, key: &K) -> Option<&mut V> {
        let index = self.entries.iter().position(|entry| entry.0 == *key)?;
        let entry = self.entries.remove(index);
        self.entries.push(entry);
        self.entries.last_mut().map(|entry| &mut entry.1)
    }

    pub fn get(&mut self, key: &K) -> Option<&V> {
        self.get_mut(key).map(|value| &*value)
    }

    pub fn put(&mut self, key: K, value: V) {
        self.entries.retain(|entry| entry.0 != key);
        if self.entries.len() == self.most {
            self.entries.remove(0);
        }
        self.entries.push((key, value));
    }
}
