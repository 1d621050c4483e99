//! Stands in for lru: the memory of removed nodes, which document 01 leaves out. Oldest first in a list.

use std::num::NonZeroUsize;

pub struct LruCache<K, V> {
    room: usize,
    held: Vec<(K, V)>,
}

impl<K: PartialEq, V> LruCache<K, V> {
    pub fn new(room: NonZeroUsize) -> Self {
        LruCache { room: room.get(), held: Vec::new() }
    }

    pub fn push(&mut self, key: K, value: V) {
        self.pop(&key);
        if self.held.len() == self.room {
            self.held.remove(0);
        }
        self.held.push((key, value));
    }

    pub fn pop(&mut self, key: &K) -> Option<V> {
        let place = self.held.iter().position(|(held, _)| held == key)?;
        Some(self.held.remove(place).1)
    }

    pub fn peek(&self, key: &K) -> Option<&V> {
        self.held.iter().find(|(held, _)| held == key).map(|(_, value)| value)
    }
}
