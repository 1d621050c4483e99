//! Stands in for itertools: sorting an iterator by a key.

pub trait Itertools: Iterator + Sized {
    fn sorted_unstable_by_key<K: Ord>(self, key: impl FnMut(&Self::Item) -> K) -> std::vec::IntoIter<Self::Item> {
        let mut items: Vec<Self::Item> = self.collect();
        items.sort_unstable_by_key(key);
        items.into_iter()
    }
}

impl<I: Iterator> Itertools for I {}
