//! Stands in for rand. The original shuffles nodes that are equally stale; here they are put in the order of
//! document 01 instead: smaller tie number first, then smaller node number. The judge sets the tie numbers.

use std::cell::RefCell;
use std::collections::BTreeMap;

thread_local! {
    static TIES: RefCell<BTreeMap<u64, u64>> = const { RefCell::new(BTreeMap::new()) };
}

/// From now on, node number `node` has tie number `tie`, for each pair (node, tie).
pub fn set_ties(ties: impl Iterator<Item = (u64, u64)>) {
    TIES.with(|held| *held.borrow_mut() = ties.collect());
}

/// What is shuffled must say which node it is.
pub trait Tied {
    fn node_number(&self) -> u64;
}

pub trait Rng {}

pub struct NoChance;

impl Rng for NoChance {}

pub fn rng() -> NoChance {
    NoChance
}

pub mod prelude {
    use super::{Rng, TIES, Tied};

    pub trait SliceRandom {
        fn shuffle<R: Rng>(&mut self, rng: &mut R);
    }

    impl<T: Tied> SliceRandom for [T] {
        fn shuffle<R: Rng>(&mut self, _rng: &mut R) {
            TIES.with(|held| {
                let ties = held.borrow();
                self.sort_by_key(|item| (ties[&item.node_number()], item.node_number()));
            });
        }
    }
}
