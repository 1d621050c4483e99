//! Site overrides: labels of a site, laid over those of a node when they are read, and never gossiped.

use core::cmp::Ordering;
use core::fmt;
use core::hash::{Hash, Hasher};
use core::iter::FusedIterator;

use crate::OVERRIDES;
use crate::ffi::{self, Bytes, Labels, Lent};
use crate::refusal::{Refusal, accepted, refusal};
use crate::row::Records;
use crate::table::{NodeState, Party, PartyTable, Record, Table, Wanted, front};

/// Overrides that keep their own bytes: one node in form, 32 records, 3,713 bytes.
///
/// They are no table, and no call that writes a digest or a delta takes them. [`Table::get_over`] and [`NodeState::iter_prefix_over`] read them together with a node.
#[derive(Clone)]
pub struct Overrides {
    labels: Labels,
}

impl Overrides {
    /// Overrides without a record. The number is kept in their bytes, and no call looks at it.
    ///
    /// ```
    /// # use kevdarosh::Overrides;
    /// assert_eq!(Overrides::new(7).key_values_including_deleted().count(), 0);
    /// ```
    pub fn new(node: u64) -> Overrides {
        match Labels::new(node) {
            Ok(labels) => Overrides { labels },
            Err(_) => unreachable!("the bytes are as many as overrides have"),
        }
    }

    /// The overrides of these bytes, as they were stored.
    ///
    /// # Errors
    ///
    /// [`Refusal::BadTable`] where they are none that obey the rules.
    ///
    /// ```
    /// # use kevdarosh::{Overrides, Refusal, Wanted};
    /// let mut labels = Overrides::new(7);
    /// labels.write(b"name", b"Bicycle cellar", Wanted::Set).unwrap();
    /// assert_eq!(Overrides::from_bytes(labels.as_bytes()), Ok(labels));
    /// assert_eq!(Overrides::from_bytes(&[0; 100]), Err(Refusal::BadTable));
    /// ```
    pub fn from_bytes(bytes: &[u8]) -> Result<Overrides, Refusal> {
        Labels::checked(bytes).map(|labels| Overrides { labels }).map_err(refusal)
    }

    /// The bytes, to be stored beside the table's.
    ///
    /// ```
    /// # use kevdarosh::{Overrides, Wanted};
    /// let mut labels = Overrides::new(7);
    /// labels.write(b"name", b"Bicycle cellar", Wanted::Set).unwrap();
    /// assert_eq!(labels.as_bytes().len(), kevdarosh::OVERRIDES);
    /// ```
    pub fn as_bytes(&self) -> &[u8] {
        self.labels.bytes()
    }

    /// The key's override takes this value under the wanted status. Where it has both already, nothing changes.
    ///
    /// # Errors
    ///
    /// [`Refusal::TooLong`], [`Refusal::NodeFull`], [`Refusal::Exhausted`].
    ///
    /// ```
    /// # use kevdarosh::{Overrides, Refusal, Wanted};
    /// let mut labels = Overrides::new(7);
    /// labels.write(b"name", b"Bicycle cellar", Wanted::Set).unwrap();
    /// assert_eq!(labels.write(&[b'k'; 33], b"", Wanted::Set), Err(Refusal::TooLong));
    /// ```
    pub fn write(&mut self, key: &[u8], value: &[u8], wanted: Wanted) -> Result<(), Refusal> {
        let (status, clock) = wanted.numbers();
        accepted(self.labels.write(key, value, status, clock))
    }

    /// The key's override is taken back: the node's record shows again. It is removed after the grace.
    ///
    /// # Errors
    ///
    /// [`Refusal::TooLong`], [`Refusal::NoKey`], [`Refusal::Exhausted`].
    ///
    /// ```
    /// # use kevdarosh::{Overrides, Refusal, Wanted};
    /// let mut labels = Overrides::new(7);
    /// labels.write(b"name", b"Bicycle cellar", Wanted::Set).unwrap();
    /// assert_eq!(labels.delete(b"name", 1_000), Ok(()));
    /// assert_eq!(labels.delete(b"place", 1_000), Err(Refusal::NoKey));
    /// ```
    pub fn delete(&mut self, key: &[u8], clock: u64) -> Result<(), Refusal> {
        accepted(self.labels.delete(key, clock))
    }

    /// The key's override keeps its value, shows, and is removed after the grace.
    ///
    /// # Errors
    ///
    /// [`Refusal::TooLong`], [`Refusal::NoKey`], [`Refusal::Exhausted`].
    ///
    /// ```
    /// # use kevdarosh::{Overrides, Wanted};
    /// let mut labels = Overrides::new(7);
    /// labels.write(b"name", b"Bicycle cellar", Wanted::Set).unwrap();
    /// assert_eq!(labels.delete_after_ttl(b"name", 1_000), Ok(()));
    /// ```
    pub fn delete_after_ttl(&mut self, key: &[u8], clock: u64) -> Result<(), Refusal> {
        accepted(self.labels.delete_after_ttl(key, clock))
    }

    /// Removes what was scheduled a grace ago, so that its place is free again.
    ///
    /// # Errors
    ///
    /// None: the overrides are good.
    ///
    /// ```
    /// # use kevdarosh::{Overrides, Wanted};
    /// let mut labels = Overrides::new(7);
    /// labels.write(b"name", b"Bicycle cellar", Wanted::Set).unwrap();
    /// labels.delete(b"name", 1_000).unwrap();
    /// labels.gc_keys_marked_for_deletion(1_500, 500).unwrap();
    /// assert_eq!(labels.key_values_including_deleted().count(), 0);
    /// ```
    pub fn gc_keys_marked_for_deletion(&mut self, clock: u64, grace: u64) -> Result<(), Refusal> {
        accepted(self.labels.remove(clock, grace))
    }

    /// All records, deleted ones too, in key order.
    ///
    /// ```
    /// # use kevdarosh::{Overrides, Wanted};
    /// let mut labels = Overrides::new(7);
    /// labels.write(b"name", b"Bicycle cellar", Wanted::Set).unwrap();
    /// assert_eq!(labels.key_values_including_deleted().next().unwrap().value, b"Bicycle cellar");
    /// ```
    pub fn key_values_including_deleted(&self) -> Records<'_> {
        Records::of_overrides(self.labels.bytes())
    }
}

impl PartialEq for Overrides {
    fn eq(&self, other: &Overrides) -> bool {
        self.as_bytes() == other.as_bytes()
    }
}

impl Eq for Overrides {}

impl Hash for Overrides {
    fn hash<H: Hasher>(&self, state: &mut H) {
        self.as_bytes().hash(state);
    }
}

impl fmt::Debug for Overrides {
    fn fmt(&self, f: &mut fmt::Formatter<'_>) -> fmt::Result {
        f.write_str("Overrides ")?;
        f.debug_list().entries(self.key_values_including_deleted()).finish()
    }
}

impl<S: Bytes> Table<S> {
    /// The value of a key: the override's if its record is there and not deleted, else the node's; those very bytes of the one or of the other.
    ///
    /// # Errors
    ///
    /// [`Refusal::BadTable`], [`Refusal::NoNode`], [`Refusal::TooLong`], in a shared table [`Refusal::OtherParty`].
    ///
    /// ```
    /// # use kevdarosh::{Mode, Overrides, OwnedTable, Wanted};
    /// let mut table = OwnedTable::new(Mode::Plain);
    /// table.add_node(7).unwrap();
    /// table.write(7, b"name", b"Stair B", Wanted::Set).unwrap();
    /// let mut labels = Overrides::new(7);
    /// labels.write(b"name", b"Bicycle cellar", Wanted::Set).unwrap();
    /// assert_eq!(table.get_over(&labels, 7, b"name"), Ok(Some(&b"Bicycle cellar"[..])));
    /// ```
    #[inline]
    pub fn get_over<'a>(&'a self, overrides: &'a Overrides, node: u64, key: &[u8]) -> Result<Option<&'a [u8]>, Refusal> {
        self.party(Party::Nobody).get_over(overrides, node, key)
    }
}

impl<'a, S: Bytes> PartyTable<'a, S> {
    /// The value of a key, as [`Table::get_over`] has it, for this party.
    ///
    /// # Errors
    ///
    /// [`Refusal::BadTable`], [`Refusal::NoNode`], [`Refusal::TooLong`], in a shared table [`Refusal::OtherParty`].
    ///
    /// ```
    /// # use kevdarosh::{Mode, Overrides, OwnedTable, Party, Profile, Refusal, Wanted};
    /// let mut table = OwnedTable::with_profile(Mode::Guarded, Profile::Shared);
    /// table.add_node(7).unwrap();
    /// let mut labels = Overrides::new(7);
    /// labels.write(b"b/name", b"Bicycle cellar", Wanted::Set).unwrap();
    /// assert_eq!(table.party(Party::Building).get_over(&labels, 7, b"b/name"), Ok(Some(&b"Bicycle cellar"[..])));
    /// assert_eq!(table.party(Party::Metering).get_over(&labels, 7, b"b/name"), Err(Refusal::OtherParty));
    /// ```
    #[inline]
    pub fn get_over(&self, overrides: &'a Overrides, node: u64, key: &[u8]) -> Result<Option<&'a [u8]>, Refusal> {
        found_over(self.lent(), self.party(), overrides, node, key)
    }
}

/// The value of a key in overrides and a table.
#[inline]
fn found_over<'a, S: Bytes>(table: Lent<'a, S>, party: Party, overrides: &'a Overrides, node: u64, key: &[u8]) -> Result<Option<&'a [u8]>, Refusal> {
    let answer = ffi::find_over(&overrides.labels, &table, party.number(), node, key);
    accepted(answer.number)?;
    Ok((answer.found.0 != 0).then(|| {
        let bytes = if answer.over.0 != 0 { overrides.labels.bytes() } else { &table.all()[front(table, party, answer.start)..] };
        &bytes[answer.start.get()..answer.start.get() + answer.len.get()]
    }))
}

impl<'a, S: Bytes> NodeState<'a, S> {
    /// The value of a key, as [`Table::get_over`] has it.
    ///
    /// # Errors
    ///
    /// [`Refusal::TooLong`], in a shared table [`Refusal::OtherParty`].
    ///
    /// ```
    /// # use kevdarosh::{Mode, Overrides, OwnedTable, Wanted};
    /// let mut table = OwnedTable::new(Mode::Plain);
    /// table.add_node(7).unwrap();
    /// table.write(7, b"name", b"Stair B", Wanted::Set).unwrap();
    /// let mut labels = Overrides::new(7);
    /// labels.write(b"name", b"Bicycle cellar", Wanted::Set).unwrap();
    /// assert_eq!(table.node_state(7).unwrap().get_over(&labels, b"name"), Ok(Some(&b"Bicycle cellar"[..])));
    /// ```
    pub fn get_over(&self, overrides: &'a Overrides, key: &[u8]) -> Result<Option<&'a [u8]>, Refusal> {
        found_over(self.table(), self.party(), overrides, self.number(), key)
    }

    /// The records of the overrides and of the node that are not deleted and whose keys begin with the prefix, each key once, in key order: the override's where both have
    /// one. It is what `kev_list_over` lists, record by record, and is held to it by the tests and the fuzz.
    ///
    /// # Errors
    ///
    /// [`Refusal::TooLong`].
    ///
    /// ```
    /// # use kevdarosh::{Mode, Overrides, OwnedTable, Wanted};
    /// let mut table = OwnedTable::new(Mode::Plain);
    /// table.add_node(7).unwrap();
    /// table.write(7, b"name", b"Stair B", Wanted::Set).unwrap();
    /// let mut labels = Overrides::new(7);
    /// labels.write(b"name", b"Bicycle cellar", Wanted::Set).unwrap();
    /// let values = table.node_state(7).unwrap().iter_prefix_over(&labels, b"na").unwrap().map(|record| record.value).collect::<Vec<_>>();
    /// assert_eq!(values, [b"Bicycle cellar"]);
    /// ```
    pub fn iter_prefix_over(&self, overrides: &'a Overrides, prefix: &[u8]) -> Result<Merged<'a>, Refusal> {
        let rows = ffi::prefix_rows(&self.table(), self.party().number(), self.number(), prefix);
        accepted(rows.number)?;
        let over = overrides.key_values_including_deleted().beginning(prefix);
        let over = if self.is_shared() { over.of_party(self.party()) } else { over };
        Ok(Merged { over, node: self.records(rows) })
    }
}

/// Records of overrides and of a node, merged.
#[derive(Clone, Debug)]
pub struct Merged<'a> {
    over: Records<'a>,
    node: Records<'a>,
}

impl<'a> Iterator for Merged<'a> {
    type Item = Record<'a>;

    fn next(&mut self) -> Option<Record<'a>> {
        loop {
            let order = match (self.over.peek(), self.node.peek()) {
                (None, None) => return None,
                (Some(_), None) => Ordering::Less,
                (None, Some(_)) => Ordering::Greater,
                (Some(over), Some(node)) => over.key.cmp(node.key),
            };
            let over = if order.is_le() { self.over.next() } else { None };
            let node = if order.is_ge() { self.node.next() } else { None };
            let shown = |record: &Record| !record.is_hidden();
            if let Some(record) = over.filter(shown).or(node.filter(shown)) {
                return Some(record);
            }
        }
    }
}

impl FusedIterator for Merged<'_> {}

const _: () = assert!(size_of::<Overrides>() == OVERRIDES);

#[cfg(test)]
mod tests {
    extern crate std;

    use std::vec::Vec;

    use super::*;
    use crate::table::{Mode, OwnedTable};

    /// Numbers from a seed.
    struct Random(u64);

    impl Random {
        fn below(&mut self, n: u64) -> u64 {
            self.0 ^= self.0 << 13;
            self.0 ^= self.0 >> 7;
            self.0 ^= self.0 << 17;
            self.0 % n
        }
    }

    /// A key of a few letters, so that both sides have many in common.
    fn key(random: &mut Random) -> Vec<u8> {
        (0..random.below(4)).map(|_| b"ab"[random.below(2) as usize]).collect()
    }

    #[test]
    fn the_merging_iterator_lists_what_the_library_lists() {
        let mut random = Random(7);
        let (mut table, mut labels) = (OwnedTable::new(Mode::Plain), Overrides::new(7));
        table.add_node(7).unwrap();
        let mut shown = 0;
        for turn in 0..4_000 {
            let (text, value) = (key(&mut random), [turn as u8]);
            match random.below(6) {
                0 | 1 => table.write(7, &text, &value, Wanted::Set).unwrap(),
                2 => drop(table.delete(7, &text, turn)),
                3 | 4 => labels.write(&text, &value, Wanted::Ttl(turn)).unwrap(),
                _ => drop(labels.delete(&text, turn)),
            }
            if turn % 97 == 0 {
                labels.gc_keys_marked_for_deletion(turn, 50).unwrap();
            }
            let (prefix, mut places) = (key(&mut random), [0; 64]);
            let listed = ffi::list_over(&labels.labels, table.store(), 0, 7, &prefix, &mut places);
            assert_eq!(listed.number, 0);
            let node = table.node_state(7).unwrap();
            let record = |place: u8| match place.checked_sub(128) {
                Some(place) => labels.key_values_including_deleted().nth(place.into()).unwrap(),
                None => node.key_values_including_deleted().nth(place.into()).unwrap(),
            };
            let told: Vec<Record> = places[..listed.count.get()].iter().map(|&place| record(place)).collect();
            let merged: Vec<Record> = node.iter_prefix_over(&labels, &prefix).unwrap().collect();
            assert_eq!(merged, told);
            assert!(merged.is_sorted_by(|a, b| a.key < b.key));
            for record in &merged {
                let found = table.get_over(&labels, 7, record.key).unwrap().unwrap();
                assert_eq!(found.as_ptr(), record.value.as_ptr());
            }
            shown += merged.len();
        }
        assert!(shown > 10_000, "{shown}");
    }
}
