//! Records and the numbers of nodes read in the table's own bytes, without a call for each.
//!
//! `kev_node_rows` and `kev_prefix_rows` say where they stand: rows of one width, one behind the other. That a row tells what `kev_record_at` tells of the same record is proved
//! (`inspect: InRows.row-is`), and so is that all rows lie inside the table (`rows-inside`; `prefix: Rows.rows-among`). What is read here is checked once more by
//! indexing, and held to that call by the tests and the fuzz. So it is with the numbers of the nodes: `kev_node_count` says how many there are, and that number i stands where its place
//! begins is proved (`table: Places.number-at`). And so with a node's header, which stands before its rows (`inspect: InRows.header-before`), and with the rows of the building manager,
//! which stand before the metering firm's (`front-counted`).

use core::iter::FusedIterator;

use crate::ffi::Rows;
use crate::table::{Header, Party, Record, Status};
use crate::{KEY, PROFILE_AT, RECORDS, VALUE};

// A row, field behind field (docs/FORMAT.md, "A record slot").
const KEY_LEN: usize = 0;
const KEY_AT: usize = KEY_LEN + 1;
const VALUE_LEN: usize = KEY_AT + KEY;
const VALUE_AT: usize = VALUE_LEN + 1;
const VERSION: usize = VALUE_AT + VALUE;
const STATUS: usize = VERSION + 8;
const START: usize = STATUS + 1;
const ROW: usize = START + 8;

// A node slot: its number, heartbeat, max, last_gc and count, then its rows (docs/FORMAT.md). The first stands behind the count of nodes.
const HEARTBEAT: usize = 8;
const MAX: usize = HEARTBEAT + 8;
const LAST_GC: usize = MAX + 8;
const HEAD: usize = LAST_GC + 8 + 1;
const NODE: usize = HEAD + RECORDS * ROW;
const NODES_AT: usize = 1;

// What stands in the table's profile where two firms share it.
const SHARED: u8 = 2;

/// The numbers of the first `count` nodes.
#[inline]
pub(crate) fn numbers(table: &[u8], count: usize) -> impl ExactSizeIterator<Item = u64> + '_ {
    (0..count).map(move |i| number(table, NODES_AT + i * NODE))
}

#[inline]
fn number(bytes: &[u8], at: usize) -> u64 {
    bytes[at..].first_chunk().map_or(0, |bytes| u64::from_le_bytes(*bytes))
}

/// The header of the node that these rows are of: it stands before them.
#[inline]
pub(crate) fn header(table: &[u8], rows: Rows) -> Header {
    let node = rows.at.get() - HEAD;
    Header { heartbeat: number(table, node + HEARTBEAT), max_version: number(table, node + MAX), last_gc_version: number(table, node + LAST_GC) }
}

/// How many bytes of the node's rows are not in these, the metering firm's: those of the building manager, which stand first.
#[inline]
pub(crate) fn others(table: &[u8], rows: Rows) -> usize {
    (usize::from(table[rows.at.get() - 1]) - rows.count.get()) * ROW
}

/// The same of the node in which the metering firm was told this place, sought by halves.
#[inline]
pub(crate) fn front(table: &[u8], told: usize) -> usize {
    if table[PROFILE_AT] != SHARED {
        return 0;
    }
    let rows = told - (told - NODES_AT) % NODE + HEAD;
    let (mut low, mut high) = (0, usize::from(table[rows - 1]));
    while low < high {
        let middle = (low + high) / 2;
        if table[rows + middle * ROW + KEY_AT] == b'b' { low = middle + 1 } else { high = middle }
    }
    low * ROW
}

/// Records of a node in key order. Each is read in the table's bytes when it is asked for.
#[derive(Clone, Debug)]
pub struct Records<'a> {
    rows: &'a [u8],
}

impl<'a> Records<'a> {
    #[inline]
    pub(crate) fn of(table: &'a [u8], rows: Rows) -> Records<'a> {
        let (at, count) = (rows.at.get(), rows.count.get());
        Records { rows: &table[at..at + count * ROW] }
    }
}

impl<'a> Records<'a> {
    /// All records of overrides, which are a node slot.
    #[inline]
    pub(crate) fn of_overrides(overrides: &'a [u8]) -> Records<'a> {
        let count = usize::from(overrides[HEAD - 1]);
        Records { rows: &overrides[HEAD..HEAD + count * ROW] }
    }

    /// Those whose keys begin with the prefix. Keys ascend, so they stand together.
    pub(crate) fn beginning(self, prefix: &[u8]) -> Records<'a> {
        let before = self.clone().take_while(|record| record.key < prefix).count();
        let rows = &self.rows[before * ROW..];
        let count = Records { rows }.take_while(|record| record.key.starts_with(prefix)).count();
        Records { rows: &rows[..count * ROW] }
    }

    /// Those of the party's keys, which stand together too.
    pub(crate) fn of_party(self, party: Party) -> Records<'a> {
        match party {
            Party::Metering => self.beginning(b"m/"),
            Party::Building => self.beginning(b"b/"),
            Party::Nobody => Records { rows: &[] },
        }
    }

    /// The next record, which stays.
    #[inline]
    pub(crate) fn peek(&self) -> Option<Record<'a>> {
        self.clone().next()
    }
}

impl<'a> Iterator for Records<'a> {
    type Item = Record<'a>;

    #[inline]
    fn next(&mut self) -> Option<Record<'a>> {
        let (row, rest) = self.rows.split_first_chunk()?;
        self.rows = rest;
        Some(record(row))
    }

    #[inline]
    fn size_hint(&self) -> (usize, Option<usize>) {
        let left = self.rows.len() / ROW;
        (left, Some(left))
    }
}

impl DoubleEndedIterator for Records<'_> {
    #[inline]
    fn next_back(&mut self) -> Option<Self::Item> {
        let (rest, row) = self.rows.split_last_chunk()?;
        self.rows = rest;
        Some(record(row))
    }
}

impl ExactSizeIterator for Records<'_> {}
impl FusedIterator for Records<'_> {}

/// The record of a row. The lengths of a good row are at most those of a key and a value; the compiler is told so by `min`.
#[inline(always)]
fn record(row: &[u8; ROW]) -> Record<'_> {
    let number = |at: usize| u64::from_le_bytes(core::array::from_fn(|i| row[at + i]));
    Record {
        key: &row[KEY_AT..VALUE_LEN][..KEY.min(row[KEY_LEN].into())],
        value: &row[VALUE_AT..VERSION][..VALUE.min(row[VALUE_LEN].into())],
        version: number(VERSION),
        status: Status::of(row[STATUS].into()),
        start: number(START),
    }
}

#[cfg(test)]
mod tests {
    extern crate std;

    use std::format;

    use super::*;
    use crate::{Mode, OwnedTable, Profile, Wanted, ffi};

    /// What is read here of a node is what the library's calls tell of it, with every number of records of the two firms.
    #[test]
    fn as_the_calls_tell() {
        for (building, metering) in (0..=16).flat_map(|building| (0..=16).map(move |metering| (building, metering))) {
            let mut table = OwnedTable::with_profile(Mode::Guarded, Profile::Shared);
            for node in [3, 5, 9] {
                table.add_node(node).unwrap();
                for (party, firm, count) in [(Party::Building, "b", building), (Party::Metering, "m", metering)] {
                    for i in 0..count {
                        table.party_mut(party).write(node, format!("{firm}/{i:02}").as_bytes(), b"1", Wanted::Set).unwrap();
                    }
                }
                table.try_set_heartbeat(node, 70 + node).unwrap();
                let store = table.party(Party::Nobody).lent();
                for party in [Party::Metering, Party::Building, Party::Nobody] {
                    let rows = ffi::node_rows(&store, party.number(), node);
                    let told = ffi::node_header(&store, node);
                    let read = header(store.all(), rows);
                    assert_eq!((read.heartbeat, read.max_version, read.last_gc_version), (told.heartbeat, told.max, told.last_gc));
                }
                let behind = ffi::front(&store, Party::Metering.number(), node).count.get();
                assert_eq!(others(store.all(), ffi::node_rows(&store, Party::Metering.number(), node)), behind);
                for i in 0..metering {
                    let found = ffi::find(&store, Party::Metering.number(), node, format!("m/{i:02}").as_bytes());
                    assert_eq!(front(store.all(), found.start.get()), behind);
                }
            }
        }
    }
}
