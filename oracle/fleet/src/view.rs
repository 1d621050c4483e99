//! What stands in the bytes of a table and of a delta, read after docs/FORMAT.md.

use script::table::{DELETE, KEY, NODE_BYTES, NODE_HEAD_BYTES, RECORD_BYTES, RECORDS, SET, VALUE};

fn number(bytes: &[u8], at: usize) -> u64 {
    u64::from_le_bytes(bytes[at..at + 8].try_into().expect("eight bytes"))
}

#[derive(Clone, Copy, PartialEq, Eq, PartialOrd, Ord, Default, Debug)]
pub struct Pair {
    pub last_gc: u64,
    pub max: u64,
}

impl Pair {
    /// How far its hub has heard: nothing at or below it is still to come.
    pub fn reached(self) -> u64 {
        self.last_gc.max(self.max)
    }
}

/// A node's bytes.
#[derive(Clone, Copy)]
pub struct Node<'a>(&'a [u8]);

/// The node in this place of a table.
pub fn node(table: &[u8], place: usize) -> Node<'_> {
    Node(&table[place_at(place)..][..NODE_BYTES])
}

fn place_at(place: usize) -> usize {
    1 + place * NODE_BYTES
}

/// Where a record begins in a table.
pub fn record_at(place: usize, record: usize) -> usize {
    place_at(place) + NODE_HEAD_BYTES + record * RECORD_BYTES
}

/// Where a node's count of records stands, and how many it may be.
pub fn count_at(place: usize) -> usize {
    place_at(place) + NODE_HEAD_BYTES - 1
}

pub const RECORDS_MOST: usize = RECORDS;

/// Where in a record its value begins, and its version.
pub const VALUE_AT: usize = 2 + KEY;
pub const VERSION_AT: usize = 2 + KEY + VALUE;

impl<'a> Node<'a> {
    pub fn pair(self) -> Pair {
        Pair { last_gc: number(self.0, 24), max: number(self.0, 16) }
    }

    pub fn len(self) -> usize {
        usize::from(self.0[32])
    }

    pub fn records(self) -> impl Iterator<Item = Record<'a>> {
        self.0[NODE_HEAD_BYTES..].chunks_exact(RECORD_BYTES).take(self.len()).map(Record)
    }

    pub fn set(self) -> impl Iterator<Item = Record<'a>> {
        self.records().filter(|record| record.status() == SET)
    }
}

#[derive(Clone, Copy)]
pub struct Record<'a>(&'a [u8]);

impl<'a> Record<'a> {
    pub fn key(self) -> &'a [u8] {
        &self.0[1..][..usize::from(self.0[0])]
    }

    pub fn value(self) -> &'a [u8] {
        &self.0[VALUE_AT..][..usize::from(self.0[1 + KEY])]
    }

    pub fn version(self) -> u64 {
        number(self.0, VERSION_AT)
    }

    pub fn status(self) -> u8 {
        self.0[VERSION_AT + 8]
    }

    pub fn shown(self) -> bool {
        self.status() != DELETE
    }

    /// The same but for when it is to be removed, which is each hub's own.
    pub fn same(self, other: Record) -> bool {
        self.0[..VERSION_AT + 9] == other.0[..VERSION_AT + 9]
    }
}

/// The numbers of the nodes in a delta that the port wrote, in its order.
pub fn nodes(mut delta: &[u8]) -> impl Iterator<Item = u64> {
    std::iter::from_fn(move || {
        while let Some(&tag) = delta.first() {
            let text = |at: usize| usize::from(delta[at]) + 256 * usize::from(delta[at + 1]);
            match tag {
                0 => {
                    let node = number(delta, 1);
                    delta = &delta[25..];
                    return Some(node);
                }
                1 => {
                    let key = text(1);
                    let value = text(3 + key);
                    delta = &delta[14 + key + value..];
                }
                _ => delta = &delta[9..],
            }
        }
        None
    })
}
