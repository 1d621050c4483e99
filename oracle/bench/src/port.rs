//! The port's calls, as a hub makes them: by the Rust crate over the library (`rust/kevdarosh`). A lent table is checked in each call, an owned one is not.

use kevdarosh::{Digest, Edition, LentTable, OwnedTable, TableView, Wanted};

/// Digests are of V0, whose bytes the original writes without blocks.
const EDITION: Edition = Edition::V0;

/// A table of the port.
pub enum Port {
    Lent(Vec<u8>),
    Owned(Box<OwnedTable>),
}

use Port::{Lent, Owned};

impl Port {
    pub fn of(bytes: &[u8], owned: bool) -> Port {
        if owned { Owned(Box::new(OwnedTable::from_bytes(bytes).expect("a good table"))) } else { Lent(bytes.to_vec()) }
    }

    pub fn bytes(&self) -> &[u8] {
        match self {
            Lent(bytes) => bytes,
            Owned(table) => table.as_bytes(),
        }
    }

    /// Whether this value is found.
    pub fn holds(&self, node: u64, key: &str, value: &[u8]) -> bool {
        match self {
            Lent(bytes) => TableView::over(bytes).get(node, key.as_bytes()) == Ok(Some(value)),
            Owned(table) => table.get(node, key.as_bytes()) == Ok(Some(value)),
        }
    }

    /// How long the value is that is found.
    #[inline]
    pub fn get(&self, node: u64, key: &str) -> Option<usize> {
        match self {
            Lent(bytes) => TableView::over(bytes).get(node, key.as_bytes()).ok().flatten().map(<[u8]>::len),
            Owned(table) => table.get(node, key.as_bytes()).ok().flatten().map(<[u8]>::len),
        }
    }

    #[inline]
    pub fn set(&mut self, node: u64, key: &str, value: &str) -> bool {
        let (key, value) = (key.as_bytes(), value.as_bytes());
        match self {
            Lent(bytes) => LentTable::over(bytes).write(node, key, value, Wanted::Set).is_ok(),
            Owned(table) => table.write(node, key, value, Wanted::Set).is_ok(),
        }
    }

    #[inline]
    pub fn delete(&mut self, node: u64, key: &str, clock: u64) -> bool {
        match self {
            Lent(bytes) => LentTable::over(bytes).delete(node, key.as_bytes(), clock).is_ok(),
            Owned(table) => table.delete(node, key.as_bytes(), clock).is_ok(),
        }
    }

    #[inline]
    pub fn remove(&mut self, clock: u64, grace: u64) -> bool {
        match self {
            Lent(bytes) => LentTable::over(bytes).gc_keys_marked_for_deletion(clock, grace).is_ok(),
            Owned(table) => table.gc_keys_marked_for_deletion(clock, grace).is_ok(),
        }
    }

    #[inline]
    pub fn write_digest(&self, datagram: &mut [u8]) -> usize {
        match self {
            Lent(bytes) => TableView::over(bytes).compute_digest(EDITION, &[], datagram).unwrap_or(0),
            Owned(table) => table.compute_digest(EDITION, &[], datagram).unwrap_or(0),
        }
    }

    /// The bytes of the delta under an MTU of 16,384, from the datagram's beginning on.
    #[inline]
    pub fn compute(&self, digest: &[u8], ties: &[u64], datagram: &mut [u8]) -> usize {
        let sent = match self {
            Lent(bytes) => TableView::over(bytes).compute_partial_delta_respecting_mtu(
                EDITION,
                digest,
                16_384,
                &[],
                ties,
                datagram,
            ),
            Owned(table) => table.compute_partial_delta_respecting_mtu(EDITION, digest, 16_384, &[], ties, datagram),
        };
        sent.map_or(0, |sent| sent.bytes)
    }

    /// The bytes of a plan's delta under an MTU of 16,384, from the datagram's beginning on.
    #[inline]
    pub fn plan(&self, digest: &[u8], nodes: &[u64], counts: &[u64], datagram: &mut [u8]) -> usize {
        let sent = match self {
            Lent(bytes) => TableView::over(bytes).compute_plan(EDITION, digest, 16_384, &[], nodes, counts, datagram),
            Owned(table) => table.compute_plan(EDITION, digest, 16_384, &[], nodes, counts, datagram),
        };
        sent.map_or(0, |sent| sent.bytes)
    }

    /// Whether all nodes answered so.
    #[inline]
    pub fn apply(&mut self, delta: &[u8], clock: u64, answer: kevdarosh::Answer) -> bool {
        let answers = match self {
            Lent(bytes) => LentTable::over(bytes).apply_delta(delta, clock),
            Owned(table) => table.apply_delta(delta, clock),
        };
        answers.is_ok_and(|answers| answers.iter().all(|other| other == answer))
    }
}

pub fn check(table: &[u8]) -> bool {
    TableView::over(table).mode().is_ok()
}

pub fn read_digest(bytes: &[u8]) -> usize {
    Digest::read(EDITION, bytes).map_or(0, |digest| digest.len())
}

/// A digest that is read and gone through: the sum of its numbers.
pub fn sum_digest(bytes: &[u8]) -> u64 {
    Digest::read(EDITION, bytes).map_or(0, |digest| {
        digest.nodes().map(|told| told.node + told.heartbeat + told.last_gc_version + told.max_version).sum()
    })
}

pub fn read_delta(delta: &[u8]) -> usize {
    kevdarosh::read_delta(delta).map_or(0, |read| read.ops)
}
