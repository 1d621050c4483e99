//! Computing a delta: document 01's "Computing".

use std::cmp::Reverse;
use std::collections::BTreeMap;

use crate::delta::{Operation, Sent};
use crate::digest::Entry;
use crate::table::{Node, Table};

pub struct Stale<'a> {
    pub number: u64,
    pub node: &'a Node,
    pub from: u64,
    tie: u64,
}

impl Stale<'_> {
    /// Records above from, by rising version.
    pub fn records(&self) -> Vec<Sent> {
        let mut records: Vec<Sent> = self
            .node
            .records
            .iter()
            .filter(|(_, record)| record.version > self.from)
            .map(|(key, record)| Sent {
                key: key.clone(),
                value: record.value.clone(),
                version: record.version,
                status: record.status,
            })
            .collect();
        records.sort_by_key(|sent| sent.version);
        records
    }

    /// Sorts: nodes with from 0 by lowest max, then the others by most records; then ties, then numbers.
    fn rank(&self) -> (bool, u64, Reverse<usize>, u64, u64) {
        if self.from == 0 {
            (false, self.node.max, Reverse(0), self.tie, self.number)
        } else {
            (true, 0, Reverse(self.records().len()), self.tie, self.number)
        }
    }
}

/// The stale nodes in document 01's order; `ties` is one a node.
pub fn stale<'a>(table: &'a Table, digest: &BTreeMap<u64, Entry>, excluded: &[u64], ties: &[u64]) -> Vec<Stale<'a>> {
    let mut found = Vec::new();
    for ((&number, node), &tie) in table.nodes.iter().zip(ties) {
        let (digest_gc, digest_max) = digest.get(&number).map_or((0, 0), |entry| (entry.last_gc, entry.max));
        if excluded.contains(&number) || node.max <= digest_max {
            continue;
        }
        let reset = node.last_gc > digest_gc && node.last_gc > digest_max;
        found.push(Stale { number, node, from: if reset { 0 } else { digest_max }, tie });
    }
    found.sort_by_key(|stale| stale.rank());
    found
}

/// The bytes of the delta and how many operations they are.
pub fn delta(
    table: &Table,
    digest: &BTreeMap<u64, Entry>,
    mtu: usize,
    excluded: &[u64],
    ties: &[u64],
) -> (usize, Vec<u8>) {
    let (mut operations, mut bytes) = (0, Vec::new());
    let mut fits = |operation: Operation| {
        let more = operation.to_bytes();
        let fits = bytes.len() + more.len() <= mtu;
        if fits {
            bytes.extend(more);
            operations += 1;
        }
        fits
    };
    'whole: for stale in stale(table, digest, excluded, ties) {
        if !fits(Operation::Node { number: stale.number, last_gc: stale.node.last_gc, from: stale.from }) {
            break;
        }
        let records = stale.records();
        if records.is_empty() {
            fits(Operation::SetMaxVersion(stale.node.max));
        }
        for record in records {
            if !fits(Operation::KeyValue(record)) {
                break 'whole;
            }
        }
    }
    (operations, bytes)
}
