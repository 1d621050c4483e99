//! Plans for the air time: document 02's request. `delta` follows its sentence of when a plan is accepted; `first_fault` goes
//! from line to line, and neither asks the other.

use std::collections::BTreeMap;

use script::Fault;

use crate::compute::{Stale, stale};
use crate::delta::Operation;
use crate::digest::Entry;
use crate::table::Table;

/// Computing's nodes, of which a plan takes its own order.
fn stale_nodes<'a>(table: &'a Table, digest: &BTreeMap<u64, Entry>, excluded: &[u64]) -> Vec<Stale<'a>> {
    stale(table, digest, excluded, &vec![0; table.nodes.len()])
}

/// Document 01's from, the lowest versions first, and SetMaxVersion with own max where the node has no stale records.
fn line_operations(stale: &Stale, count: u64) -> Vec<Operation> {
    let records = stale.records();
    let mut operations = vec![Operation::Node { number: stale.number, last_gc: stale.node.last_gc, from: stale.from }];
    if records.is_empty() {
        operations.push(Operation::SetMaxVersion(stale.node.max));
    }
    operations.extend((0..count).zip(records).map(|(_, record)| Operation::KeyValue(record)));
    operations
}

fn bytes_of(operations: &[Operation]) -> Vec<u8> {
    operations.iter().flat_map(Operation::to_bytes).collect()
}

/// How many operations the delta of an accepted plan has, and its bytes.
pub fn delta(
    table: &Table,
    digest: &BTreeMap<u64, Entry>,
    mtu: usize,
    excluded: &[u64],
    nodes: &[u64],
    counts: &[u64],
) -> Option<(usize, Vec<u8>)> {
    let stale = stale_nodes(table, digest, excluded);
    let named_once = |number: &u64| nodes.iter().filter(|&other| other == number).count() == 1;
    let counted = |stale: &Stale, count: u64| match stale.records().len() as u64 {
        0 => count == 0,
        all => (1..=all).contains(&count),
    };
    if nodes.len() != counts.len() || !nodes.iter().all(named_once) {
        return None;
    }
    let mut operations = Vec::new();
    for (&number, &count) in nodes.iter().zip(counts) {
        // One that is not held, excluded or not stale is not among them.
        let stale = stale.iter().find(|stale| stale.number == number).filter(|stale| counted(stale, count))?;
        operations.extend(line_operations(stale, count));
    }
    let bytes = bytes_of(&operations);
    (bytes.len() <= mtu).then_some((operations.len(), bytes))
}

/// The first line at fault, and why.
pub fn first_fault(
    table: &Table,
    digest: &BTreeMap<u64, Entry>,
    mtu: usize,
    excluded: &[u64],
    nodes: &[u64],
    counts: &[u64],
) -> Option<(usize, Fault)> {
    let stale = stale_nodes(table, digest, excluded);
    let mut left = mtu;
    for line in 0..nodes.len().max(counts.len()) {
        let fault = |why| Some((line, why));
        let (Some(number), Some(&count)) = (nodes.get(line), counts.get(line)) else { return fault(Fault::Alone) };
        if !table.nodes.contains_key(number) {
            return fault(Fault::NotHeld);
        }
        if excluded.contains(number) {
            return fault(Fault::Excluded);
        }
        if nodes[..line].contains(number) {
            return fault(Fault::NamedBefore);
        }
        let Some(stale) = stale.iter().find(|stale| stale.number == *number) else { return fault(Fault::UpToDate) };
        let all = stale.records().len() as u64;
        if count > all {
            return fault(Fault::TooMany);
        }
        if count == 0 && all > 0 {
            return fault(Fault::TooFew);
        }
        let size = bytes_of(&line_operations(stale, count)).len();
        if size > left {
            return fault(Fault::NoFit);
        }
        left -= size;
    }
    None
}
