//! Applying a delta: document 01's "Applying to a node".

use script::Verdict;

use crate::delta::NodeDelta;
use crate::table::{Mode, Node, Record, Status, Table};

fn fenced(mode: Mode, node: &Node, delta: &NodeDelta) -> bool {
    let older = node.last_gc > node.max && delta.last_gc < node.last_gc;
    match mode {
        Mode::Plain => false,
        Mode::Fenced => older,
        Mode::Guarded => older && delta.max < node.last_gc,
    }
}

fn status(mode: Mode, node: &Node, delta: &NodeDelta) -> Verdict {
    if delta.from > node.max {
        return Verdict::Reject;
    }
    if fenced(mode, node, delta) {
        return Verdict::Fenced;
    }
    if delta.last_gc > node.last_gc && delta.last_gc > node.max {
        return if delta.from != 0 { Verdict::Reject } else { Verdict::ApplyAfterReset };
    }
    if node.max < delta.max { Verdict::Apply } else { Verdict::Reject }
}

/// The node after the delta, which may hold too many keys.
fn outcome(node: &Node, delta: &NodeDelta, reset: bool, now: u64) -> Node {
    let mut node = if reset { Node { last_gc: delta.last_gc, ..Node::default() } } else { node.clone() };
    let held_before = node.max;
    for sent in &delta.records {
        let known = sent.version <= held_before;
        let gone = sent.status.scheduled() && sent.version <= node.last_gc;
        if known || gone {
            continue;
        }
        let start = if sent.status == Status::Set { 0 } else { now };
        let record = Record { value: sent.value.clone(), version: sent.version, status: sent.status, start };
        node.records.insert(sent.key.clone(), record);
    }
    node.max = delta.max;
    node
}

fn apply_one(table: &mut Table, delta: &NodeDelta, now: u64, own: &[u64]) -> Verdict {
    let (mode, profile) = (table.mode, table.profile);
    let Some(node) = table.nodes.get_mut(&delta.number) else {
        return Verdict::Unknown;
    };
    if own.contains(&delta.number) {
        return Verdict::Reject;
    }
    let verdict = status(mode, node, delta);
    if verdict == Verdict::Reject || verdict == Verdict::Fenced {
        return verdict;
    }
    let after = outcome(node, delta, verdict == Verdict::ApplyAfterReset, now);
    if profile.overfull(&after) {
        return Verdict::Room;
    }
    *node = after;
    verdict
}

/// One answer a node delta, in stream order. The nodes of `own` are left alone.
pub fn apply(table: &mut Table, deltas: &[NodeDelta], now: u64, own: &[u64]) -> Vec<Verdict> {
    deltas.iter().map(|delta| apply_one(table, delta, now, own)).collect()
}
