//! The port, through the Rust crate.

use std::borrow::Cow;

use kevdarosh::{Answer, Answers, DIGEST, Digest, Edition, Mode, OwnedTable, Wanted};

use crate::plan::NODES;
use crate::side::{Change, Sent, Side, Taken};
use crate::view;

pub const EDITION: Edition = Edition::V0;

pub struct Port(Box<OwnedTable>);

fn written(table: &mut OwnedTable, node: u64, key: &[u8], change: Change, clock: u64) {
    let done = match change {
        Change::Set(value) => table.write(node, key, value.as_bytes(), Wanted::Set),
        Change::SetWithTtl(value) => table.write(node, key, value.as_bytes(), Wanted::Ttl(clock)),
        // A key that is gone cannot be deleted; nothing changes.
        Change::Delete => table.delete(node, key, clock).or(Ok(())),
    };
    done.expect("room for every key of the fleet");
}

/// A table with the nodes of the fleet.
pub fn fresh(mode: Mode) -> OwnedTable {
    let mut table = OwnedTable::new(mode);
    for node in 1..=NODES as u64 {
        table.add_node(node).expect("room for eight nodes");
    }
    table
}

pub fn max(table: &OwnedTable, node: u64) -> u64 {
    table.node_state(node).expect("a node of the fleet").max_version()
}

pub fn digest(table: &OwnedTable) -> Sent {
    let mut datagram = [0; DIGEST];
    let len = table.compute_digest(EDITION, &[], &mut datagram).expect("room for a digest");
    Sent { bytes: datagram[..len].into(), len, extra: 0 }
}

/// The nodes of a digest and their heartbeats.
pub fn heartbeats(digest: &[u8]) -> impl Iterator<Item = (u64, u64)> {
    let told = Digest::read(EDITION, digest).expect("a digest of the fleet");
    let told: Vec<(u64, u64)> = told.nodes().map(|node| (node.node, node.heartbeat)).collect();
    told.into_iter()
}

pub fn computed(table: &OwnedTable, digest: &[u8], mtu: usize, ties: &[u64], datagram: &mut [u8]) -> Option<Sent> {
    let sent =
        table.compute_partial_delta_respecting_mtu(EDITION, digest, mtu, &[], ties, datagram).expect("a digest of the fleet");
    (sent.ops > 0).then(|| Sent { bytes: datagram[..sent.bytes].into(), len: sent.bytes, extra: 0 })
}

/// What the answers to a delta say.
pub fn taken(delta: &[u8], answers: Answers, own: Option<u64>) -> Taken {
    let mut taken = Taken::default();
    for (node, answer) in view::nodes(delta).zip(answers.iter()) {
        if matches!(answer, Answer::Apply | Answer::ApplyAfterReset) {
            taken.changed |= 1 << (node - 1);
        }
        taken.resets += u64::from(answer == Answer::ApplyAfterReset);
        taken.fenced += u64::from(answer == Answer::Fenced);
        taken.own_taken |= own == Some(node) && answer != Answer::Reject;
    }
    taken
}

impl Side for Port {
    fn new(mode: Mode) -> Port {
        Port(Box::new(fresh(mode)))
    }

    fn change(&mut self, node: u64, key: &str, change: Change, clock: u64) -> bool {
        let before = max(&self.0, node);
        written(&mut self.0, node, key.as_bytes(), change, clock);
        max(&self.0, node) != before
    }

    fn beat(&mut self, node: u64) {
        self.0.inc_heartbeat(node).expect("a node of the fleet");
    }

    fn remove(&mut self, clock: u64, grace: u64) {
        self.0.gc_keys_marked_for_deletion(clock, grace).expect("a good table");
    }

    fn digest(&self) -> Sent {
        digest(&self.0)
    }

    fn offer(&mut self, digest: &[u8], own: Option<u64>) {
        let told = Digest::read(EDITION, digest).expect("a digest of the fleet");
        for node in told.nodes().filter(|node| Some(node.node) != own) {
            self.0.try_set_heartbeat(node.node, node.heartbeat).expect("a node of the fleet");
        }
    }

    fn compute(&self, digest: &[u8], mtu: usize, ties: &[u64], datagram: &mut [u8]) -> Option<Sent> {
        computed(&self.0, digest, mtu, ties, datagram)
    }

    fn apply(&mut self, delta: &[u8], clock: u64, own: Option<u64>) -> Taken {
        taken(delta, self.0.apply_delta(delta, clock).expect("a delta of the fleet"), own)
    }

    fn table(&self) -> Cow<'_, [u8]> {
        Cow::Borrowed(self.0.as_bytes())
    }

    fn of(table: &[u8]) -> Option<Port> {
        OwnedTable::from_bytes(table).ok().map(|table| Port(Box::new(table)))
    }
}
