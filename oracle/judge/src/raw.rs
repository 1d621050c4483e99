//! The original without the layer: what it does where document 01 refuses. For the findings, not for scripts.
//! A method panics where the original does.

use std::collections::HashSet;
use std::time::Duration;

use tokio::sync::watch;
use tokio::time::{set_clock, set_tick};

use crate::delta::{Delta, operation_bytes};
use crate::digest::Digest;
use crate::message::ProtocolVersion;
use crate::serialize::{Deserializable, Serializable};
use crate::state::{ClusterState, NodeState};
use crate::types::{DeletionStatusMutation, Heartbeat};
use crate::wire;

pub enum Op<'a> {
    Node {
        number: u64,
        last_gc: u64,
        from: u64,
    },
    KeyValue {
        key: &'a [u8],
        value: &'a [u8],
        version: u64,
        status: u8,
    },
    SetMax {
        max: u64,
    },
    /// Any bytes.
    Bytes(&'a [u8]),
}

/// The original's stream of the operations, in one plain block.
fn stream(ops: &[Op]) -> Vec<u8> {
    let mut bytes = Vec::new();
    for op in ops {
        match op {
            Op::Node { number, last_gc, from } => {
                bytes.push(wire::TAG_NODE);
                wire::chitchat_id(*number).serialize(&mut bytes);
                last_gc.serialize(&mut bytes);
                from.serialize(&mut bytes);
            }
            Op::KeyValue { key, value, version, status } => {
                bytes.push(wire::TAG_KEY_VALUE);
                for text in [key, value] {
                    (text.len() as u16).serialize(&mut bytes);
                    bytes.extend(*text);
                }
                version.serialize(&mut bytes);
                bytes.push(*status);
            }
            Op::SetMax { max } => {
                bytes.push(wire::TAG_SET_MAX);
                max.serialize(&mut bytes);
            }
            Op::Bytes(more) => bytes.extend(*more),
        }
    }
    wire::plain_stream(&bytes)
}

fn read(ops: &[Op]) -> Result<Delta, String> {
    Delta::deserialize(&mut &stream(ops)[..]).map_err(|error| error.to_string())
}

/// How many node deltas the original reads, or its error.
pub fn nodes_read(ops: &[Op]) -> Result<usize, String> {
    read(ops).map(|delta| delta.node_deltas.len())
}

/// Reads the operations and writes what was read again.
pub fn read_and_write(ops: &[Op]) -> Vec<u8> {
    read(ops).expect("a delta that the original reads").serialize_to_vec()
}

/// How many different nodes the original reads from a digest of so many entries.
pub fn digest_nodes_read(count: u16) -> Result<usize, String> {
    let mut bytes = count.serialize_to_vec();
    for number in 0..u64::from(count) {
        wire::chitchat_id(number).serialize(&mut bytes);
        [0u8; 24].serialize(&mut bytes);
    }
    let digest = Digest::deserialize(ProtocolVersion::V0, &mut &bytes[..]);
    digest.map(|digest| digest.node_digests.len()).map_err(|error| error.to_string())
}

pub struct Raw(ClusterState);

impl Raw {
    /// A table with node 1, fresh.
    pub fn new() -> Raw {
        let mut raw = Raw(ClusterState::with_seed_addrs(watch::Receiver::holding(HashSet::new())));
        raw.add(1);
        raw
    }

    pub fn add(&mut self, number: u64) {
        self.0.node_state_mut_or_init(&wire::chitchat_id(number));
    }

    pub fn remove(&mut self, number: u64) {
        self.0.remove_node(&wire::chitchat_id(number));
    }

    /// The heartbeat that the original remembers of a removed node.
    pub fn remembered(&self, number: u64) -> Option<u64> {
        self.0.last_heartbeat_if_deleted(&wire::chitchat_id(number)).map(u64::from)
    }

    pub fn nodes(&self) -> usize {
        self.0.nodes().count()
    }

    fn one(&mut self) -> &mut NodeState {
        self.0.node_state_mut(&wire::chitchat_id(1)).expect("node 1")
    }

    pub fn set(&mut self, key: &str, value: &str) {
        self.one().set(key, value);
    }

    pub fn set_with_ttl(&mut self, key: &str, value: &str) {
        self.one().set_with_ttl(key, value);
    }

    pub fn get(&mut self, key: &str) -> Option<String> {
        self.one().get(key).map(String::from)
    }

    pub fn delete(&mut self, key: &str) {
        self.one().delete(key);
    }

    pub fn delete_after_ttl(&mut self, key: &str) {
        self.one().delete_after_ttl(key);
    }

    pub fn beat(&mut self) {
        self.one().inc_heartbeat();
    }

    pub fn offer(&mut self, heartbeat: u64) -> bool {
        self.one().try_set_heartbeat(Heartbeat(heartbeat))
    }

    pub fn set_max(&mut self, max: u64) {
        self.one().set_max_version(max);
    }

    /// Reads the operations as one delta and applies it.
    pub fn apply(&mut self, ops: &[Op]) -> Result<bool, String> {
        read(ops).map(|delta| self.0.apply_delta(delta))
    }

    /// How many records each node holds after removal, with a clock that moves on by a millisecond a look.
    pub fn kept_under_a_running_clock(&mut self, now: u64, grace: u64) -> Vec<usize> {
        set_clock(now);
        set_tick(1);
        self.0.gc_keys_marked_for_deletion(Duration::from_millis(grace));
        set_tick(0);
        let nodes = self.0.node_states().values();
        nodes.map(|node| node.key_values_including_deleted().count()).collect()
    }

    /// Operations of the delta for an empty digest under the original's own MTU.
    pub fn operations(&self, mtu: usize) -> usize {
        rand::set_ties(self.0.nodes().map(|id| (id.generation_id, 0)));
        let delta = self.0.compute_partial_delta_respecting_mtu(&Digest::default(), mtu, &HashSet::new());
        operation_bytes(&delta).len()
    }

    /// Node 1: heartbeat, last_gc, max.
    pub fn numbers(&mut self) -> (u64, u64, u64) {
        let node = self.one();
        (node.heartbeat().into(), node.last_gc_version(), node.max_version())
    }

    /// Node 1: key, value, version, status byte.
    pub fn records(&mut self) -> Vec<(String, String, u64, u8)> {
        let records = self.one().key_values_including_deleted();
        records
            .map(|(key, held)| {
                (key.into(), held.value.clone(), held.version, DeletionStatusMutation::from(held.status).into())
            })
            .collect()
    }
}

/// Warnings that the original has given so far.
pub fn warnings() -> u64 {
    tracing::warnings()
}
