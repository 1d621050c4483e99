//! The original for the measurement: its calls by themselves, without the layer. What a caller of the original holds
//! anyway (a node's name, a digest that was read) is made beforehand.

use std::collections::HashSet;
use std::time::Duration;

use script::Side;
use tokio::sync::watch;
use tokio::time::set_clock;

use crate::delta::{Delta, operation_bytes};
use crate::digest::Digest;
use crate::hub::Hub;
use crate::message::ProtocolVersion;
use crate::serialize::{Deserializable, Serializable};
use crate::state::ClusterState;
use crate::types::{ChitchatId, VersionedValue};
use crate::wire;

/// What the original calls a node.
pub struct Name(ChitchatId);

pub fn name(number: u64) -> Name {
    Name(wire::chitchat_id(number))
}

/// A digest that was read.
pub struct Held(Digest);

/// Document 01's digest as the original's bytes, and read.
pub fn digest_bytes(bytes: &[u8]) -> Vec<u8> {
    wire::digest_original(bytes)
}

pub fn digest_held(bytes: &[u8]) -> Held {
    Held(Digest::deserialize(ProtocolVersion::V0, &mut &digest_bytes(bytes)[..]).expect("a good digest"))
}

/// Document 01's delta as the original's stream.
pub fn delta_bytes(mut bytes: &[u8]) -> Vec<u8> {
    let mut operations = Vec::new();
    while !bytes.is_empty() {
        let cut = wire::first_operation(bytes);
        operations.extend(&cut.bytes);
        bytes = &bytes[cut.used..];
    }
    wire::plain_stream(&operations)
}

/// Reads a digest of the original's bytes. How many nodes it tells of.
pub fn read_digest(bytes: &[u8]) -> usize {
    Digest::deserialize(ProtocolVersion::V0, &mut &bytes[..]).expect("a good digest").node_digests.len()
}

/// Reads a delta of the original's stream. How many node deltas it holds.
pub fn read_delta(stream: &[u8]) -> usize {
    Delta::deserialize(&mut &stream[..]).expect("a good delta").node_deltas.len()
}

/// How many operations a delta of the original's stream holds.
pub fn operations(stream: &[u8]) -> usize {
    operation_bytes(&Delta::deserialize(&mut &stream[..]).expect("a good delta")).len()
}

/// The original's MTU at which it cuts a delta with so many Nodes where document 01 does at 16,384.
pub fn mtu(nodes: usize) -> usize {
    16_384 + wire::NAME_EXTRA * nodes + 7
}

/// Makes an empty table; how many nodes it has.
pub fn make() -> usize {
    ClusterState::with_seed_addrs(watch::Receiver::holding(HashSet::new())).nodes().count()
}

pub struct Timed(Hub);

impl Timed {
    /// The original with what stands in the bytes of a lent table.
    pub fn of(table: &[u8]) -> Timed {
        let mut hub = Hub::new(script::table::PLAIN, script::table::FREE);
        hub.take_table(table);
        let numbers: Vec<u64> = hub.cluster.nodes().map(|id| id.generation_id).collect();
        rand::set_ties(numbers.into_iter().map(|number| (number, 0)));
        Timed(hub)
    }

    /// The bytes of a lent table with what the original holds.
    pub fn table(&self) -> Vec<u8> {
        self.0.table_bytes()
    }

    pub fn get(&self, node: &Name, key: &str) -> Option<&str> {
        self.0.cluster.node_state(&node.0)?.get(key)
    }

    pub fn contains_key(&self, node: &Name, key: &str) -> bool {
        self.0.cluster.node_state(&node.0).is_some_and(|state| state.contains_key(key))
    }

    /// The record of a key, whether it is deleted or not.
    pub fn get_versioned(&self, node: &Name, key: &str) -> Option<&VersionedValue> {
        self.0.cluster.node_state(&node.0)?.get_versioned(key)
    }

    /// The numbers of the nodes, added up.
    pub fn nodes(&self) -> u64 {
        self.0.cluster.nodes().map(|id| id.generation_id).sum()
    }

    /// Heartbeat, max and last_gc of a node.
    pub fn header(&self, node: &Name) -> Option<(u64, u64, u64)> {
        let state = self.0.cluster.node_state(&node.0)?;
        Some((state.heartbeat().into(), state.max_version(), state.last_gc_version()))
    }

    /// How many keys of a node are not deleted.
    pub fn num_key_values(&self, node: &Name) -> Option<usize> {
        Some(self.0.cluster.node_state(&node.0)?.num_key_values())
    }

    /// The keys and values of a node.
    pub fn key_values(&self, node: &Name) -> Option<impl Iterator<Item = (&str, &str)>> {
        Some(self.0.cluster.node_state(&node.0)?.key_values())
    }

    /// The keys of a node that begin so, with their records.
    pub fn iter_prefix<'a>(
        &'a self,
        node: &Name,
        prefix: &'a str,
    ) -> Option<impl Iterator<Item = (&'a str, &'a VersionedValue)>> {
        Some(self.0.cluster.node_state(&node.0)?.iter_prefix(prefix))
    }

    /// The heartbeat that the original remembers of a removed node.
    pub fn last_heartbeat(&self, node: &Name) -> Option<u64> {
        self.0.cluster.last_heartbeat_if_deleted(&node.0).map(u64::from)
    }

    /// A fresh node, where there is none yet.
    pub fn add_node(&mut self, node: &Name) {
        self.0.cluster.node_state_mut_or_init(&node.0);
    }

    pub fn remove_node(&mut self, node: &Name) {
        self.0.cluster.remove_node(&node.0);
    }

    pub fn set(&mut self, node: &Name, key: &str, value: &str) {
        if let Some(state) = self.0.cluster.node_state_mut(&node.0) {
            state.set(key, value);
        }
    }

    pub fn delete(&mut self, node: &Name, key: &str) {
        if let Some(state) = self.0.cluster.node_state_mut(&node.0) {
            state.delete(key);
        }
    }

    pub fn remove(&mut self, grace: u64) {
        self.0.cluster.gc_keys_marked_for_deletion(Duration::from_millis(grace));
    }

    /// Makes the digest and writes it.
    pub fn write_digest(&self, bytes: &mut Vec<u8>) {
        self.0.cluster.compute_digest(&HashSet::new()).serialize(ProtocolVersion::V0, bytes);
    }

    /// Computes a delta and writes it.
    pub fn compute(&self, digest: &Held, mtu: usize, stream: &mut Vec<u8>) {
        self.0.cluster.compute_partial_delta_respecting_mtu(&digest.0, mtu, &HashSet::new()).serialize(stream);
    }

    /// Reads a delta and applies it.
    pub fn apply(&mut self, stream: &[u8]) -> bool {
        self.0.cluster.apply_delta(Delta::deserialize(&mut &stream[..]).expect("a good delta"))
    }
}

/// What the original's clock says from now on.
pub fn clock(milliseconds: u64) {
    set_clock(milliseconds);
}

/// Document 01's bytes of a delta or a digest that the original wrote.
pub fn delta_01(stream: &[u8]) -> Vec<u8> {
    let delta = Delta::deserialize(&mut &stream[..]).expect("a good delta");
    operation_bytes(&delta).iter().flat_map(|bytes| wire::operation_01(bytes)).collect()
}

pub fn digest_01(bytes: &[u8]) -> Vec<u8> {
    wire::digest_01(bytes)
}
