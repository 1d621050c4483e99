//! The original as one hub of a fleet: its calls without the layer, and its tables as document 01's bytes.

use std::collections::HashSet;
use std::sync::OnceLock;
use std::time::{Duration, Instant};

use script::Side;
use tokio::time::set_clock;

use crate::delta::{Delta, operation_bytes};
use crate::digest::Digest;
use crate::hub::{Hub, original_mtu};
use crate::message::ProtocolVersion;
use crate::serialize::{Deserializable, Serializable};
use crate::state::{ClusterState, NodeState};
use crate::types::ChitchatId;
use crate::wire;

/// The names of the nodes 1 to 8, which a caller of the original holds anyway.
fn name(node: u64) -> &'static ChitchatId {
    static NAMES: OnceLock<Vec<ChitchatId>> = OnceLock::new();
    &NAMES.get_or_init(|| (0..=8).map(wire::chitchat_id).collect())[node as usize]
}

/// A delta as the original's stream, its length in document 01's bytes, and the nanoseconds that went into learning that length and where document 01 cuts.
pub struct Computed {
    pub stream: Vec<u8>,
    pub len: usize,
    pub extra: u64,
}

pub struct Old(Hub);

/// How the original puts nodes in order that are equally stale, from now on: the ties of the nodes 1 to 8.
pub fn set_ties(ties: &[u64]) {
    rand::set_ties(ties.iter().enumerate().map(|(place, &tie)| (place as u64 + 1, tie)));
}

impl Old {
    pub fn new() -> Old {
        let mut old = Old(Hub::new(script::table::PLAIN, script::table::FREE));
        for node in 1..=8 {
            old.cluster().node_state_mut_or_init(name(node));
        }
        old
    }

    /// The table of these bytes, which must be good.
    pub fn of(table: &[u8]) -> Old {
        let mut hub = Hub::new(script::table::PLAIN, script::table::FREE);
        hub.take_table(table);
        Old(hub)
    }

    pub fn table(&self) -> Vec<u8> {
        self.0.table_bytes()
    }

    fn cluster(&mut self) -> &mut ClusterState {
        &mut self.0.cluster
    }

    fn node(&mut self, node: u64) -> &mut NodeState {
        self.cluster().node_state_mut(name(node)).expect("a node of the fleet")
    }

    pub fn max(&self, node: u64) -> u64 {
        self.0.cluster.node_state(name(node)).expect("a node of the fleet").max_version()
    }

    pub fn set(&mut self, node: u64, key: &str, value: &str) {
        self.node(node).set(key, value);
    }

    pub fn set_with_ttl(&mut self, node: u64, key: &str, value: &str, clock: u64) {
        set_clock(clock);
        self.node(node).set_with_ttl(key, value);
    }

    pub fn delete(&mut self, node: u64, key: &str, clock: u64) {
        set_clock(clock);
        self.node(node).delete(key);
    }

    pub fn beat(&mut self, node: u64) {
        self.node(node).inc_heartbeat();
    }

    pub fn remove(&mut self, clock: u64, grace: u64) {
        set_clock(clock);
        self.cluster().gc_keys_marked_for_deletion(Duration::from_millis(grace));
    }

    /// The digest in the original's bytes.
    pub fn digest(&self) -> Vec<u8> {
        let mut bytes = Vec::new();
        self.0.cluster.compute_digest(&HashSet::new()).serialize(ProtocolVersion::V0, &mut bytes);
        bytes
    }

    /// Takes the heartbeats of a digest, but for the own node's.
    pub fn offer(&mut self, digest: &[u8], own: Option<u64>) {
        let told = Digest::deserialize(ProtocolVersion::V0, &mut &digest[..]).expect("a digest of the fleet");
        for (id, digest) in &told.node_digests {
            if Some(id.generation_id) != own {
                self.cluster().node_state_mut(id).expect("a node of the fleet").try_set_heartbeat(digest.heartbeat);
            }
        }
    }

    /// The delta that document 01's MTU lets through. The original's own limit for it hangs on how many Nodes the delta has; where eight would let too much through, it is
    /// asked once more with the number that there are.
    pub fn compute(&self, digest: &[u8], mtu: usize) -> Option<Computed> {
        let held = Digest::deserialize(ProtocolVersion::V0, &mut &digest[..]).expect("a digest of the fleet");
        let nobody = HashSet::new();
        let begun = Instant::now();
        let mut delta = self.0.cluster.compute_partial_delta_respecting_mtu(&held, original_mtu(mtu, 8), &nobody);
        if delta.node_deltas.is_empty() {
            return None;
        }
        let asked = begun.elapsed();
        let looked = Instant::now();
        let operations: Vec<Vec<u8>> = operation_bytes(&delta).iter().map(|bytes| wire::operation_01(bytes)).collect();
        let mut len = 0;
        let fits = |op: &&Vec<u8>| {
            len += op.len();
            len <= mtu
        };
        let fitting = operations.iter().take_while(fits).count();
        let len = operations[..fitting].iter().map(Vec::len).sum();
        let mut extra = looked.elapsed();
        if fitting < operations.len() {
            // The first asking was for nothing.
            extra += asked;
            let nodes = operations[..fitting].iter().filter(|op| op[0] == wire::TAG_NODE).count();
            delta = self.0.cluster.compute_partial_delta_respecting_mtu(&held, original_mtu(mtu, nodes), &nobody);
            let looked = Instant::now();
            assert_eq!(operation_bytes(&delta).len(), fitting, "the original cuts elsewhere than document 01");
            extra += looked.elapsed();
        }
        let mut stream = Vec::new();
        delta.serialize(&mut stream);
        (fitting > 0).then_some(Computed { stream, len, extra: extra.as_nanos() as u64 })
    }

    /// Reads a delta and applies it.
    pub fn apply(&mut self, stream: &[u8], clock: u64) {
        set_clock(clock);
        let delta = Delta::deserialize(&mut &stream[..]).expect("a delta of the fleet");
        self.cluster().apply_delta(delta);
    }
}
