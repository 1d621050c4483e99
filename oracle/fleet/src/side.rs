//! One hub of a fleet: the calls that a hub makes in its life.

use std::borrow::Cow;

use kevdarosh::Mode;

/// What an owner does to a key.
#[derive(Clone, Copy, PartialEq, Eq, Debug)]
pub enum Change<'a> {
    Set(&'a str),
    SetWithTtl(&'a str),
    Delete,
}

/// What came of applying a delta.
#[derive(Clone, Copy, Default)]
pub struct Taken {
    /// The nodes that may have changed, a bit each.
    pub changed: u8,
    /// Nodes that began afresh, nodes that answered Fenced. The original tells neither, and has no fence.
    pub resets: u64,
    pub fenced: u64,
    /// Whether the hub's own node answered anything but Reject.
    pub own_taken: bool,
}

/// A datagram's bytes, and how long they are in document 01's form.
pub struct Sent {
    pub bytes: Box<[u8]>,
    pub len: usize,
    /// Nanoseconds that a hub would not have spent on it.
    pub extra: u64,
}

pub trait Side: Sized {
    /// A table with the nodes 1 to 8, fresh.
    fn new(mode: Mode) -> Self;
    /// Whether anything changed.
    fn change(&mut self, node: u64, key: &str, change: Change, clock: u64) -> bool;
    fn beat(&mut self, node: u64);
    fn remove(&mut self, clock: u64, grace: u64);
    fn digest(&self) -> Sent;
    /// Takes the heartbeats of a digest, but for those of the own node.
    fn offer(&mut self, digest: &[u8], own: Option<u64>);
    /// Takes what a digest tells, as that of a peer, where the hub has a grid.
    fn tell(&mut self, _peer: u64, _digest: &[u8]) {}
    /// The ties of the next delta, where they are no argument of computing.
    fn set_ties(_ties: &[u64]) {}
    /// Nothing where nothing is owed. The datagram has 16,384 bytes.
    fn compute(&self, digest: &[u8], mtu: usize, ties: &[u64], datagram: &mut [u8]) -> Option<Sent>;
    fn apply(&mut self, delta: &[u8], clock: u64, own: Option<u64>) -> Taken;
    /// The table's bytes.
    fn table(&self) -> Cow<'_, [u8]>;
    /// A hub with the table of these bytes, if they are one.
    fn of(table: &[u8]) -> Option<Self>;
}
