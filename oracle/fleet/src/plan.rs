//! What a net is made of, and what its links do.

use kevdarosh::Mode;

/// Parts of a tick. A datagram takes whole ones, a hub ticks in one of them.
pub const MOMENTS: u64 = 10;
/// Milliseconds of a tick, as the tables' clocks count.
pub const TICK: u64 = 1_000;
/// Every hub has these nodes, numbers 1 to 8. Hub 0 owns node 1, and so on.
pub const NODES: usize = 8;

/// Whom a hub hears.
#[derive(Clone, Copy, PartialEq, Eq, Debug)]
pub enum Peers {
    /// Anyone.
    Any,
    /// So many others that it picked by lot, and those that picked it.
    Some(usize),
    /// The one before and the one behind it.
    Row,
}

/// Of a thousand datagrams so many are lost, so many come twice, so many come up to six ticks late; the others take up to half a tick.
#[derive(Clone, Copy, Debug)]
pub struct Link {
    pub lost: usize,
    pub doubled: usize,
    pub late: usize,
}

pub const LINK: Link = Link { lost: 100, doubled: 50, late: 50 };
/// The moments that a late datagram takes at most.
pub const LATEST: usize = 6 * MOMENTS as usize;

/// A hub that is not what is claimed, or a net to which more happens than is claimed: the check must find each.
#[derive(Clone, Copy, PartialEq, Eq, Debug)]
pub enum Wrong {
    /// Every hub is plain.
    AllPlain,
    /// One hub in ten is plain, and hears anyone.
    SomePlain,
    /// An owner that was switched off has lost its last writes.
    OwnerLost,
    /// A follower is restored in silence.
    Silent,
    /// A version in a record that a follower holds is another.
    Version,
    /// A value that a follower holds is another.
    Value,
    /// A follower loses a record.
    Record,
}

#[derive(Clone, Copy, Debug)]
pub struct Plan {
    pub hubs: usize,
    /// Keys of each node.
    pub records: usize,
    pub mtu: usize,
    pub mode: Mode,
    pub seed: u64,
    pub peers: Peers,
    pub link: Link,
    /// Whether who gets a digest sends its own back, beside the delta.
    pub both: bool,
    /// Ticks from a delete to its removal, while hubs are switched off and on.
    pub grace: u64,
    /// Whether every hub that is switched off comes back with the table that it had, and not owners alone.
    pub keeps: bool,
    pub wrong: Option<Wrong>,
}

impl Plan {
    pub fn new(hubs: usize, records: usize, mtu: usize, mode: Mode, seed: u64) -> Plan {
        Plan { hubs, records, mtu, mode, seed, peers: Peers::Any, link: LINK, both: false, grace: 10, keeps: false, wrong: None }
    }

    /// The row that another hub has in a hub's grid, which has none for the hub itself.
    pub fn row(hub: usize, other: usize) -> u64 {
        if other < hub { other as u64 } else { other as u64 - 1 }
    }

    pub fn owns(&self, hub: usize) -> bool {
        hub < NODES
    }
}
