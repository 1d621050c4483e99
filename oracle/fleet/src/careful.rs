//! The port with a grid beside each table, through the Rust crate's `Watched`: hubs that remove only what every other hub has told that it has seen. A grid has eight rows, so such a
//! fleet has nine hubs at most.

use std::borrow::Cow;

use kevdarosh::{Mode, OwnedTable, Wanted, Watched};
use script::grid::{PEERS, PRESENT};

use crate::port::{self, EDITION};
use crate::side::{Change, Sent, Side, Taken};

/// The hubs of such a fleet: each has all the others in its grid.
pub const HUBS: usize = 1 + PEERS;

pub struct Careful(Box<Watched>);

impl Careful {
    fn everyone(&self) -> bool {
        self.0.grid_bytes()[PRESENT..PRESENT + PEERS] == [1; PEERS]
    }
}

impl Side for Careful {
    fn new(mode: Mode) -> Careful {
        Careful(Box::new(Watched::new(port::fresh(mode))))
    }

    fn change(&mut self, node: u64, key: &str, change: Change, clock: u64) -> bool {
        let before = port::max(self.0.table(), node);
        let done = match change {
            Change::Set(value) => self.0.write(node, key.as_bytes(), value.as_bytes(), Wanted::Set),
            Change::SetWithTtl(value) => self.0.write(node, key.as_bytes(), value.as_bytes(), Wanted::Ttl(clock)),
            Change::Delete => self.0.delete(node, key.as_bytes(), clock).or(Ok(())),
        };
        done.expect("room for every key of the fleet");
        port::max(self.0.table(), node) != before
    }

    fn beat(&mut self, node: u64) {
        self.0.inc_heartbeat(node).expect("a node of the fleet");
    }

    /// Only while every other hub is present.
    fn remove(&mut self, clock: u64, grace: u64) {
        if self.everyone() {
            self.0.remove_carefully(clock, grace).expect("a grid of this table, and somebody is present");
        }
    }

    fn digest(&self) -> Sent {
        port::digest(self.0.table())
    }

    fn offer(&mut self, digest: &[u8], own: Option<u64>) {
        for (node, heartbeat) in port::heartbeats(digest).filter(|(node, _)| Some(*node) != own) {
            self.0.try_set_heartbeat(node, heartbeat).expect("a node of the fleet");
        }
    }

    fn tell(&mut self, peer: u64, digest: &[u8]) {
        self.0.tell(peer, EDITION, digest).expect("a digest of the fleet");
    }

    fn compute(&self, digest: &[u8], mtu: usize, ties: &[u64], datagram: &mut [u8]) -> Option<Sent> {
        port::computed(self.0.table(), digest, mtu, ties, datagram)
    }

    fn apply(&mut self, delta: &[u8], clock: u64, own: Option<u64>) -> Taken {
        port::taken(delta, self.0.apply_delta(delta, clock).expect("a delta of the fleet"), own)
    }

    fn table(&self) -> Cow<'_, [u8]> {
        Cow::Borrowed(self.0.table().as_bytes())
    }

    /// Nobody has told it anything.
    fn of(table: &[u8]) -> Option<Careful> {
        OwnedTable::from_bytes(table).ok().map(|table| Careful(Box::new(Watched::new(table))))
    }
}
