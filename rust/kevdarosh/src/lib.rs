//! Tables of versioned keys for hubs, and their gossip by digest and delta.
//!
//! This is a thin and safe layer over `libkevdarosh.a`, in which every function is proved to meet its contract. There is no heap, no thread, no state and no
//! operating system behind it. A call either does what it says or is refused by a [`Refusal`] and changes nothing.
//!
//! ```
//! use kevdarosh::{DIGEST, Edition, Mode, OwnedTable, Wanted};
//!
//! # fn main() -> Result<(), Box<dyn std::error::Error>> {
//! // A publisher owns node 7 and sets a reading; a follower knows the node and no more.
//! let mut publisher = OwnedTable::new(Mode::Guarded);
//! publisher.add_node(7)?;
//! publisher.write(7, b"total", b"004127.3 kWh", Wanted::Set)?;
//! let mut follower = OwnedTable::new(Mode::Guarded);
//! follower.add_node(7)?;
//!
//! // "What have you got?", "this is news to you", and the follower takes it.
//! let (mut digest, mut delta) = ([0; DIGEST], [0; 1_400]);
//! let n = follower.compute_digest(Edition::V0, &[], &mut digest)?;
//! let sent = publisher.compute_partial_delta_respecting_mtu(Edition::V0, &digest[..n], 1_400, &[], &[0], &mut delta)?;
//! let answers = follower.apply_delta(&delta[..sent.bytes], 1_000)?;
//!
//! assert!(answers.changed());
//! assert_eq!(follower.get(7, b"total")?, Some(&b"004127.3 kWh"[..]));
//! # Ok(())
//! # }
//! ```
//!
//! A lookup borrows from the table, nodes and records are iterators:
//!
//! ```
//! # use kevdarosh::{Mode, OwnedTable, Status, Wanted};
//! # fn main() -> Result<(), kevdarosh::Refusal> {
//! let mut table = OwnedTable::new(Mode::Plain);
//! table.add_node(12)?;
//! table.write(12, b"flow.day", b"11", Wanted::Set)?;
//! table.write(12, b"flow.night", b"3", Wanted::Set)?;
//! table.write(12, b"total", b"88", Wanted::Set)?;
//! table.delete(12, b"flow.night", 500)?;
//!
//! let node = table.node_state(12)?;
//! assert_eq!(node.max_version(), 4);
//! assert_eq!(node.iter_prefix(b"flow.")?.map(|record| record.key).collect::<Vec<_>>(), [b"flow.day"]);
//! assert_eq!(node.get_versioned(b"flow.night")?.map(|record| record.status), Some(Status::Deleted));
//! # Ok(())
//! # }
//! ```
//!
//! Bytes that are lent are checked in each call:
//!
//! ```
//! # use kevdarosh::{LentTable, Mode, Refusal, TABLE};
//! let mut bytes = vec![0; TABLE];
//! let mut table = LentTable::new_in(&mut bytes, Mode::Plain).unwrap();
//! table.add_node(7).unwrap();
//! bytes[0] = 9; // a table of nine nodes
//! let refused = LentTable::over(&mut bytes).add_node(8).unwrap_err();
//! assert_eq!((refused, refused.number()), (Refusal::BadTable, 14));
//! ```
//!
//! A caretaker's label over the manager's, which is never gossiped:
//!
//! ```
//! # use kevdarosh::{Mode, Overrides, OwnedTable, Wanted};
//! # fn main() -> Result<(), kevdarosh::Refusal> {
//! let mut table = OwnedTable::new(Mode::Plain);
//! table.add_node(7)?;
//! table.write(7, b"name", b"Stair B", Wanted::Set)?;
//! let mut labels = Overrides::new(7);
//! labels.write(b"name", b"Bicycle cellar", Wanted::Set)?;
//!
//! assert_eq!(table.get_over(&labels, 7, b"name")?, Some(&b"Bicycle cellar"[..]));
//! labels.delete(b"name", 1_000)?;
//! assert_eq!(table.get_over(&labels, 7, b"name")?, Some(&b"Stair B"[..]));
//! # Ok(())
//! # }
//! ```
//!
//! A table with its grid of what each peer told last: a removal that waits for the peer that was switched off ([`Watched`]):
//!
//! ```
//! # use kevdarosh::{DIGEST, Edition, Mode, OwnedTable, Refusal, Wanted, Watched};
//! # fn main() -> Result<(), Box<dyn std::error::Error>> {
//! let mut hub = Watched::new(OwnedTable::new(Mode::Plain));
//! hub.add_node(7)?;
//! hub.write(7, b"lamp", b"on", Wanted::Set)?;
//! hub.delete(7, b"lamp", 1_000)?;
//! assert_eq!(hub.remove_carefully(9_000, 500), Err(Refusal::NobodyPresent));
//!
//! let mut peer = OwnedTable::new(Mode::Plain);
//! peer.add_node(7)?;
//! let mut digest = [0; DIGEST];
//! let n = peer.compute_digest(Edition::V0, &[], &mut digest)?;
//! hub.tell(0, Edition::V0, &digest[..n])?;
//! hub.remove_carefully(9_000, 500)?;
//! assert_eq!(hub.least_max(7)?, 0);
//! assert_eq!(hub.table().node_state(7)?.last_gc_version(), 0); // the peer has not seen it
//! # Ok(())
//! # }
//! ```
//!
//! A table for readings alone, in which a total does not go backwards:
//!
//! ```
//! # use kevdarosh::{Mode, OwnedTable, Profile, Refusal, Wanted};
//! # fn main() -> Result<(), kevdarosh::Refusal> {
//! let mut table = OwnedTable::with_profile(Mode::Guarded, Profile::Meter);
//! table.add_node(7)?;
//! table.write(7, b"total", b"0041823", Wanted::Set)?;
//! assert_eq!(table.write(7, b"total", b"41283", Wanted::Set), Err(Refusal::SmallerTotal));
//! assert_eq!(table.write(7, b"total", b"41 832", Wanted::Set), Err(Refusal::BadForm));
//!
//! table.delete(7, b"total", 1_000)?; // a new meter, which begins at 0
//! table.write(7, b"total", b"0", Wanted::Set)?;
//! # Ok(())
//! # }
//! ```
//!
//! A table that two firms share, each with its own keys and its own sixteen records a node ([`Table::party`]):
//!
//! ```
//! # use kevdarosh::{Mode, OwnedTable, Party, Profile, Refusal, Wanted};
//! # fn main() -> Result<(), kevdarosh::Refusal> {
//! let mut table = OwnedTable::with_profile(Mode::Guarded, Profile::Shared);
//! table.add_node(7)?;
//! table.party_mut(Party::Metering).write(7, b"m/total", b"41823", Wanted::Set)?;
//! table.party_mut(Party::Building).write(7, b"b/name", b"Stair B", Wanted::Set)?;
//!
//! let firm = table.party(Party::Metering);
//! assert_eq!(firm.get(7, b"m/total")?, Some(&b"41823"[..]));
//! assert_eq!(firm.get(7, b"b/name"), Err(Refusal::OtherParty));
//! assert_eq!(firm.node_state(7)?.num_key_values(), 1);
//! # Ok(())
//! # }
//! ```
//!
//! docs/MOVING.md of the repository takes an engineer from each call of chitchat's `NodeState` and `ClusterState` to its own here.

#![no_std]
#![deny(unsafe_code)]
#![warn(missing_docs)]

// A listing has more bytes than a `usize` of 16 bits can count.
#[cfg(not(any(target_pointer_width = "32", target_pointer_width = "64")))]
compile_error!("this crate is for processors whose usize has 32 or 64 bits");

/// The code of docs/MOVING.md and of the README is compiled and run with the tests.
#[cfg(doctest)]
#[doc = include_str!("../../../docs/MOVING.md")]
#[doc = include_str!("../../../README.md")]
struct Moving;

mod ffi;
mod over;
mod refusal;
mod row;
mod table;
mod watch;
mod wire;

pub use ffi::{Bytes, BytesMut, Kept};
pub use over::{Merged, Overrides};
pub use refusal::{ExchangeRefused, Fault, LineFault, ListingRefused, PlanFault, Refusal, Step};
pub use row::Records;
pub use table::{Answer, Answers, Computed, Header, LentTable, Mode, NodeState, OwnedNode, OwnedTable, Party, PartyTable, PartyTableMut, Profile, Record, Status, Table, TableView, Wanted};
pub use watch::{Pair, Watched};
pub use wire::{Datagrams, DeltaNodes, DeltaRead, Digest, Edition, Exchanged, NodeDigest, delta_nodes, exchange, list_delta, make_delta, read_delta};

/// Bytes of a table.
pub const TABLE: usize = 29_964;
/// Nodes of a table, at most.
pub const NODES: usize = 8;
/// Records of a node, at most, tombstones counted.
pub const RECORDS: usize = 32;
/// Records of a node that a party of a shared table may have, at most, tombstones counted.
pub const EACH: usize = 16;
/// Bytes of a key, at most.
pub const KEY: usize = 32;
/// Bytes of a value, at most.
pub const VALUE: usize = 64;
/// Bytes of a digest, at most.
pub const DIGEST: usize = 258;
/// The smallest MTU.
pub const MTU_LEAST: usize = 100;
/// The largest MTU, and the longest delta.
pub const DELTA: usize = 16_384;
/// Bytes of a delta's listing, at most.
pub const LISTING: usize = 81_979;
/// Bytes of a table's listing, at most.
pub const TABLE_LISTING: usize = 96_648;

/// Bytes of overrides.
pub const OVERRIDES: usize = 3_713;

/// Bytes of a grid.
pub const GRID: usize = 1_097;
/// Peers of a grid, numbered from 0.
pub const PEERS: usize = 8;

/// The byte of a table that says its mode.
const MODE_AT: usize = 29_705;
/// And its profile.
const PROFILE_AT: usize = 29_706;
