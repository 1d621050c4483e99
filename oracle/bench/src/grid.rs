//! Calls on a grid, ticket 12 of document 02. The original has none, so that each stands beside a call of the port that does the same without a grid: on a lent table, which is checked too.

use std::hint::black_box;

use kevdarosh::{Edition, OwnedTable, Refusal, Watched};

use crate::inputs::{self, NODES, RECORDS};
use crate::port::{self, Port};
use crate::{Aim, GRACE, NOW, Rows, asked, repeat, time};

const CALLS: usize = 16;
/// The peers that have told, all of them.
const PEERS: u64 = 8;

/// The table watched, eight peers present that have told all of it; and their digest.
fn watched(table: &[u8]) -> (Box<Watched>, Vec<u8>) {
    let mut hub = Box::new(Watched::new(OwnedTable::from_bytes(table).expect("a good table")));
    let mut digest = vec![0; 1_024];
    let size = Port::of(table, false).write_digest(&mut digest);
    digest.truncate(size);
    for peer in 0..PEERS {
        hub.tell(peer, Edition::V0, &digest).expect("a good digest");
    }
    (hub, digest)
}

pub(crate) fn rows(rows: &mut Rows) {
    telling(rows);
    least(rows);
    nothing_to_remove(rows);
    removing(rows);
    come_and_go(rows);
}

fn telling(rows: &mut Rows) {
    let (mut hub, digest) = watched(&inputs::full());
    let before = hub.grid_bytes().to_vec();
    rows.measure(
        "a peer's digest told",
        " (beside reading it)",
        Aim::Grid,
        || repeat(CALLS, || assert_eq!(black_box(port::read_digest(black_box(&digest))), NODES as usize)),
        || repeat(CALLS, || assert!(black_box(hub.tell(black_box(3), Edition::V0, black_box(&digest))).is_ok())),
    );
    assert_eq!(hub.grid_bytes(), before);
}

/// A peer's number above 7 is refused straight after 14, so that this is the check alone.
fn check_of(hub: &mut Watched) {
    assert_eq!(black_box(hub.take_out(black_box(PEERS))), Err(Refusal::BadPeer));
}

fn least(rows: &mut Rows) {
    let (hub, _) = watched(&inputs::full());
    let mut other = hub.clone();
    rows.measure(
        "the least max of a node",
        " (beside the grid's check)",
        Aim::Grid,
        || repeat(CALLS, || check_of(&mut other)),
        || repeat(CALLS, || assert_eq!(black_box(&hub).least_max(black_box(NODES - 1)), Ok(RECORDS as u64))),
    );
}

fn nothing_to_remove(rows: &mut Rows) {
    let mut plain = Port::of(&inputs::full(), false);
    let (mut hub, _) = watched(&inputs::full());
    rows.measure(
        "careful removal, nothing to remove",
        " (beside the plain one)",
        Aim::Grid,
        || repeat(CALLS, || assert!(black_box(plain.remove(NOW, black_box(GRACE))))),
        || repeat(CALLS, || assert!(black_box(hub.remove_carefully(NOW, black_box(GRACE))).is_ok())),
    );
    assert_eq!(hub.table().as_bytes(), inputs::full());
}

/// Every second record of all nodes is a tombstone whose grace is over, and all peers have seen it. The tables are made anew for each batch.
fn removing(rows: &mut Rows) {
    const NAME: &str = "careful removal of every second record";
    const TABLES: usize = 4;
    let mut before = Port::of(&inputs::full(), true);
    for asked in &asked(&inputs::others()) {
        assert!(before.delete(asked.number, &asked.key, NOW - GRACE));
    }
    let (hub, _) = watched(before.bytes());
    let (mut plain, mut careful): (Vec<Port>, Vec<Box<Watched>>) = (Vec::new(), Vec::new());
    rows.measure(
        NAME,
        " (beside the plain one)",
        Aim::Grid,
        || {
            plain = (0..TABLES).map(|_| Port::of(before.bytes(), false)).collect();
            time(TABLES, || {
                for table in &mut plain {
                    assert!(black_box(table.remove(NOW, black_box(GRACE))));
                }
            })
        },
        || {
            careful = (0..TABLES).map(|_| hub.clone()).collect();
            time(TABLES, || {
                for hub in &mut careful {
                    assert!(black_box(hub.remove_carefully(NOW, black_box(GRACE))).is_ok());
                }
            })
        },
    );
    for (plain, careful) in plain.iter().zip(&careful) {
        assert_eq!(plain.bytes(), careful.table().as_bytes(), "{NAME}: the tables differ");
        assert_eq!(usize::from(plain.bytes()[1 + 32]), RECORDS / 2, "{NAME}: what is left");
    }
}

/// A fresh node, the last of eight; the time is of both calls.
fn come_and_go(rows: &mut Rows) {
    const LAST: u64 = NODES - 1;
    let fresh = inputs::table(&[], inputs::in_order);
    let mut bytes = fresh.clone();
    let (mut hub, _) = watched(&fresh);
    rows.measure(
        "fresh node removed and added with its column, the last of eight",
        " (beside the plain calls)",
        Aim::Grid,
        || {
            let mut plain = kevdarosh::LentTable::over(&mut bytes);
            repeat(CALLS, || assert!(plain.remove_node(black_box(LAST)).is_ok() && plain.add_node(black_box(LAST)).is_ok()))
        },
        || repeat(CALLS, || assert!(hub.remove_node(black_box(LAST)).is_ok() && hub.add_node(black_box(LAST)).is_ok())),
    );
    assert_eq!(hub.table().as_bytes(), bytes);
}
