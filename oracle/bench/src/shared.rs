//! An owned shared table, each call by the party whose key it is, and the same calls on a free one: what a party costs.

use std::hint::black_box;

use judge::timed::{self, Timed};
use kevdarosh::{OwnedTable, Party, Wanted};
use script::table::{self, FREE, Node, Record, SET, SHARED};

use crate::inputs::{self, NODES, RECORDS};
use crate::{Aim, NOW, OWNED, Rows, repeat};

/// A party's key with its node on both sides, and two values.
struct Own {
    name: timed::Name,
    number: u64,
    party: Party,
    key: String,
    values: [String; 2],
}

/// The first half of a node's records is the building manager's, the other the metering firm's: in the order of the keys.
fn party(record: usize) -> Party {
    if record < RECORDS / 2 { Party::Building } else { Party::Metering }
}

/// As long as the other rows' keys.
fn key(node: u64, record: usize) -> String {
    let firm = if party(record) == Party::Building { "b/" } else { "m/" };
    format!("{firm}k-{node:02}-{record:02}-{:06}", record * 7919 % 1_000_000)
}

/// The bytes of a table of this profile with these records in each of its 8 nodes.
fn table(profile: u8, records: &[usize]) -> Vec<u8> {
    let record = |node: u64, record: usize| Record {
        key: key(node, record).into_bytes(),
        value: inputs::value(node, record, 0).into_bytes(),
        version: inputs::in_order(record),
        status: SET,
        start: 0,
    };
    let nodes: Vec<Node> = (0..NODES)
        .map(|number| Node {
            number,
            heartbeat: 1 + number,
            max: RECORDS as u64,
            last_gc: 0,
            records: records.iter().map(|&at| record(number, at)).collect(),
        })
        .collect();
    table::encode_as(&nodes, table::PLAIN, profile, &[])
}

fn owned(bytes: &[u8]) -> Box<OwnedTable> {
    Box::new(OwnedTable::from_bytes(bytes).expect("a good table"))
}

fn keys(records: &[usize]) -> Vec<Own> {
    let one = |(node, record)| Own {
        name: timed::name(node),
        number: node,
        party: party(record),
        key: key(node, record),
        values: [0, 1].map(|turn| inputs::value(node, record, turn)),
    };
    inputs::each(records).into_iter().map(one).collect()
}

fn set_all(original: &mut Timed, keys: &[Own], turn: usize) -> f64 {
    crate::time(keys.len(), || {
        for own in keys {
            original.set(&own.name, black_box(&own.key), black_box(&own.values[turn]));
        }
    })
}

fn write_all(port: &mut OwnedTable, keys: &[Own], turn: usize) -> f64 {
    crate::time(keys.len(), || {
        for own in keys {
            let (key, value) = (black_box(own.key.as_bytes()), black_box(own.values[turn].as_bytes()));
            black_box(port.party_mut(own.party).write(own.number, key, value, Wanted::Set)).expect("its own key");
        }
    })
}

fn lookups(rows: &mut Rows, name: &'static str, profile: u8) {
    let (before, keys) = (table(profile, &inputs::all()), keys(&inputs::all()));
    let (original, port) = (Timed::of(&before), owned(&before));
    for own in &keys {
        let held = port.party(own.party).get(own.number, own.key.as_bytes()).expect("its own key");
        assert_eq!(held, original.get(&own.name, &own.key).map(str::as_bytes), "{name}");
    }
    rows.measure(
        name,
        "",
        OWNED,
        || {
            crate::time(keys.len(), || {
                for own in &keys {
                    black_box(original.get(&own.name, black_box(&own.key)));
                }
            })
        },
        || {
            crate::time(keys.len(), || {
                for own in &keys {
                    let _ = black_box(port.party(own.party).get(own.number, black_box(own.key.as_bytes())));
                }
            })
        },
    );
}

/// Writes that change each record, turn by turn.
fn changed(rows: &mut Rows, name: &'static str, profile: u8) {
    let (before, keys) = (table(profile, &inputs::all()), keys(&inputs::all()));
    let (mut original, mut port) = (Timed::of(&before), owned(&before));
    let (mut turn, mut other) = (0, 0);
    rows.measure(
        name,
        "",
        OWNED,
        || {
            turn = 1 - turn;
            set_all(&mut original, &keys, turn)
        },
        || {
            other = 1 - other;
            write_all(&mut port, &keys, other)
        },
    );
    assert_eq!(original.table(), port.as_bytes(), "{name}: the tables differ");
}

/// Writes of keys that a half full table lacks.
fn new_keys(rows: &mut Rows, name: &'static str, profile: u8) {
    let (before, keys) = (table(profile, &inputs::half()), keys(&inputs::others()));
    let (mut original, mut port) = (Timed::of(&before), owned(&before));
    rows.measure(
        name,
        "",
        OWNED,
        || {
            original = Timed::of(&before);
            set_all(&mut original, &keys, 0)
        },
        || {
            port = owned(&before);
            write_all(&mut port, &keys, 0)
        },
    );
    assert_eq!(original.table(), port.as_bytes(), "{name}: the tables differ");
}

/// All keys of the metering firm, whose records stand behind the other's, with their values.
fn listing(rows: &mut Rows, name: &'static str, profile: u8) {
    const NODE: u64 = 1;
    const TIMES: usize = 64;
    let before = table(profile, &inputs::all());
    let (original, port) = (Timed::of(&before), owned(&before));
    let node = timed::name(NODE);
    let theirs = || original.iter_prefix(&node, black_box("m/")).into_iter().flatten().fold((0, 0), |(n, len), (key, held)| (n + 1, len + key.len() + held.value.len()));
    let ours = || {
        let node = port.party(Party::Metering).node_state(NODE).expect("a held node");
        node.iter_prefix(black_box(b"m/")).expect("a short prefix").fold((0, 0), |(n, len), record| (n + 1, len + record.key.len() + record.value.len()))
    };
    assert_eq!(theirs(), ours(), "{name}");
    assert_eq!(ours().0, RECORDS / 2, "{name}");
    rows.measure(
        name,
        "",
        OWNED,
        || {
            repeat(TIMES, || {
                black_box(theirs());
            })
        },
        || {
            repeat(TIMES, || {
                black_box(ours());
            })
        },
    );
}

/// The check of a full table, beside that of the free one.
fn check(rows: &mut Rows) {
    let [free, shared] = [FREE, SHARED].map(|profile| table(profile, &inputs::all()));
    let checked = |table: &[u8]| {
        repeat(8, || {
            assert!(black_box(crate::port::check(black_box(table))));
        })
    };
    rows.measure("the check, full shared table", " (beside the port's of the same as a free one)", Aim::None, || checked(&free), || checked(&shared));
}

pub(crate) fn rows(rows: &mut Rows) {
    timed::clock(NOW);
    for (profile, lookup, change, new, list) in [
        (
            FREE,
            "lookup of two firms' keys, owned table",
            "set of two firms' keys, changed, owned table",
            "set of two firms' keys, new, owned table",
            "prefix of one firm, 16 hits gone through, owned table",
        ),
        (
            SHARED,
            "a party's lookup, owned shared table",
            "a party's set, changed, owned shared table",
            "a party's set, new key, owned shared table",
            "a party's keys, 16 hits gone through, owned shared table",
        ),
    ] {
        lookups(rows, lookup, profile);
        changed(rows, change, profile);
        new_keys(rows, new, profile);
        listing(rows, list, profile);
    }
    check(rows);
}
