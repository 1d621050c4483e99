//! Readings in an owned meter table, and the same readings in a free one: what a write's form and its total cost, and the one more pass over a delta.

use std::hint::black_box;

use judge::timed::{self, Timed};
use kevdarosh::Answer;
use script::table::{self, FREE, METER, Node, Record, SET};

use crate::inputs::{self, NODES, RECORDS};
use crate::port::{self, Port};
use crate::{Aim, NOW, OWNED, Rows, applying, delta_of, repeat};

/// A key with its node on both sides, and its values, turn by turn.
struct Reading {
    name: timed::Name,
    number: u64,
    key: String,
    values: Vec<String>,
}

/// As long as the other rows' keys; the first of a node is `total`.
fn key(node: u64, record: usize) -> String {
    if record == 0 { "total".into() } else { format!("key.{node:02}.{record:02}.{:06}", record * 7919 % 1_000_000) }
}

/// Four to ten digits. They never fall from turn to turn.
fn value(node: u64, record: usize, turn: usize) -> String {
    let len = 4 + (RECORDS * node as usize + record) * 5 % 7;
    format!("{:0len$}", 1_000 + turn)
}

/// The bytes of a table of this profile with these records in each of its 8 nodes.
fn table(profile: u8, records: &[usize]) -> Vec<u8> {
    let record = |node: u64, record: usize| Record {
        key: key(node, record).into_bytes(),
        value: value(node, record, 0).into_bytes(),
        version: inputs::in_order(record),
        status: SET,
        start: 0,
    };
    let nodes: Vec<Node> = (0..NODES)
        .map(|number| {
            let mut held: Vec<Record> = records.iter().map(|&at| record(number, at)).collect();
            held.sort_by(|one, other| one.key.cmp(&other.key));
            Node { number, heartbeat: 1 + number, max: held.iter().map(|record| record.version).max().unwrap_or(0), last_gc: 0, records: held }
        })
        .collect();
    table::encode_as(&nodes, table::PLAIN, profile, &[])
}

fn readings(records: &[usize], turns: usize) -> Vec<Reading> {
    let one = |(node, record)| Reading {
        name: timed::name(node),
        number: node,
        key: key(node, record),
        values: (0..turns).map(|turn| value(node, record, turn)).collect(),
    };
    inputs::each(records).into_iter().map(one).collect()
}

fn set_all(original: &mut Timed, keys: &[Reading], turn: usize) -> f64 {
    crate::time(keys.len(), || {
        for reading in keys {
            original.set(&reading.name, black_box(&reading.key), black_box(&reading.values[turn]));
        }
    })
}

fn write_all(port: &mut Port, keys: &[Reading], turn: usize) -> f64 {
    crate::time(keys.len(), || {
        for reading in keys {
            black_box(port.set(reading.number, black_box(&reading.key), black_box(&reading.values[turn])));
        }
    })
}

/// Writes of these records, each turn with greater numbers.
fn written(rows: &mut Rows, name: &'static str, profile: u8, records: &[usize]) {
    let keys = readings(records, crate::ROUNDS + 1);
    let before = table(profile, &inputs::all());
    let (mut original, mut port) = (Timed::of(&before), Port::of(&before, true));
    let (mut turn, mut other) = (0, 0);
    rows.measure(
        name,
        "",
        OWNED,
        || {
            turn += 1;
            set_all(&mut original, &keys, turn)
        },
        || {
            other += 1;
            write_all(&mut port, &keys, other)
        },
    );
    assert_eq!(original.table(), port.bytes(), "{name}: the tables differ");
    assert!(keys.iter().all(|reading| port.holds(reading.number, &reading.key, reading.values[crate::ROUNDS].as_bytes())), "{name}: all were written");
}

/// Writes of keys that a half full table lacks.
fn new_keys(rows: &mut Rows, name: &'static str, profile: u8) {
    let keys = readings(&inputs::others(), 1);
    let before = table(profile, &inputs::half());
    let (mut original, mut port) = (Timed::of(&before), Port::of(&before, true));
    rows.measure(
        name,
        "",
        OWNED,
        || {
            original = Timed::of(&before);
            set_all(&mut original, &keys, 0)
        },
        || {
            port = Port::of(&before, true);
            write_all(&mut port, &keys, 0)
        },
    );
    assert_eq!(original.table(), port.bytes(), "{name}: the tables differ");
}

/// The check of a full table, beside that of the free one.
fn check(rows: &mut Rows) {
    let [free, meter] = [FREE, METER].map(|profile| table(profile, &inputs::all()));
    let checked = |table: &[u8]| {
        repeat(8, || {
            assert!(black_box(port::check(black_box(table))));
        })
    };
    rows.measure("the check, full meter table", " (beside the port's of the same as a free one)", Aim::None, || checked(&free), || checked(&meter));
}

pub(crate) fn rows(rows: &mut Rows) {
    timed::clock(NOW);
    let all: Vec<usize> = (1..RECORDS).collect();
    for (profile, changed, total, new, taken, rejected) in [
        (
            FREE,
            "readings set, changed, owned table",
            "a total set, changed, owned table",
            "readings set, new keys, owned table",
            "apply all readings to a fresh table, owned table",
            "apply all readings, all rejected, owned table",
        ),
        (
            METER,
            "readings set, changed, owned meter table",
            "a total set, changed, owned meter table",
            "readings set, new keys, owned meter table",
            "apply all readings to a fresh table, owned meter table",
            "apply all readings, all rejected, owned meter table",
        ),
    ] {
        written(rows, changed, profile, &all);
        written(rows, total, profile, &[0]);
        new_keys(rows, new, profile);
        let (full, fresh) = (table(profile, &inputs::all()), table(profile, &[]));
        let (delta, _) = delta_of(&full);
        applying(rows, taken, &fresh, &delta, Answer::Apply, true, OWNED);
        applying(rows, rejected, &full, &delta, Answer::Reject, true, OWNED);
    }
    check(rows);
}
