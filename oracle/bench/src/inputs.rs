//! What is measured on: the table of 8 nodes of 32 records, the same half full, an empty one, one with fresh nodes.

use script::table::{self, Node, Record, SET};

pub const NODES: u64 = 8;
pub const RECORDS: usize = 32;

pub fn key(node: u64, record: usize) -> String {
    format!("key-{node:02}-{record:02}-{:06}", record * 7919 % 1_000_000)
}

/// Digits, 16 to 64 of them; `turn` is the first, so that values of two turns differ in it alone.
pub fn value(node: u64, record: usize, turn: usize) -> String {
    let len = 16 + (RECORDS * node as usize + record) * 37 % 49;
    (0..len).map(|place| char::from(b'0' + ((place + turn * usize::from(place == 0)) % 10) as u8)).collect()
}

/// The bytes of a table with these records in each of its 8 nodes. `version` gives each record's from its number.
pub fn table(records: &[usize], version: impl Fn(usize) -> u64) -> Vec<u8> {
    let nodes: Vec<Node> = (0..NODES)
        .map(|node| Node {
            number: node,
            heartbeat: 1 + node,
            max: records.iter().map(|&record| version(record)).max().unwrap_or(0),
            last_gc: 0,
            records: records
                .iter()
                .map(|&record| Record {
                    key: key(node, record).into_bytes(),
                    value: value(node, record, 0).into_bytes(),
                    version: version(record),
                    status: SET,
                    start: 0,
                })
                .collect(),
        })
        .collect();
    table::encode(&nodes, table::PLAIN)
}

/// The records were set in the order of their keys.
pub fn in_order(record: usize) -> u64 {
    1 + record as u64
}

/// The records were set in no order of their keys.
pub fn scattered(record: usize) -> u64 {
    1 + (record as u64 * 13 + 5) % RECORDS as u64
}

pub fn full() -> Vec<u8> {
    table(&all(), in_order)
}

pub fn all() -> Vec<usize> {
    (0..RECORDS).collect()
}

/// Every second record, and those left out.
pub fn half() -> Vec<usize> {
    (0..RECORDS).step_by(2).collect()
}

pub fn others() -> Vec<usize> {
    (1..RECORDS).step_by(2).collect()
}

pub fn empty() -> Vec<u8> {
    table::encode(&[], table::PLAIN)
}

/// The same table where removals have gone up to this version in each node.
pub fn with_last_gc(table: &[u8], last_gc: u64) -> Vec<u8> {
    let mut table = table.to_vec();
    for node in table[1..table::AREA_BYTES].chunks_mut(table::NODE_BYTES) {
        node[24..32].copy_from_slice(&last_gc.to_le_bytes());
    }
    table
}

/// Each node and record once, in an order without a pattern.
pub fn each(records: &[usize]) -> Vec<(u64, usize)> {
    let count = NODES as usize * records.len();
    (0..count).map(|i| i * 89 % count).map(|i| ((i / records.len()) as u64, records[i % records.len()])).collect()
}
