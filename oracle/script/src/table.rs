//! The lent table as bytes. All numbers little-endian, every unused byte zero.

/// The sizes of document 01.
pub const NODES: usize = 8;
pub const RECORDS: usize = 32;
pub const KEY: usize = 32;
pub const VALUE: usize = 64;

/// Widths in bytes. A record: key length, key, value length, value, version, status, start.
pub const RECORD_BYTES: usize = 1 + KEY + 1 + VALUE + 8 + 1 + 8;
/// A node: number, heartbeat, max, last_gc, count of records, records.
pub const NODE_HEAD_BYTES: usize = 8 + 8 + 8 + 8 + 1;
pub const NODE_BYTES: usize = NODE_HEAD_BYTES + RECORDS * RECORD_BYTES;
/// A table's area: count of nodes, nodes.
pub const AREA_BYTES: usize = 1 + NODES * NODE_BYTES;
/// The tail behind it: mode, profile, count of removed nodes, room for them (number, heartbeat), the longest remembered first.
pub const REMOVED: usize = 16;
pub const REMOVED_BYTES: usize = 8 + 8;
pub const TAIL_BYTES: usize = 1 + 1 + 1 + REMOVED * REMOVED_BYTES;
pub const TABLE_BYTES: usize = AREA_BYTES + TAIL_BYTES;

/// The modes of a table.
pub const PLAIN: u8 = 0;
pub const FENCED: u8 = 1;
pub const GUARDED: u8 = 2;

/// Its profiles (document 02, tickets 8 and 9).
pub const FREE: u8 = 0;
pub const METER: u8 = 1;
pub const SHARED: u8 = 2;

/// Who calls, where a table is shared (ticket 9): any other number is nobody.
pub const METERING: u64 = 1;
pub const BUILDING: u64 = 2;

/// Whether the key is the party's own.
pub fn owns(party: u64, key: &[u8]) -> bool {
    match party {
        METERING => key.starts_with(b"m/"),
        BUILDING => key.starts_with(b"b/"),
        _ => false,
    }
}

/// Status bytes, in the table and in a delta.
pub const SET: u8 = 0;
pub const DELETE: u8 = 1;
pub const TTL: u8 = 2;

#[derive(Clone, Debug, PartialEq, Eq)]
pub struct Record {
    pub key: Vec<u8>,
    pub value: Vec<u8>,
    pub version: u64,
    pub status: u8,
    pub start: u64,
}

#[derive(Clone, Debug, PartialEq, Eq)]
pub struct Node {
    pub number: u64,
    pub heartbeat: u64,
    pub max: u64,
    pub last_gc: u64,
    pub records: Vec<Record>,
}

/// A removed node and its last heartbeat.
pub type Removed = (u64, u64);

/// The bytes of a table that is within the sizes and remembers nothing.
pub fn encode(nodes: &[Node], mode: u8) -> Vec<u8> {
    encode_with(nodes, mode, &[])
}

/// Those of a free table.
pub fn encode_with(nodes: &[Node], mode: u8, removed: &[Removed]) -> Vec<u8> {
    encode_as(nodes, mode, FREE, removed)
}

/// Nodes, records and removed nodes stand in the order given.
pub fn encode_as(nodes: &[Node], mode: u8, profile: u8, removed: &[Removed]) -> Vec<u8> {
    assert!(nodes.len() <= NODES && removed.len() <= REMOVED);
    let mut bytes = Vec::with_capacity(TABLE_BYTES);
    bytes.push(nodes.len() as u8);
    for node in nodes {
        encode_node(node, &mut bytes);
    }
    bytes.resize(AREA_BYTES, 0);
    bytes.extend([mode, profile, removed.len() as u8]);
    for (number, heartbeat) in removed {
        bytes.extend(number.to_le_bytes());
        bytes.extend(heartbeat.to_le_bytes());
    }
    bytes.resize(TABLE_BYTES, 0);
    bytes
}

fn encode_node(node: &Node, bytes: &mut Vec<u8>) {
    assert!(node.records.len() <= RECORDS);
    let start = bytes.len();
    for number in [node.number, node.heartbeat, node.max, node.last_gc] {
        bytes.extend(number.to_le_bytes());
    }
    bytes.push(node.records.len() as u8);
    for record in &node.records {
        encode_text(&record.key, KEY, bytes);
        encode_text(&record.value, VALUE, bytes);
        bytes.extend(record.version.to_le_bytes());
        bytes.push(record.status);
        bytes.extend(record.start.to_le_bytes());
    }
    bytes.resize(start + NODE_BYTES, 0);
}

fn encode_text(text: &[u8], width: usize, bytes: &mut Vec<u8>) {
    assert!(text.len() <= width);
    bytes.push(text.len() as u8);
    bytes.extend(text);
    bytes.resize(bytes.len() + width - text.len(), 0);
}

const CHECKSUM_BASE: u64 = 31;
const CHECKSUM_MODULUS: u64 = 4_294_967_291;

/// h = 0; for each byte b: h = (h * 31 + b) mod 4294967291.
pub fn checksum(bytes: &[u8]) -> u64 {
    // A stretch of zeros is one multiplication; most of a table is zeros.
    const STRETCH: usize = RECORD_BYTES;
    let mut over_stretch = 1;
    for _ in 0..STRETCH {
        over_stretch = over_stretch * CHECKSUM_BASE % CHECKSUM_MODULUS;
    }
    let mut h = 0;
    for part in bytes.chunks(STRETCH) {
        if part == [0; STRETCH] {
            h = h * over_stretch % CHECKSUM_MODULUS;
        } else {
            for &byte in part {
                h = (h * CHECKSUM_BASE + u64::from(byte)) % CHECKSUM_MODULUS;
            }
        }
    }
    h
}

#[cfg(test)]
mod tests {
    use super::*;

    #[test]
    fn sizes_are_those_agreed() {
        assert_eq!((RECORD_BYTES, NODE_BYTES, AREA_BYTES, TABLE_BYTES), (115, 3_713, 29_705, 29_964));
    }

    #[test]
    fn checksum_is_the_byte_by_byte_one() {
        let slow =
            |bytes: &[u8]| bytes.iter().fold(0, |h, &byte| (h * CHECKSUM_BASE + u64::from(byte)) % CHECKSUM_MODULUS);
        let mut bytes = vec![0u8; 1_000];
        for (place, value) in [(0, 3u8), (114, 255), (115, 1), (700, 9), (999, 77)] {
            bytes[place] = value;
            assert_eq!(checksum(&bytes), slow(&bytes));
        }
        assert_eq!(checksum(&[1, 2]), 33);
    }

    #[test]
    fn one_record_is_encoded_where_the_widths_say() {
        let record = Record { key: b"k".to_vec(), value: b"vw".to_vec(), version: 258, status: TTL, start: 7 };
        let node = Node { number: 1, heartbeat: 2, max: 258, last_gc: 4, records: vec![record] };
        let bytes = encode(&[node], FENCED);
        assert_eq!(bytes.len(), TABLE_BYTES);
        assert_eq!(bytes[AREA_BYTES], 1);
        assert_eq!((bytes[0], bytes[1], bytes[9], bytes[25], bytes[33]), (1, 1, 2, 4, 1));
        let at = 1 + NODE_HEAD_BYTES;
        assert_eq!(&bytes[at..at + 2], &[1, b'k']);
        assert_eq!(&bytes[at + 33..at + 36], &[2, b'v', b'w']);
        assert_eq!(&bytes[at + 98..at + 100], &[2, 1]);
        assert_eq!(&bytes[at + 106..at + 108], &[TTL, 7]);
        assert!(bytes[at + 115..AREA_BYTES].iter().all(|&byte| byte == 0));
        assert!(bytes[AREA_BYTES + 1..].iter().all(|&byte| byte == 0));
    }
}
