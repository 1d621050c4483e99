//! What scripts are made of: texts and numbers around each boundary, operations and digests as bytes.

use crate::random::Random;

const LAST: u64 = u64::MAX;

/// Valid UTF-8 of exactly `len` bytes, often with characters of several bytes, also as the first one. Beyond that, any bytes.
pub fn text(random: &mut Random, len: usize) -> Vec<u8> {
    if random.beyond && random.once_in(2) {
        return (0..len).map(|_| *random.pick(&[0, 97, 127, 128, 195, 254, 255])).collect();
    }
    const CHARACTERS: [&str; 9] = ["a", "b", "z", "\0", " ", "é", "ß", "日", "\u{10FFFF}"];
    let mut text = String::new();
    while text.len() < len {
        let next = *random.pick(&CHARACTERS);
        text.push_str(if text.len() + next.len() <= len { next } else { "a" });
    }
    text.into_bytes()
}

/// Keys that begin with one another, keys of several bytes a character, keys at the size.
pub fn key(random: &mut Random) -> Vec<u8> {
    const SHORT: [&str; 12] = ["", "a", "ab", "abc", "b", "\0", "a\0", "é", "éa", "日", "~", "\u{10FFFF}"];
    match random.below(12) {
        0 => text(random, 31),
        1 => text(random, 32),
        2 => vec![b'k'; 32],
        3 => text(random, 2),
        _ => random.pick(&SHORT).as_bytes().to_vec(),
    }
}

pub fn value(random: &mut Random) -> Vec<u8> {
    match random.below(10) {
        0 => text(random, 63),
        1 => text(random, 64),
        2 => text(random, 5),
        3 | 4 => Vec::new(),
        _ => random.pick(&["1", "2", "é", "41"]).as_bytes().to_vec(),
    }
}

/// What keys of a meter table are made of.
const NAMES: &[u8] = b"abz059.";

/// A key of a meter table, of exactly `len` bytes.
pub fn name(random: &mut Random, len: usize) -> Vec<u8> {
    (0..len).map(|_| *random.pick(NAMES)).collect()
}

/// Its value, of exactly `len` digits.
pub fn digits(random: &mut Random, len: usize) -> Vec<u8> {
    (0..len).map(|_| *random.pick(b"0019")).collect()
}

/// Whether a meter table may have such a key. Only to aim.
pub fn is_name(key: &[u8]) -> bool {
    !key.is_empty() && key.iter().all(|byte| byte.is_ascii_lowercase() || byte.is_ascii_digit() || *byte == b'.')
}

/// A key for a meter table: `total` above all, now and then one out of form.
pub fn meter_key(random: &mut Random) -> Vec<u8> {
    const ODD: [&str; 10] = ["", "A", "Total", "a/b", "a b", "a`", "a{", "-", "é", "total\0"];
    match random.below(12) {
        0 => random.pick(&ODD).as_bytes().to_vec(),
        1 => name(random, 32),
        2 | 3 => name(random, 3),
        4..=8 => b"total".to_vec(),
        _ => random.pick(&["a", "0", ".", "tota", "total.", "total0"]).as_bytes().to_vec(),
    }
}

/// A value for a meter table: small numbers with zeros before them, the longest ones, now and then one out of form.
pub fn meter_value(random: &mut Random) -> Vec<u8> {
    const ODD: [&str; 9] = ["x", "1.5", "-1", "+1", " 1", "1 ", "0x1", "٣", "12345678901"];
    match random.below(10) {
        0 => random.pick(&ODD).as_bytes().to_vec(),
        1 => digits(random, 10),
        2 => Vec::new(),
        3 => random.pick(&["9999999999", "0000000000", "999999999", "4294967296"]).as_bytes().to_vec(),
        _ => random.pick(&["0", "00", "7", "007", "8", "9", "10", "010", "41"]).as_bytes().to_vec(),
    }
}

/// A key of a shared table, of exactly `len` bytes, 2 at least: of the one firm or of the other.
pub fn firms_name(random: &mut Random, len: usize) -> Vec<u8> {
    let mut key = random.pick(&["m/", "b/"]).as_bytes().to_vec();
    key.extend(text(random, len - 2));
    key
}

/// Whether a shared table may have such a key. Only to aim.
pub fn is_firms(key: &[u8]) -> bool {
    key.starts_with(b"m/") || key.starts_with(b"b/")
}

/// A key for a shared table: few of each firm, now and then one of neither.
pub fn firms_key(random: &mut Random) -> Vec<u8> {
    const ODD: [&str; 9] = ["", "m", "b", "/", "M/a", "mm/", "a/x", "c/", "m\\x"];
    match random.below(12) {
        0 => random.pick(&ODD).as_bytes().to_vec(),
        1 => firms_name(random, 32),
        2 => firms_name(random, 2),
        _ => random.pick(&["m/a", "m/b", "m/total", "b/a", "b/b", "b/label"]).as_bytes().to_vec(),
    }
}

/// A node's number: small ones, ones whose bytes order otherwise than they do, the last ones.
pub fn node(random: &mut Random) -> u64 {
    *random.pick(&[0, 1, 2, 3, 255, 256, 257, 65_536, 1 << 32, 1 << 63, LAST - 1, LAST, 7, 8, 9, 10])
}

/// A version: small, or near the end.
pub fn version(random: &mut Random) -> u64 {
    match random.below(12) {
        0 => LAST - random.below(3),
        1 => random.next(),
        _ => random.below(12),
    }
}

/// A moment or a grace: small, or near the end.
pub fn moment(random: &mut Random) -> u64 {
    match random.below(15) {
        0 => LAST - random.below(3),
        1 => random.next(),
        _ => random.below(20),
    }
}

pub fn mtu(random: &mut Random) -> u64 {
    match random.below(8) {
        0 => *random.pick(&[0, 99, 16_385, LAST]),
        1 => *random.pick(&[100, 101, 109, 110, 124, 125, 134, 135, 136]),
        2 => *random.pick(&[16_382, 16_383, 16_384]),
        3 => random.within(100, 16_384),
        _ => random.within(100, 400),
    }
}

/// A delta operation in document 01's bytes. Nothing here is checked: scripts want wrong ones too.
#[derive(Clone)]
pub enum Op {
    Node { number: u64, last_gc: u64, from: u64 },
    KeyValue { key: Vec<u8>, value: Vec<u8>, version: u64, status: u8 },
    SetMax { max: u64 },
}

impl Op {
    pub fn write(&self, bytes: &mut Vec<u8>) {
        match self {
            Op::Node { number, last_gc, from } => {
                bytes.push(0);
                for field in [number, last_gc, from] {
                    bytes.extend(field.to_le_bytes());
                }
            }
            Op::KeyValue { key, value, version, status } => {
                bytes.push(1);
                for text in [key, value] {
                    bytes.extend((text.len() as u16).to_le_bytes());
                    bytes.extend(text);
                }
                bytes.extend(version.to_le_bytes());
                bytes.push(*status);
            }
            Op::SetMax { max } => {
                bytes.push(2);
                bytes.extend(max.to_le_bytes());
            }
        }
    }
}

pub fn delta(ops: &[Op]) -> Vec<u8> {
    let mut bytes = Vec::new();
    ops.iter().for_each(|op| op.write(&mut bytes));
    bytes
}

/// A digest in the bytes of an edition: the count, if it has one, then node, heartbeat, last_gc, max.
pub fn digest(edition: u64, entries: &[[u64; 4]]) -> Vec<u8> {
    let mut bytes = Vec::new();
    if edition == 0 {
        bytes.extend((entries.len() as u16).to_le_bytes());
    }
    bytes.extend(entries.iter().flatten().flat_map(|field| field.to_le_bytes()));
    bytes
}
