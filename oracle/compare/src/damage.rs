//! Damaged copies of good bytes. Texts stay valid UTF-8, because the original can be asked about nothing else; beyond it they need not.

use script::table::{
    self, AREA_BYTES, KEY, NODE_BYTES, NODE_HEAD_BYTES, Node, RECORD_BYTES, REMOVED, REMOVED_BYTES, Record, Removed, TABLE_BYTES, VALUE,
};

use crate::random::Random;

/// The bytes changed in one place: cut, a byte changed, put in or taken out, or something behind them.
fn damage(random: &mut Random, bytes: &[u8]) -> Vec<u8> {
    let mut bytes = bytes.to_vec();
    if bytes.is_empty() {
        bytes.push(random.below(4) as u8);
        return bytes;
    }
    let place = random.place(bytes.len());
    match random.below(7) {
        0 => bytes.truncate(place),
        1 => bytes[place] ^= 1 << random.below(8),
        2 => bytes[place] = *random.pick(&[0, 1, 2, 3, 32, 33, 64, 65, 255]),
        3 => bytes.insert(place, *random.pick(&[0, 1, 2, 3, 255])),
        4 => {
            bytes.remove(place);
        }
        5 => bytes.push(*random.pick(&[0, 1, 2, 3, 255])),
        _ => bytes[place] = bytes[place].wrapping_add(1),
    }
    bytes
}

pub fn digest(random: &mut Random, bytes: &[u8]) -> Vec<u8> {
    damage(random, bytes)
}

pub fn delta(random: &mut Random, bytes: &[u8]) -> Vec<u8> {
    loop {
        let damaged = damage(random, bytes);
        if random.beyond || texts_are_utf8(&damaged) {
            return damaged;
        }
    }
}

/// Whether each text that a reader could meet in the delta is UTF-8. Reads no further than a reader could.
pub fn texts_are_utf8(mut bytes: &[u8]) -> bool {
    while let Some((&tag, rest)) = bytes.split_first() {
        let fixed = match tag {
            0 => 24,
            1 => 9,
            2 => 8,
            _ => return true,
        };
        bytes = rest;
        for limit in if tag == 1 { [KEY, VALUE].iter() } else { [].iter() } {
            let Some((len, rest)) = bytes.split_first_chunk() else { return true };
            let len = usize::from(u16::from_le_bytes(*len));
            let Some((text, rest)) = rest.split_at_checked(len) else { return true };
            if len > *limit {
                return true;
            }
            if std::str::from_utf8(text).is_err() {
                return false;
            }
            bytes = rest;
        }
        let Some((_, rest)) = bytes.split_at_checked(fixed) else { return true };
        bytes = rest;
    }
    true
}

/// Table bytes that break one of document 01's rules, of the profile's or of the layout.
pub fn table(random: &mut Random, nodes: &[Node], profile: u8) -> Vec<u8> {
    loop {
        if let Some(bytes) = break_table(random, nodes, profile) {
            return bytes;
        }
    }
}

/// None where the table has nothing that could be broken in the way that chance asked for.
fn break_table(random: &mut Random, nodes: &[Node], profile: u8) -> Option<Vec<u8>> {
    let mut nodes = nodes.to_vec();
    let mode = random.below(3) as u8;
    let at = if nodes.is_empty() { 0 } else { random.place(nodes.len()) };
    let record_at = nodes.get(at).map_or(0, |node| random.place(node.records.len().max(1)));
    let node_start = 1 + at * NODE_BYTES;
    let record_start = node_start + NODE_HEAD_BYTES + record_at * RECORD_BYTES;
    let encode_with = |nodes: &[Node], removed: &[Removed]| table::encode_as(nodes, mode, profile, removed);
    let encode = |nodes: &[Node]| encode_with(nodes, &[]);
    let set = |nodes: &[Node], place: usize, byte: u8| {
        let mut bytes = encode(nodes);
        bytes[place] = byte;
        bytes
    };
    match random.below(25) {
        0 => Some(set(&nodes, 0, over(random, 9))),
        1 => nodes.get(at).map(|_| set(&nodes, node_start + NODE_HEAD_BYTES - 1, over(random, 33))),
        2 => has_record(&nodes, at).then(|| set(&nodes, record_start, over(random, 33))),
        3 => has_record(&nodes, at).then(|| set(&nodes, record_start + 1 + KEY, over(random, 65))),
        4 => has_record(&nodes, at).then(|| set(&nodes, record_start + RECORD_BYTES - 9, over(random, 3))),
        5 => {
            nodes.get_mut(at)?.records.get_mut(record_at)?.version = 0;
            Some(encode(&nodes))
        }
        6 => {
            let max = nodes.get(at)?.max.checked_add(1)?;
            nodes[at].records.get_mut(record_at)?.version = max;
            Some(encode(&nodes))
        }
        7 => {
            let other = nodes.get(at)?.records.iter().map(|record| record.version).next()?;
            nodes[at].records.last_mut()?.version = other;
            (nodes[at].records.len() > 1).then(|| encode(&nodes))
        }
        8 => {
            let records = &mut nodes.get_mut(at)?.records;
            (records.len() > 1).then(|| records.swap(0, 1))?;
            Some(encode(&nodes))
        }
        9 => {
            let records = &mut nodes.get_mut(at)?.records;
            (records.len() > 1).then(|| records[1].key = records[0].key.clone())?;
            Some(encode(&nodes))
        }
        10 => (nodes.len() > 1).then(|| {
            nodes.swap(0, 1);
            encode(&nodes)
        }),
        11 => (nodes.len() > 1).then(|| {
            nodes[1].number = nodes[0].number;
            encode(&nodes)
        }),
        12 => {
            let mut bytes = encode(&nodes);
            let used = 1 + nodes.len() * NODE_BYTES;
            soil(random, bytes.get_mut(used..AREA_BYTES)?)?;
            Some(bytes)
        }
        13 => {
            let mut bytes = encode(&nodes);
            let records = nodes.get(at)?.records.len();
            let used = node_start + NODE_HEAD_BYTES + records * RECORD_BYTES;
            soil(random, &mut bytes[used..node_start + NODE_BYTES])?;
            Some(bytes)
        }
        14 => {
            let record = nodes.get(at)?.records.get(record_at)?;
            let (key, value) = (record.key.len(), record.value.len());
            let place = if random.once_in(2) && key < KEY {
                record_start + 1 + key + random.place(KEY - key)
            } else if value < VALUE {
                record_start + 1 + KEY + 1 + value + random.place(VALUE - value)
            } else {
                return None;
            };
            Some(set(&nodes, place, random.within(1, 255) as u8))
        }
        15 => Some(set(&nodes, AREA_BYTES, over(random, 2))),
        16 => {
            let mut bytes = encode(&nodes);
            bytes[AREA_BYTES + 1] = random.below(2) as u8;
            soil(random, &mut bytes[AREA_BYTES + 3..])?;
            Some(bytes)
        }
        17 => Some(set(&nodes, AREA_BYTES + 1, over(random, table::SHARED as u64 + 1))),
        18 => Some(set(&nodes, AREA_BYTES + 2, over(random, REMOVED as u64 + 1))),
        19 => {
            let mut removed = removed(random, &nodes);
            let (one, other) = (random.place(removed.len().max(1)), random.place(removed.len().max(1)));
            let number = removed.get(one)?.0;
            removed[other].0 = number;
            (one != other).then(|| encode_with(&nodes, &removed))
        }
        20 => {
            let mut removed = removed(random, &nodes);
            let place = random.place(removed.len().max(1));
            removed.get_mut(place)?.0 = nodes.get(at)?.number;
            Some(encode_with(&nodes, &removed))
        }
        21 => {
            let removed = removed(random, &nodes);
            let mut bytes = encode_with(&nodes, &removed);
            soil(random, &mut bytes[AREA_BYTES + 3 + removed.len() * REMOVED_BYTES..])?;
            Some(bytes)
        }
        22 if profile == table::SHARED => {
            let record = nodes.get_mut(at)?.records.get_mut(record_at)?;
            record.key[random.below(2) as usize] = *random.pick(b"a0.c");
            nodes[at].records.sort_by(|one, other| one.key.cmp(&other.key));
            Some(encode(&nodes))
        }
        23 if profile == table::SHARED => {
            let node = nodes.get_mut(at)?;
            let max = node.max.checked_add(17)?;
            let firm = *random.pick(&["m/", "b/"]);
            node.records = (0..17).map(|i| Record { key: format!("{firm}{i:02}").into_bytes(), value: Vec::new(), version: max - i, status: table::SET, start: 0 }).collect();
            node.max = max;
            Some(encode(&nodes))
        }
        22 | 23 if profile == table::METER => {
            let record = nodes.get_mut(at)?.records.get_mut(record_at)?;
            out_of_form(random, record);
            Some(encode(&nodes))
        }
        _ => {
            let mut bytes = encode(&nodes);
            bytes.resize(*random.pick(&[0, 1, AREA_BYTES, TABLE_BYTES - 1, TABLE_BYTES + 1]), 0);
            Some(bytes)
        }
    }
}

/// A record of a meter table, no longer in its form.
fn out_of_form(random: &mut Random, record: &mut Record) {
    match random.below(5) {
        0 => record.key.clear(),
        1 => *record.key.last_mut().expect("a key in form") = *random.pick(b"A/:`{ "),
        2 => record.value = b"00000000001".to_vec(),
        3 => record.value = vec![*random.pick(b"a/:. -")],
        _ => {
            record.value.clear();
            (record.status, record.start) = (table::SET, 0);
        }
    }
}

/// Some removed nodes beside these, all different.
pub fn removed(random: &mut Random, nodes: &[Node]) -> Vec<Removed> {
    let most = *random.pick(&[1, 2, 3, REMOVED]);
    let free = (1..).filter(|number| nodes.iter().all(|node| node.number != *number));
    free.take(most).map(|number| (number, random.below(9))).collect()
}

/// A byte that is too large: often by one.
fn over(random: &mut Random, least: u64) -> u8 {
    (if random.once_in(2) { least } else { random.within(least, 255) }) as u8
}

/// One byte of what should be zero, or the same one twice.
fn soil(random: &mut Random, unused: &mut [u8]) -> Option<()> {
    let dirt = random.within(1, 255) as u8;
    for _ in 0..random.within(1, 2) {
        let place = (!unused.is_empty()).then(|| random.place(unused.len()))?;
        unused[place] = dirt;
    }
    Some(())
}

fn has_record(nodes: &[Node], at: usize) -> bool {
    nodes.get(at).is_some_and(|node| !node.records.is_empty())
}
