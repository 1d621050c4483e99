//! What stands in the bytes of a table and of a delta, read after docs/FORMAT.md.

use script::table::{AREA_BYTES, BUILDING, DELETE, KEY, METER, METERING, NODE_BYTES, NODE_HEAD_BYTES, RECORD_BYTES, SET, SHARED, VALUE, owns};

fn number(bytes: &[u8], at: usize) -> u64 {
    u64::from_le_bytes(bytes[at..at + 8].try_into().expect("eight bytes"))
}

#[derive(Clone, Copy, PartialEq, Eq, PartialOrd, Ord)]
pub struct Pair {
    pub last_gc: u64,
    pub max: u64,
}

#[derive(PartialEq, Eq)]
pub struct Record<'a> {
    pub key: &'a [u8],
    pub value: &'a [u8],
    pub version: u64,
    pub set: bool,
    pub hidden: bool,
}

impl Record<'_> {
    /// Whether such a table may have it.
    pub fn fits(&self, table: &[u8]) -> bool {
        match profile(table) {
            METER => is_reading(self.key, self.value, self.set),
            SHARED => is_firms(self.key),
            _ => true,
        }
    }
}

/// Keys are 1 to 32 of small letters, digits and dots, values 1 to 10 digits, or empty where the status is not Set.
fn is_reading(key: &[u8], value: &[u8], set: bool) -> bool {
    let name = !key.is_empty() && key.iter().all(|&byte| byte.is_ascii_lowercase() || byte.is_ascii_digit() || byte == b'.');
    name && value.len() <= 10 && value.iter().all(u8::is_ascii_digit) && !(set && value.is_empty())
}

/// Keys are of the one firm or of the other.
fn is_firms(key: &[u8]) -> bool {
    owns(METERING, key) || owns(BUILDING, key)
}

pub fn profile(table: &[u8]) -> u8 {
    table[AREA_BYTES + 1]
}

/// Whether a table has the meter profile.
pub fn is_meter(table: &[u8]) -> bool {
    profile(table) == METER
}

fn slot(table: &[u8], place: usize) -> &[u8] {
    &table[1 + place * NODE_BYTES..][..NODE_BYTES]
}

/// Of the node in this slot.
pub fn pair(table: &[u8], place: usize) -> Pair {
    let slot = slot(table, place);
    Pair { last_gc: number(slot, 24), max: number(slot, 16) }
}

pub fn records(table: &[u8], place: usize) -> impl Iterator<Item = Record<'_>> {
    let slot = slot(table, place);
    (0..usize::from(slot[32])).map(move |at| {
        let record = &slot[NODE_HEAD_BYTES + at * RECORD_BYTES..][..RECORD_BYTES];
        let (key, value) = (usize::from(record[0]), usize::from(record[1 + KEY]));
        let behind = 2 + KEY + VALUE;
        Record {
            key: &record[1..1 + key],
            value: &record[2 + KEY..2 + KEY + value],
            version: number(record, behind),
            set: record[behind + 8] == SET,
            hidden: record[behind + 8] == DELETE,
        }
    })
}

/// The node in this slot becomes a fresh one, as removing and adding it again makes it.
pub fn freshen(table: &mut [u8], place: usize) {
    table[1 + place * NODE_BYTES + 8..1 + (place + 1) * NODE_BYTES].fill(0);
}

/// The node in this slot becomes that of another table.
pub fn copy_node(from: &[u8], table: &mut [u8], place: usize) {
    let slot = 1 + place * NODE_BYTES..1 + (place + 1) * NODE_BYTES;
    table[slot.clone()].copy_from_slice(&from[slot]);
}

/// A digest of the first edition tells the largest number as the max of the node in this place.
pub fn tell_most(digest: &mut [u8], place: usize) {
    digest[2 + 32 * place + 24..2 + 32 * (place + 1)].fill(0xFF);
}

/// A node delta's numbers, and whether a meter table and a shared one would take all its records.
pub struct Part {
    pub number: u64,
    pub last_gc: u64,
    pub from: u64,
    pub max: u64,
    readings: bool,
    firms: bool,
}

impl Part {
    /// Whether such a table takes it.
    pub fn fits(&self, table: &[u8]) -> bool {
        match profile(table) {
            METER => self.readings,
            SHARED => self.firms,
            _ => true,
        }
    }
}

/// The parts of a delta that the port wrote.
pub fn parts(delta: &[u8]) -> Vec<Part> {
    let mut parts: Vec<Part> = Vec::new();
    let mut at = 0;
    while at < delta.len() {
        match delta[at] {
            0 => {
                let [number, last_gc, from] = [1, 9, 17].map(|place| number(delta, at + place));
                parts.push(Part { number, last_gc, from, max: 0, readings: true, firms: true });
                at += 25;
            }
            1 => {
                let len = |at: usize| usize::from(delta[at]) + 256 * usize::from(delta[at + 1]);
                let text = |at: usize| &delta[at + 2..at + 2 + len(at)];
                let (key, value) = (text(at + 1), text(at + 3 + len(at + 1)));
                at += 3 + key.len() + 2 + value.len();
                let part = parts.last_mut().expect("a Node first");
                part.max = number(delta, at);
                part.readings &= is_reading(key, value, delta[at + 8] == SET);
                part.firms &= is_firms(key);
                at += 9;
            }
            _ => {
                parts.last_mut().expect("a Node first").max = number(delta, at + 1);
                at += 9;
            }
        }
    }
    parts
}
