//! Sweeps over the meter profile (document 02, ticket 8): each form at each of its boundaries, in each place that asks for it.

use script::hex;
use script::table::{self, DELETE, METER, Node, RECORDS, Record, SET, TTL};

use crate::pieces::{Op, delta};

const TOP: u64 = u64::MAX;

/// An empty meter table with node 1, in each mode in its turn.
fn made(turn: usize) -> [String; 2] {
    [format!("kind {} {METER}", turn % 3), "add 1".into()]
}

fn write(key: &[u8], value: &[u8], status: u8) -> String {
    format!("write 1 {} {} {status} 9", hex(key), hex(value))
}

fn node(number: u64, last_gc: u64, from: u64) -> Op {
    Op::Node { number, last_gc, from }
}

fn record(key: &[u8], value: &[u8], version: u64, status: u8) -> Op {
    Op::KeyValue { key: key.to_vec(), value: value.to_vec(), version, status }
}

fn apply(ops: &[Op]) -> String {
    format!("apply {} 5 8", hex(&delta(ops)))
}

/// A table that has this record alone, by its bytes, and whether it is one.
fn holding(key: &[u8], value: &[u8], status: u8) -> [String; 2] {
    let record = Record { key: key.to_vec(), value: value.to_vec(), version: 1, status, start: if status == SET { 0 } else { 3 } };
    let node = Node { number: 1, heartbeat: 0, max: 1, last_gc: 0, records: vec![record] };
    [format!("table {}", hex(&table::encode_as(&[node], table::PLAIN, METER, &[]))), "beat 1".into()]
}

/// One key and value in every call that asks for their form, and in every one that does not.
fn everywhere(turn: usize, key: &[u8], value: &[u8]) -> Vec<String> {
    let mut lines = made(turn).to_vec();
    let text = hex(key);
    lines.extend([format!("delete 1 {text} 9"), format!("deletettl 1 {text} 9"), format!("get 1 {text}"), format!("list 1 {text} 9")]);
    for status in [SET, TTL] {
        lines.push(write(key, value, status));
    }
    lines.extend([format!("get 1 {text}"), format!("deletettl 1 {text} 9"), format!("delete 1 {text} 9")]);
    for status in [SET, DELETE, TTL] {
        lines.push(apply(&[node(1, 0, 0), record(key, value, 7 + u64::from(status), status)]));
    }
    lines
}

/// Each character as a whole key and at both ends of one; keys of each length.
pub fn keys() -> Vec<String> {
    let mut lines = Vec::new();
    for letter in (0..=0x80).chain([0xaa, 0xe9, 0xff, 0x6f3, 0x2024, 0xff10, 0xff41, 0x10ffff]) {
        let letter = char::from_u32(letter).expect("a character");
        for (turn, key) in [format!("{letter}"), format!("a{letter}"), format!("{letter}0")].iter().enumerate() {
            lines.extend(everywhere(turn, key.as_bytes(), b"7"));
        }
    }
    for len in 0..=34 {
        lines.extend(everywhere(len, &vec![b'k'; len], b"7"));
    }
    lines.extend((0..=127).flat_map(|letter| holding(&[letter], b"7", SET)));
    lines.extend([0, 1, 31, 32].into_iter().flat_map(|len| holding(&vec![b'k'; len], b"7", TTL)));
    lines
}

/// Each character as a whole value and at both ends of one; digits in each number.
pub fn values() -> Vec<String> {
    let mut lines = Vec::new();
    for digit in (0..=0x80).chain([0xb2, 0xbd, 0x663, 0xff11, 0x10ffff]) {
        let digit = char::from_u32(digit).expect("a character");
        for (turn, value) in [format!("{digit}"), format!("1{digit}"), format!("{digit}2")].iter().enumerate() {
            lines.extend(everywhere(turn, b"k", value.as_bytes()));
        }
    }
    for len in (0..=13).chain(62..=65) {
        for digit in [b'0', b'9'] {
            lines.extend(everywhere(len, b"total", &vec![digit; len]));
        }
    }
    lines.extend((0..=127).flat_map(|digit| holding(b"k", &[digit], SET)));
    for (len, status) in [0, 1, 9, 10, 11, 64].into_iter().flat_map(|len| [SET, DELETE, TTL].map(|status| (len, status))) {
        lines.extend(holding(b"total", &vec![b'0'; len], status));
    }
    lines
}

/// What is done to a record before the next write: nothing, the deletes, both, a removal.
const BETWEEN: [&[&str]; 6] = [
    &[],
    &["delete 1 x746f74616c 9"],
    &["deletettl 1 x746f74616c 9"],
    &["delete 1 x746f74616c 9", "deletettl 1 x746f74616c 9"],
    &["deletettl 1 x746f74616c 9", "delete 1 x746f74616c 9"],
    &["deletettl 1 x746f74616c 9", "gc 20 5"],
];

/// Each number over each other one at `total`, under each status, after each of the deletes; the same with the last version.
pub fn totals() -> Vec<String> {
    const NUMBERS: [&str; 15] =
        ["", "0", "00", "1", "7", "007", "8", "9", "10", "010", "99", "100", "999999999", "0999999999", "9999999999"];
    let mut lines = Vec::new();
    for (turn, held) in NUMBERS.into_iter().enumerate() {
        for (status, between) in [SET, TTL].into_iter().flat_map(|status| BETWEEN.map(|between| (status, between))) {
            for value in NUMBERS {
                lines.extend(made(turn));
                lines.push(write(b"total", held.as_bytes(), status));
                lines.extend(between.iter().map(|line| line.to_string()));
                lines.push(write(b"total", value.as_bytes(), if value.len() % 2 == 0 { SET } else { TTL }));
                lines.push("get 1 x746f74616c".into());
            }
        }
        for (status, value) in [SET, DELETE, TTL].into_iter().flat_map(|status| NUMBERS.map(|value| (status, value))) {
            lines.extend(made(turn));
            lines.push(apply(&[node(1, 0, 0), record(b"total", held.as_bytes(), 1, status), Op::SetMax { max: TOP }]));
            lines.extend([SET, TTL].map(|status| write(b"total", value.as_bytes(), status)));
        }
        for key in ["tota", "totals", "total.", "total0", "otal", "0total", "t"] {
            lines.extend(made(turn));
            lines.extend(["9", "8"].map(|value| write(key.as_bytes(), value.as_bytes(), SET)));
        }
    }
    lines
}

/// Every choice of the things that a write can be refused for: which one is told?
pub fn writes() -> Vec<String> {
    let mut lines = Vec::new();
    let full = |held: bool, max: u64| {
        let key = |place: usize| if held && place == RECORDS - 1 { b"total".to_vec() } else { format!("k{place:02}").into_bytes() };
        let records = (0..RECORDS).map(|place| Record { key: key(place), value: b"5".to_vec(), version: 1 + place as u64, status: SET, start: 0 });
        let node = Node { number: 1, heartbeat: 0, max, last_gc: 0, records: records.collect() };
        format!("table {}", hex(&table::encode_as(&[node], table::GUARDED, METER, &[])))
    };
    for before in ["table x".to_string(), format!("kind 0 {METER}"), full(true, 40), full(false, 40), full(true, TOP), full(false, TOP)] {
        lines.push(before);
        for (status, key) in [0, 1, 2].into_iter().flat_map(|status| ["total", "n", "k00", "N", ""].map(|key| (status, key.as_bytes()))) {
            for value in ["4", "5", "6", "", "x", "12345678901"] {
                lines.push(write(key, value.as_bytes(), status));
            }
            lines.extend([write(key, &[b'1'; 65], status), write(&[b'N'; 33], b"4", status)]);
        }
    }
    lines
}

/// A record out of form beside every other fault of a stream, before it and behind it, cut at each place; and where no fault is told without it.
pub fn streams() -> Vec<String> {
    let odd = record(b"A", b"1", 2, SET);
    let good = [node(1, 0, 0), record(b"a", b"1", 1, SET)];
    let mut faults: Vec<Vec<u8>> = [
        record(b"b", b"2", 1, SET),
        record(b"b", b"2", 9, 3),
        record(&[b'k'; 33], b"2", 9, SET),
        record(b"b", &[b'1'; 65], 9, SET),
        node(1, 0, 0),
        Op::SetMax { max: 0 },
        odd.clone(),
        record(b"b", b"2", 9, TTL),
        Op::SetMax { max: 9 },
        node(2, 0, 0),
    ]
    .map(|op| delta(&[op]))
    .to_vec();
    faults.push(vec![3]);
    let mut lines = Vec::new();
    for fault in &faults {
        for front in [true, false] {
            let (first, then) = if front { (delta(&[odd.clone()]), fault.clone()) } else { (fault.clone(), delta(&[odd.clone()])) };
            let bytes = [delta(&good), first, then].concat();
            lines.extend(made(0));
            lines.extend((delta(&good).len()..=bytes.len()).map(|len| format!("apply {} 5 8", hex(&bytes[..len]))));
            lines.extend([format!("readdelta {}", hex(&bytes)), format!("apply {} 5 0", hex(&bytes))]);
        }
    }
    lines.extend([apply(&[odd.clone()]), apply(&[Op::SetMax { max: 1 }, odd.clone()]), apply(&[node(1, 0, 0), record(b"A", b"1", 0, SET)])]);
    lines.extend(untaken(&odd));
    lines
}

/// A record out of form that would not be taken: skipped, rejected, fenced, without room, of a node that is not held.
fn untaken(odd: &Op) -> Vec<String> {
    let mut lines = Vec::new();
    for mode in 0..3 {
        for (last_gc, max) in [(0, 5), (5, 0), (3, 3), (9, 5)] {
            for (gc, from) in [(0, 0), (0, 6), (0, 5), (4, 0), (10, 0), (10, 1)] {
                for odd in [odd.clone(), record(b"a", b"", 2, SET), record(b"a", b"x", 2, DELETE), record(b"", b"", 2, TTL)] {
                    lines.extend([format!("kind {mode} {METER}"), "add 1".into(), apply(&[node(1, last_gc, 0), Op::SetMax { max }])]);
                    lines.push(apply(&[node(1, gc, from), odd.clone(), record(b"b", b"2", 7, SET)]));
                    lines.push(apply(&[node(2, gc, from), odd]));
                }
            }
        }
    }
    lines
}

/// All runs of three steps of a free publisher and a meter follower with one node: a record that the follower does not take, its tombstone, its removal; and a
/// total that falls at a reset.
pub fn exchanges() -> Vec<String> {
    const STEPS: [&[&str]; 6] = [
        &["write 1 x746f74616c x39 0 9"],
        &["write 1 x4f6464 x31 0 9"],
        &["delete 1 x4f6464 4"],
        &["remove 1", "add 1", "write 1 x746f74616c x38 2 3", "write 1 x61 x31 0 9"],
        &["gc 5 1"],
        &["hub 1", "digest - 0 34 0", "hub 0", "compute @digest 100 - 0 0 100 0", "hub 1", "apply @delta 4 1", "write 1 x746f74616c x37 0 9", "hub 0"],
    ];
    let mut lines = Vec::new();
    for run in 0..STEPS.len().pow(3) {
        for (hub, profile) in [(1, METER), (0, table::FREE)] {
            lines.extend([format!("hub {hub}"), format!("kind {} {profile}", run % 3), "add 1".into()]);
        }
        let mut rest = run;
        for _ in 0..3 {
            lines.extend(STEPS[rest % STEPS.len()].iter().map(|line| line.to_string()));
            rest /= STEPS.len();
        }
        lines.extend([STEPS[5], STEPS[5]].concat().iter().map(|line| line.to_string()));
    }
    lines
}

/// Each number of a mode beside each number of a profile: which kinds of table there are, by a call and by their bytes.
pub fn kinds() -> Vec<String> {
    let mut lines = Vec::new();
    for mode in [0, 1, 2, 3, 255, 256, 1 << 32, TOP] {
        for profile in (0..=257).chain([1 << 32, (1 << 32) + 1, 1 << 63, TOP]) {
            lines.extend(["new".into(), "add 1".into(), format!("kind {mode} {profile}"), "beat 1".into()]);
            if let (Ok(mode @ (2 | 3)), Ok(profile @ (0..=3 | 255))) = (u8::try_from(mode), u8::try_from(profile)) {
                let node = Node { number: 1, heartbeat: 0, max: 0, last_gc: 0, records: vec![] };
                lines.push(format!("table {}", hex(&table::encode_as(&[node], mode, profile, &[]))));
                lines.extend([write(b"A", b"", SET), "beat 1".into()]);
            }
        }
    }
    lines
}
