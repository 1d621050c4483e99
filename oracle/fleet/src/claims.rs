//! What is claimed of every hub at every tick (docs/NET.md), asked of the bytes of its table.

use script::table::DELETE;

use crate::plan::NODES;
use crate::view::{self, Node, Pair};

/// The claims, in the order of the counts.
pub const CLAIMS: [&str; 6] = [
    "max is not above the owner's",
    "where it is the owner's, both hold the same Set records",
    "the owner rejects every delta of its own node",
    "no pair falls",
    "nothing older of a key stands where its last version was reached",
    "a record is what its owner wrote under that version",
];
pub const MAX: usize = 0;
pub const SAME: usize = 1;
pub const OWNER: usize = 2;
pub const FALL: usize = 3;
pub const BACK: usize = 4;
pub const WRITTEN: usize = 5;

/// How often each was broken.
pub type Breaches = [u64; CLAIMS.len()];

/// The version that a key was given last, as what, and with which value.
#[derive(Clone, Copy)]
pub struct Given {
    pub version: u64,
    pub status: u8,
    pub value: Value,
}

/// What the owners wrote.
pub struct History {
    pub keys: Vec<Vec<String>>,
    pub given: Vec<Vec<Given>>,
}

/// A value of the fleet: digits and a unit.
#[derive(Clone, Copy)]
pub struct Value {
    bytes: [u8; 24],
    len: usize,
}

impl Value {
    pub fn bytes(&self) -> &[u8] {
        &self.bytes[..self.len]
    }

    pub fn text(&self) -> &str {
        std::str::from_utf8(self.bytes()).expect("digits and letters")
    }
}

/// The value that a node's key has under a version. So a record tells whether it is its owner's.
pub fn value(node: usize, key: usize, version: u64) -> Value {
    let mut digits = (version * 7_919 + node as u64 * 104_729 + key as u64 * 1_299_709) % 100_000_000;
    let mut bytes = *b"00000000.kWh.abcdefghijk";
    for digit in bytes[..8].iter_mut().rev() {
        *digit = b'0' + (digits % 10) as u8;
        digits /= 10;
    }
    Value { bytes, len: 8 + (node * 5 + key * 3) % 17 }
}

impl History {
    pub fn new(records: usize) -> History {
        let keys = |node: usize| (0..records).map(|key| format!("meter{node}.reading{key:02}")).collect();
        History {
            keys: (0..NODES).map(keys).collect(),
            given: vec![vec![Given { version: 0, status: 0, value: value(0, 0, 0) }; records]; NODES],
        }
    }

    /// Which key this is.
    pub fn key(&self, node: usize, key: &[u8]) -> Option<usize> {
        let digits = key.last_chunk::<2>()?;
        let at = usize::from(digits[0].wrapping_sub(b'0')) * 10 + usize::from(digits[1].wrapping_sub(b'0'));
        (self.keys[node].get(at)?.as_bytes() == key).then_some(at)
    }
}

/// What one look at a node of a hub saw.
#[derive(Clone, Copy, Default, PartialEq, Eq, Debug)]
pub struct Seen {
    pub breaches: [u8; CLAIMS.len()],
    /// Whether its max is the owner's.
    pub agrees: bool,
    /// Deleted readings that it shows: it has not heard of the delete yet; it has, and they are back.
    pub late: u8,
    pub back: u8,
}

/// Looks at a hub's node beside its owner's, and tells of each record its key and its version.
pub fn look(place: usize, own: Node, owner: Node, history: &History, mut tell: impl FnMut(usize, u64)) -> Seen {
    let mut seen = Seen::default();
    let (pair, most) = (own.pair(), owner.pair().max);
    seen.breaches[MAX] += u8::from(pair.max > most);
    seen.agrees = pair.max == most;
    if seen.agrees {
        let same = own.set().count() == owner.set().count() && own.set().zip(owner.set()).all(|(a, b)| a.same(b));
        seen.breaches[SAME] += u8::from(!same);
    }
    for record in own.records() {
        let Some(key) = history.key(place, record.key()) else {
            seen.breaches[WRITTEN] += 1;
            continue;
        };
        let (given, version) = (&history.given[place][key], record.version());
        tell(key, version);
        let back = version != given.version && given.version <= pair.reached();
        let written = match record.status() {
            DELETE => record.value().is_empty(),
            _ if version == given.version => record.value() == given.value.bytes(),
            _ => record.value() == value(place, key, version).bytes(),
        };
        seen.breaches[BACK] += u8::from(back);
        seen.breaches[WRITTEN] += u8::from(!written || (version == given.version && record.status() != given.status));
        if record.shown() && given.status == DELETE {
            if back { seen.back += 1 } else { seen.late += 1 }
        }
    }
    seen
}

/// The pairs of all nodes.
pub fn pairs(table: &[u8]) -> [Pair; NODES] {
    std::array::from_fn(|place| view::node(table, place).pair())
}
