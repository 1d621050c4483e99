//! The profiles: document 02, tickets 8 and 9.

use script::table as layout;

use crate::local::Refused;
use crate::table::{MOST_RECORDS, Node, Record, Status};

/// A firm's records of a node in a shared table.
const MOST_EACH: usize = 16;

/// What a table is made for: anything, nothing but readings, or two firms.
#[derive(Clone, Copy, Default, PartialEq, Eq)]
pub enum Profile {
    #[default]
    Free,
    Meter,
    Shared,
}

/// Keys are 1 to 32 of these.
fn of_a_key(byte: u8) -> bool {
    byte.is_ascii_lowercase() || byte.is_ascii_digit() || byte == b'.'
}

/// The number that a value in form states; an empty one counts as 0.
fn number(value: &[u8]) -> u64 {
    value.iter().fold(0, |number, digit| number * 10 + u64::from(digit - b'0'))
}

impl Profile {
    pub fn of_byte(byte: u8) -> Option<Profile> {
        match byte {
            layout::FREE => Some(Profile::Free),
            layout::METER => Some(Profile::Meter),
            layout::SHARED => Some(Profile::Shared),
            _ => None,
        }
    }

    pub fn byte(self) -> u8 {
        match self {
            Profile::Free => layout::FREE,
            Profile::Meter => layout::METER,
            Profile::Shared => layout::SHARED,
        }
    }

    /// The number of a record that [`Profile::takes`] does not take.
    pub fn number(self) -> Refused {
        if self == Profile::Shared { 19 } else { 17 }
    }

    /// The party may name the key: in a shared table its own alone.
    pub fn sees(self, party: u64, key: &[u8]) -> bool {
        self != Profile::Shared || layout::owns(party, key)
    }

    /// The records that the party sees, in key order.
    pub fn seen(self, party: u64, node: &Node) -> impl Iterator<Item = (&Vec<u8>, &Record)> {
        node.records.iter().filter(move |(key, _)| self.sees(party, key))
    }

    /// How many more than the rules allow would be too many: 32 in all, and in a shared table 16 of each firm.
    pub fn overfull(self, node: &Node) -> bool {
        let firms = [layout::METERING, layout::BUILDING];
        node.records.len() > MOST_RECORDS || self == Profile::Shared && firms.iter().any(|&firm| self.seen(firm, node).count() > MOST_EACH)
    }

    /// There is no room for a new key of the party.
    pub fn full(self, party: u64, node: &Node) -> bool {
        if self == Profile::Shared { self.seen(party, node).count() == MOST_EACH } else { node.records.len() == MOST_RECORDS }
    }

    /// Meter: keys are 1 to 32 of `a` to `z`, `0` to `9` and `.`, and values are 1 to 10 decimal digits, or empty under Delete or TTL. Shared: keys begin `m/` or `b/`.
    pub fn takes(self, key: &[u8], value: &[u8], status: Status) -> bool {
        match self {
            Profile::Free => return true,
            Profile::Shared => return layout::owns(layout::METERING, key) || layout::owns(layout::BUILDING, key),
            Profile::Meter => {}
        }
        let key_fits = (1..=32).contains(&key.len()) && key.iter().all(|&byte| of_a_key(byte));
        let digits = (1..=10).contains(&value.len()) && value.iter().all(u8::is_ascii_digit);
        key_fits && (digits || value.is_empty() && status.scheduled())
    }

    /// A local write to the key `total` may not state a smaller number than the unhidden record there.
    pub fn falls(self, key: &[u8], value: &[u8], held: Option<&Record>) -> bool {
        let unhidden = held.filter(|record| !record.hidden());
        self == Profile::Meter && key == b"total" && unhidden.is_some_and(|record| number(value) < number(&record.value))
    }
}
