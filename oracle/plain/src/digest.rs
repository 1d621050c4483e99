//! Digests: writing and reading, document 01's "Bytes" and document 02's second edition.

use std::collections::BTreeMap;

use crate::local::{Refused, Unread};
use crate::table::{MOST_NODES, Table};

pub struct Entry {
    pub heartbeat: u64,
    pub last_gc: u64,
    pub max: u64,
}

/// A digest's edition: V0 has a count before its entries, V1 has not.
#[derive(Clone, Copy, PartialEq)]
pub enum Edition {
    V0,
    V1,
}

impl Edition {
    pub fn of(number: u64) -> Result<Edition, Refused> {
        match number {
            0 => Ok(Edition::V0),
            1 => Ok(Edition::V1),
            _ => Err(20),
        }
    }
}

/// The digest of a table without the excluded nodes.
pub fn write(table: &Table, excluded: &[u64], edition: Edition) -> Vec<u8> {
    let told: Vec<_> = table.nodes.iter().filter(|(number, _)| !excluded.contains(number)).collect();
    let mut bytes = Vec::new();
    if edition == Edition::V0 {
        bytes.extend((told.len() as u16).to_le_bytes());
    }
    for (number, node) in told {
        for field in [*number, node.heartbeat, node.last_gc, node.max] {
            bytes.extend(field.to_le_bytes());
        }
    }
    bytes
}

/// How many entries, and the bytes that they begin with.
fn begin(bytes: &[u8], edition: Edition) -> Result<(usize, &[u8]), Unread> {
    match edition {
        Edition::V0 => {
            let (count, rest) = bytes.split_first_chunk().ok_or_else(|| Unread::Cut(2 - bytes.len()))?;
            Ok((usize::from(u16::from_le_bytes(*count)), rest))
        }
        Edition::V1 => {
            if bytes.len() % 32 > 0 {
                return Err(Unread::Cut(8 - bytes.len() % 8));
            }
            Ok((bytes.len() / 32, bytes))
        }
    }
}

/// The entries and the unread rest. A repeated node's last entry counts.
pub fn read(bytes: &[u8], edition: Edition) -> Result<(BTreeMap<u64, Entry>, &[u8]), Unread> {
    let (count, mut rest) = begin(bytes, edition)?;
    if count > MOST_NODES {
        return Err(Unread::Refused(13));
    }
    let mut entries = BTreeMap::new();
    for _ in 0..count {
        let mut field = || -> Result<u64, Unread> {
            let (number, behind) = rest.split_first_chunk().ok_or_else(|| Unread::Cut(8 - rest.len()))?;
            rest = behind;
            Ok(u64::from_le_bytes(*number))
        };
        let node = field()?;
        entries.insert(node, Entry { heartbeat: field()?, last_gc: field()?, max: field()? });
    }
    Ok((entries, rest))
}
