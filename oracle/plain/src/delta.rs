//! Delta operations: writing and reading, document 01's "Bytes".

use crate::local::{Refused, Unread};
use crate::meter::Profile;
use crate::table::{MOST_KEY, MOST_NODES, MOST_VALUE, Status};

pub const MOST_BYTES: usize = 16_384;

pub enum Operation {
    Node { number: u64, last_gc: u64, from: u64 },
    KeyValue(Sent),
    SetMaxVersion(u64),
}

/// A record on its way.
pub struct Sent {
    pub key: Vec<u8>,
    pub value: Vec<u8>,
    pub version: u64,
    pub status: Status,
}

impl Operation {
    pub fn to_bytes(&self) -> Vec<u8> {
        let mut bytes = Vec::new();
        match self {
            Operation::Node { number, last_gc, from } => {
                bytes.push(0);
                bytes.extend(number.to_le_bytes());
                bytes.extend(last_gc.to_le_bytes());
                bytes.extend(from.to_le_bytes());
            }
            Operation::KeyValue(sent) => {
                bytes.push(1);
                for text in [&sent.key, &sent.value] {
                    bytes.extend((text.len() as u16).to_le_bytes());
                    bytes.extend(text);
                }
                bytes.extend(sent.version.to_le_bytes());
                bytes.push(sent.status.byte());
            }
            Operation::SetMaxVersion(max) => {
                bytes.push(2);
                bytes.extend(max.to_le_bytes());
            }
        }
        bytes
    }
}

/// One Node of a stream and what follows it up to the next.
pub struct NodeDelta {
    pub number: u64,
    pub last_gc: u64,
    pub from: u64,
    pub records: Vec<Sent>,
    pub max: u64,
}

pub struct Delta {
    pub nodes: Vec<NodeDelta>,
    pub operations: usize,
}

/// The error: why, and the place of the faulty operation's tag. For a table of a profile a record has to be in its form.
pub fn read(bytes: &[u8], profile: Profile) -> Result<Delta, (Unread, usize)> {
    if bytes.len() > MOST_BYTES {
        return Err((Unread::Refused(13), 0));
    }
    let mut delta = Delta { nodes: Vec::new(), operations: 0 };
    let mut rest = Fields(bytes);
    while !rest.0.is_empty() {
        let at = bytes.len() - rest.0.len();
        let operation = rest.operation().map_err(|why| (why, at))?;
        delta.take(operation, profile).map_err(|number| (Unread::Refused(number), at))?;
        delta.operations += 1;
    }
    Ok(delta)
}

struct Fields<'a>(&'a [u8]);

impl<'a> Fields<'a> {
    fn take<const WIDTH: usize>(&mut self) -> Result<[u8; WIDTH], Unread> {
        let (field, rest) = self.0.split_first_chunk().ok_or_else(|| Unread::Cut(WIDTH - self.0.len()))?;
        self.0 = rest;
        Ok(*field)
    }

    fn number(&mut self) -> Result<u64, Unread> {
        self.take().map(u64::from_le_bytes)
    }

    /// An overlong length is told before the bytes are missed.
    fn text(&mut self, most: usize) -> Result<Vec<u8>, Unread> {
        let len = usize::from(u16::from_le_bytes(self.take()?));
        if len > most {
            return Err(Unread::Refused(1));
        }
        let (text, rest) = self.0.split_at_checked(len).ok_or_else(|| Unread::Cut(len - self.0.len()))?;
        self.0 = rest;
        Ok(text.to_vec())
    }

    fn operation(&mut self) -> Result<Operation, Unread> {
        let [tag] = self.take()?;
        match tag {
            0 => Ok(Operation::Node { number: self.number()?, last_gc: self.number()?, from: self.number()? }),
            1 => {
                let key = self.text(MOST_KEY)?;
                let value = self.text(MOST_VALUE)?;
                let version = self.number()?;
                let [status] = self.take()?;
                let status = Status::from_byte(status).ok_or(Unread::Refused(10))?;
                Ok(Operation::KeyValue(Sent { key, value, version, status }))
            }
            2 => Ok(Operation::SetMaxVersion(self.number()?)),
            _ => Err(Unread::Refused(10)),
        }
    }
}

impl Delta {
    fn take(&mut self, operation: Operation, profile: Profile) -> Result<(), Refused> {
        match operation {
            Operation::Node { number, last_gc, from } => {
                if self.nodes.iter().any(|node| node.number == number) {
                    return Err(12);
                }
                if self.nodes.len() == MOST_NODES {
                    return Err(13);
                }
                self.nodes.push(NodeDelta { number, last_gc, from, records: Vec::new(), max: 0 });
            }
            Operation::KeyValue(sent) => {
                let node = self.nodes.last_mut().ok_or(11)?;
                if sent.version <= node.max {
                    return Err(11);
                }
                if !profile.takes(&sent.key, &sent.value, sent.status) {
                    return Err(profile.number());
                }
                node.max = sent.version;
                node.records.push(sent);
            }
            Operation::SetMaxVersion(max) => {
                let node = self.nodes.last_mut().ok_or(11)?;
                if max < node.max {
                    return Err(11);
                }
                node.max = max;
            }
        }
        Ok(())
    }
}
