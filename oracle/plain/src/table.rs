//! A table, and number 14.

use std::collections::BTreeMap;

use script::table as layout;

use crate::meter::Profile;

pub const MOST_NODES: usize = 8;
pub const MOST_RECORDS: usize = 32;
pub const MOST_KEY: usize = 32;
pub const MOST_VALUE: usize = 64;
pub const MOST_REMOVED: usize = 16;

#[derive(Clone, Copy, PartialEq, Eq)]
pub enum Status {
    Set,
    Delete,
    Ttl,
}

impl Status {
    pub fn from_byte(byte: u8) -> Option<Status> {
        [Status::Set, Status::Delete, Status::Ttl].get(usize::from(byte)).copied()
    }

    pub fn byte(self) -> u8 {
        match self {
            Status::Set => 0,
            Status::Delete => 1,
            Status::Ttl => 2,
        }
    }

    pub fn scheduled(self) -> bool {
        self == Status::Delete || self == Status::Ttl
    }
}

#[derive(Clone)]
pub struct Record {
    pub value: Vec<u8>,
    pub version: u64,
    pub status: Status,
    pub start: u64,
}

impl Record {
    /// Only Delete hides a record from reading.
    pub fn hidden(&self) -> bool {
        self.status == Status::Delete
    }

    /// Whether it is scheduled and its grace is over.
    pub fn over(&self, now: u64, grace: u64) -> bool {
        self.status.scheduled() && u128::from(now) >= u128::from(self.start) + u128::from(grace)
    }
}

#[derive(Clone, Default)]
pub struct Node {
    pub heartbeat: u64,
    pub max: u64,
    pub last_gc: u64,
    pub records: BTreeMap<Vec<u8>, Record>,
}

/// Document 01's, ticket 3's, and that of nets.
#[derive(Clone, Copy, Default)]
pub enum Mode {
    #[default]
    Plain,
    Fenced,
    Guarded,
}

impl Mode {
    fn of_byte(byte: u8) -> Option<Mode> {
        match byte {
            layout::PLAIN => Some(Mode::Plain),
            layout::FENCED => Some(Mode::Fenced),
            layout::GUARDED => Some(Mode::Guarded),
            _ => None,
        }
    }

    fn byte(self) -> u8 {
        match self {
            Mode::Plain => layout::PLAIN,
            Mode::Fenced => layout::FENCED,
            Mode::Guarded => layout::GUARDED,
        }
    }
}

#[derive(Clone, Default)]
pub struct Table {
    pub nodes: BTreeMap<u64, Node>,
    pub mode: Mode,
    pub profile: Profile,
    /// Ticket 2's removed nodes with their last heartbeats, the longest remembered first.
    pub removed: Vec<(u64, u64)>,
}

impl Table {
    pub fn made(mode: u8, profile: u8) -> Table {
        let mode = Mode::of_byte(mode).expect("the runner asks for modes alone");
        let profile = Profile::of_byte(profile).expect("the runner asks for profiles alone");
        Table { mode, profile, ..Table::default() }
    }

    pub fn to_bytes(&self) -> Vec<u8> {
        let nodes: Vec<_> = self.nodes.iter().map(|(&number, node)| laid_out(number, node)).collect();
        layout::encode_as(&nodes, self.mode.byte(), self.profile.byte(), &self.removed)
    }

    /// The bytes of a node alone: a slot of a table.
    pub fn node_bytes(number: u64, node: &Node) -> Vec<u8> {
        layout::encode(&[laid_out(number, node)], layout::PLAIN)[1..1 + layout::NODE_BYTES].to_vec()
    }

    /// None: number 14.
    pub fn node_of(bytes: &[u8]) -> Option<(u64, Node)> {
        let mut walk = Walk(bytes);
        let read = walk.node()?;
        walk.0.is_empty().then_some(read)
    }

    /// None: number 14.
    pub fn from_bytes(bytes: &[u8]) -> Option<Table> {
        let mut walk = Walk(bytes);
        let count = walk.count(MOST_NODES)?;
        let mut table = Table::default();
        for _ in 0..count {
            let (number, node) = walk.node()?;
            if table.nodes.last_key_value().is_some_and(|(&last, _)| last >= number) {
                return None;
            }
            table.nodes.insert(number, node);
        }
        walk.zeros((MOST_NODES - count) * layout::NODE_BYTES)?;
        table.mode = Mode::of_byte(walk.byte()?)?;
        table.profile = Profile::of_byte(walk.byte()?)?;
        let formed = |node: &Node| node.records.iter().all(|(key, held)| table.profile.takes(key, &held.value, held.status));
        if table.nodes.values().any(|node| !formed(node) || table.profile.overfull(node)) {
            return None;
        }
        let count = walk.count(MOST_REMOVED)?;
        for _ in 0..count {
            let (number, heartbeat) = (walk.number()?, walk.number()?);
            if table.nodes.contains_key(&number) || table.removed.iter().any(|&(other, _)| other == number) {
                return None;
            }
            table.removed.push((number, heartbeat));
        }
        walk.zeros((MOST_REMOVED - count) * layout::REMOVED_BYTES)?;
        walk.0.is_empty().then_some(table)
    }
}

fn laid_out(number: u64, node: &Node) -> layout::Node {
    let record = |(key, record): (&Vec<u8>, &Record)| layout::Record {
        key: key.clone(),
        value: record.value.clone(),
        version: record.version,
        status: record.status.byte(),
        start: record.start,
    };
    layout::Node {
        number,
        heartbeat: node.heartbeat,
        max: node.max,
        last_gc: node.last_gc,
        records: node.records.iter().map(record).collect(),
    }
}

/// Walks over lent bytes field by field; None where a rule breaks.
pub struct Walk<'a>(pub &'a [u8]);

impl<'a> Walk<'a> {
    pub fn take(&mut self, count: usize) -> Option<&'a [u8]> {
        let (taken, rest) = self.0.split_at_checked(count)?;
        self.0 = rest;
        Some(taken)
    }

    fn byte(&mut self) -> Option<u8> {
        Some(self.take(1)?[0])
    }

    pub fn number(&mut self) -> Option<u64> {
        Some(u64::from_le_bytes(self.take(8)?.try_into().ok()?))
    }

    pub fn count(&mut self, most: usize) -> Option<usize> {
        Some(usize::from(self.byte()?)).filter(|&count| count <= most)
    }

    pub fn zeros(&mut self, count: usize) -> Option<()> {
        self.take(count)?.iter().all(|&byte| byte == 0).then_some(())
    }

    fn text(&mut self, most: usize) -> Option<Vec<u8>> {
        let len = self.count(most)?;
        let text = self.take(len)?.to_vec();
        self.zeros(most - len)?;
        Some(text)
    }

    fn node(&mut self) -> Option<(u64, Node)> {
        let number = self.number()?;
        let mut node =
            Node { heartbeat: self.number()?, max: self.number()?, last_gc: self.number()?, ..Node::default() };
        let count = self.count(MOST_RECORDS)?;
        for _ in 0..count {
            let (key, record) = self.record()?;
            let after_the_last = node.records.last_key_value().is_none_or(|(last, _)| *last < key);
            let version_new = node.records.values().all(|other| other.version != record.version);
            if !after_the_last || !version_new || record.version < 1 || record.version > node.max {
                return None;
            }
            node.records.insert(key, record);
        }
        self.zeros((MOST_RECORDS - count) * layout::RECORD_BYTES)?;
        Some((number, node))
    }

    fn record(&mut self) -> Option<(Vec<u8>, Record)> {
        let key = self.text(MOST_KEY)?;
        let value = self.text(MOST_VALUE)?;
        let version = self.number()?;
        let status = Status::from_byte(self.byte()?)?;
        let start = self.number()?;
        Some((key, Record { value, version, status, start }))
    }
}
