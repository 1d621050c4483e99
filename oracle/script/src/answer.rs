//! Answers to words.

use std::fmt::{Display, Formatter, Result};

use crate::hex;

/// The answer for one node delta.
#[derive(Clone, Copy, Debug, PartialEq, Eq)]
pub enum Verdict {
    Reject,
    Apply,
    ApplyAfterReset,
    Room,
    Unknown,
    Fenced,
}

/// Why a line of a plan cannot be sent.
#[derive(Clone, Copy, Debug, PartialEq, Eq)]
pub enum Fault {
    NotHeld,
    Excluded,
    NamedBefore,
    UpToDate,
    TooMany,
    TooFew,
    NoFit,
    /// A node without a count, or a count without a node.
    Alone,
}

#[derive(Clone, Copy, Debug, PartialEq, Eq)]
pub struct DigestEntry {
    pub node: u64,
    pub heartbeat: u64,
    pub last_gc: u64,
    pub max: u64,
}

#[derive(Clone, Debug, PartialEq, Eq)]
pub enum Answer {
    Done,
    None,
    Yes,
    No,
    /// A refusal by document 01's number.
    Refused(u8),
    /// A refusal of a delta stream, with the place of the faulty operation's tag.
    RefusedAt(u8, usize),
    /// Number 9: how many bytes the field lacks in which the bytes end; in a delta stream with the place of that operation's tag.
    Cut {
        at: Option<usize>,
        need: usize,
    },
    Value(Vec<u8>),
    /// A value of the overrides.
    Label(Vec<u8>),
    /// Number 14 of the overrides or of the table.
    RefusedOf(&'static str),
    /// The last heartbeat of a removed node.
    Heartbeat(u64),
    /// Places of the hits among all records of the node in key order, hidden ones counted.
    Ranks(Vec<usize>),
    Digest {
        entries: Vec<DigestEntry>,
        rest: usize,
    },
    /// A digest was written: the whole datagram, and which part of it is the digest.
    DigestWritten {
        datagram: Vec<u8>,
        start: usize,
        end: usize,
    },
    DeltaWritten {
        ops: usize,
        bytes: Vec<u8>,
    },
    DeltaRead {
        ops: usize,
        nodes: usize,
        bytes: usize,
    },
    /// No line of the plan is at fault.
    Accepted,
    /// Number 23 with the first line of the plan that is at fault, counted from 0, and why.
    AtFault {
        line: usize,
        why: Fault,
    },
    Applied(Vec<Verdict>),
    Table(Vec<u8>),
    Grid(Vec<u8>),
    /// The least max of a node over the peers present.
    Least(u64),
    /// What a peer told of a node.
    Told {
        last_gc: u64,
        max: u64,
    },
    /// The peer is not present.
    Absent,
    /// The original cannot be asked: the text is no UTF-8.
    Outside,
    /// The original panicked, erred or contradicted itself where document 01 foresees nothing. Never expected.
    Broken(String),
}

fn list<T>(f: &mut Formatter, items: &[T], mut one: impl FnMut(&mut Formatter, &T) -> Result) -> Result {
    if items.is_empty() {
        return f.write_str("-");
    }
    for (place, item) in items.iter().enumerate() {
        if place > 0 {
            f.write_str(",")?;
        }
        one(f, item)?;
    }
    Ok(())
}

impl Display for Verdict {
    fn fmt(&self, f: &mut Formatter) -> Result {
        f.write_str(match self {
            Verdict::Reject => "reject",
            Verdict::Apply => "apply",
            Verdict::ApplyAfterReset => "reset",
            Verdict::Room => "room",
            Verdict::Unknown => "unknown",
            Verdict::Fenced => "fenced",
        })
    }
}

impl Display for Fault {
    fn fmt(&self, f: &mut Formatter) -> Result {
        f.write_str(match self {
            Fault::NotHeld => "not-held",
            Fault::Excluded => "excluded",
            Fault::NamedBefore => "named-before",
            Fault::UpToDate => "up-to-date",
            Fault::TooMany => "too-many",
            Fault::TooFew => "too-few",
            Fault::NoFit => "no-fit",
            Fault::Alone => "alone",
        })
    }
}

impl Display for Answer {
    fn fmt(&self, f: &mut Formatter) -> Result {
        match self {
            Answer::Done => f.write_str("done"),
            Answer::None => f.write_str("none"),
            Answer::Yes => f.write_str("yes"),
            Answer::No => f.write_str("no"),
            Answer::Heartbeat(heartbeat) => write!(f, "heartbeat {heartbeat}"),
            Answer::Refused(number) => write!(f, "refused {number}"),
            Answer::RefusedAt(number, at) => write!(f, "refused {number} at={at}"),
            Answer::Cut { at: None, need } => write!(f, "refused 9 need={need}"),
            Answer::Cut { at: Some(at), need } => write!(f, "refused 9 at={at} need={need}"),
            Answer::Value(value) => write!(f, "value {}", hex(value)),
            Answer::Label(value) => write!(f, "label {}", hex(value)),
            Answer::RefusedOf(which) => write!(f, "refused 14 of={which}"),
            Answer::Ranks(ranks) => {
                f.write_str("ranks ")?;
                list(f, ranks, |f, rank| write!(f, "{rank}"))
            }
            Answer::Digest { entries, rest } => {
                f.write_str("digest ")?;
                list(f, entries, |f, e| write!(f, "{}:{}:{}:{}", e.node, e.heartbeat, e.last_gc, e.max))?;
                write!(f, " rest={rest}")
            }
            Answer::DigestWritten { datagram, .. } => write!(f, "bytes {}", hex(datagram)),
            Answer::DeltaWritten { ops, bytes } => write!(f, "ops={ops} bytes={} {}", bytes.len(), hex(bytes)),
            Answer::DeltaRead { ops, nodes, bytes } => write!(f, "ops={ops} nodes={nodes} bytes={bytes}"),
            Answer::Accepted => f.write_str("accepted"),
            Answer::AtFault { line, why } => write!(f, "refused 23 line={line} why={why}"),
            Answer::Applied(verdicts) => {
                f.write_str("answers ")?;
                list(f, verdicts, |f, verdict| write!(f, "{verdict}"))
            }
            Answer::Table(bytes) => write!(f, "table {}", hex(bytes)),
            Answer::Grid(bytes) => write!(f, "grid {}", hex(bytes)),
            Answer::Least(max) => write!(f, "least {max}"),
            Answer::Told { last_gc, max } => write!(f, "told {last_gc}:{max}"),
            Answer::Absent => f.write_str("absent"),
            Answer::Outside => f.write_str("outside"),
            Answer::Broken(what) => write!(f, "broken {}", what.replace([' ', '\n'], "_")),
        }
    }
}
