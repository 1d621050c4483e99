//! One table of the original, behind the calls of a script.
//!
//! Every call is split in two. The layer gives document 01's own refusals (sizes, places, no such node) and their
//! order. The original gives everything else. Where both could give a number the original does: 6 is its overflow
//! panic, 9 to 12 are its own reading errors, told apart by their messages.

use std::collections::HashSet;
use std::panic::{AssertUnwindSafe, catch_unwind};
use std::time::Duration;

use script::table::{self, KEY, NODES, RECORDS, REMOVED, VALUE};
use script::{Answer, Bytes, Call, DigestEntry, Fault as LineFault, Side, Verdict};
use tokio::sync::watch;
use tokio::time::{Instant, set_clock};

use crate::delta::{Delta, NodeDelta, Reader, operation_bytes};
use crate::digest::Digest;
use crate::message::ProtocolVersion;
use crate::serialize::{Deserializable, Serializable};
use crate::state::{ClusterState, NodeState, Status};
use crate::types::{ChitchatId, DeletionStatus, Heartbeat, VersionedValue};
use crate::{meter, wire};

const MTU_LEAST: u64 = 100;
const MTU_MOST: u64 = 16_384;
const DELTA_MOST: usize = 16_384;
/// More than any delta has bytes.
const NO_LIMIT: usize = 1 << 20;
/// What an untouched byte of a lent datagram holds.
const UNTOUCHED: u8 = 0xEE;

pub struct Hub {
    pub(crate) cluster: ClusterState,
    /// The lent bytes where they are no good table. The original is never asked then.
    bad: Option<Vec<u8>>,
    /// The table's mode and its profile, of which the original knows nothing.
    mode: u8,
    profile: u8,
    /// The removed nodes in the order of their removal, the last 16; the heartbeats are the original's. And those that went by a seventeenth: the
    /// original has room for more and remembers them still.
    removed: Vec<u64>,
    gone: HashSet<u64>,
}

/// A call ends early with a refusal, or with something that document 01 does not foresee.
pub(crate) type Outcome<T> = Result<T, Answer>;

fn text(bytes: &[u8]) -> Outcome<&str> {
    std::str::from_utf8(bytes).map_err(|_| Answer::Outside)
}

/// Layer: number 1.
fn within(len: usize, most: usize) -> Outcome<()> {
    if len > most { Err(Answer::Refused(1)) } else { Ok(()) }
}

/// Layer: number 10 for a write, whose wanted status is Set or TTL.
fn with_ttl(wanted: u64) -> Outcome<bool> {
    match u8::try_from(wanted) {
        Ok(table::SET) => Ok(false),
        Ok(table::TTL) => Ok(true),
        _ => Err(Answer::Refused(10)),
    }
}

/// Layer: number 8. `need` bytes must be free from `place`.
fn free(place: u64, len: usize, need: usize) -> Outcome<usize> {
    match usize::try_from(place) {
        Ok(place) if place <= len && len - place >= need => Ok(place),
        _ => Err(Answer::Refused(8)),
    }
}

/// Layer: number 7.
fn mtu_of(mtu: u64) -> Outcome<usize> {
    if (MTU_LEAST..=MTU_MOST).contains(&mtu) { Ok(mtu as usize) } else { Err(Answer::Refused(7)) }
}

/// The original's reading errors by document 01's numbers. The words are the original's.
fn number_of(error: &anyhow::Error) -> Outcome<u8> {
    const WORDS: [(&str, u8); 7] = [
        ("buffer too short", 9),
        ("Buffer too short", 9),
        ("Unknown tag", 10),
        ("Invalid deletion status code", 10),
        ("without a node op before", 11),
        ("striclty increasing", 11),
        ("existing_nodes.contains", 12),
    ];
    let message = error.to_string();
    if message.contains("utf-8") {
        return Err(Answer::Outside);
    }
    let found = WORDS.iter().find(|(words, _)| message.contains(words));
    found.map(|&(_, number)| number).ok_or_else(|| Answer::Broken(message))
}

/// What the original said when it panicked.
fn panic_message(panic: Box<dyn std::any::Any + Send>) -> String {
    match panic.downcast::<String>() {
        Ok(message) => *message,
        Err(panic) => panic.downcast::<&str>().map_or("a panic without words".into(), |words| words.to_string()),
    }
}

/// Asks the original. A panic becomes `Broken`.
pub(crate) fn ask<T>(question: impl FnOnce() -> T) -> Outcome<T> {
    catch_unwind(AssertUnwindSafe(question)).map_err(|panic| Answer::Broken(panic_message(panic)))
}

pub(crate) fn given(bytes: &Bytes) -> &[u8] {
    match bytes {
        Bytes::Given(bytes) => bytes,
        _ => unreachable!("the runner writes bytes out"),
    }
}

fn ids(numbers: &[u64]) -> Vec<ChitchatId> {
    numbers.iter().map(|&number| wire::chitchat_id(number)).collect()
}

/// A delta as the original read it, and how many operations it had.
struct ReadDelta {
    delta: Delta,
    ops: usize,
}

/// The number of a faulty operation, by who gives it.
enum Fault {
    /// The original reads on here.
    Layers(u8),
    Originals(u8),
}

/// Layer: 13 for length, 1, SetMaxVersion below the running max (11), 17, 19, 13 for a ninth Node, where the fault is, and what 9 lacks.
/// Original: 9, 10, the other 11, 12, and what an accepted delta says.
fn read_delta(bytes: &[u8], profile: u8) -> Outcome<ReadDelta> {
    if bytes.len() > DELTA_MOST {
        return Err(Answer::RefusedAt(13, 0));
    }
    let mut reader = Reader::default();
    let (mut ops, mut at) = (0, 0);
    let mut stream = Vec::new();
    while at < bytes.len() {
        let cut = wire::first_operation(&bytes[at..]);
        if cut.overlong {
            return Err(Answer::RefusedAt(1, at));
        }
        stream.extend(&cut.bytes);
        if let Err(fault) = read_operation(&mut reader, &cut.bytes, profile)? {
            return Err(match same_in_stream(fault, at, &stream) {
                Answer::RefusedAt(9, at) => Answer::Cut { at: Some(at), need: wire::operation_lacks(&bytes[at..]) },
                answer => answer,
            });
        }
        ops += 1;
        at += cut.used;
    }
    let stream = wire::plain_stream(&stream);
    let delta = reader.finish(stream.len());
    match Delta::deserialize(&mut &stream[..]) {
        Ok(whole) if whole == delta => Ok(ReadDelta { delta, ops }),
        whole => Err(Answer::Broken(format!("read by operation {delta:?}, as a stream {whole:?}"))),
    }
}

/// The inner error is the fault.
fn read_operation(reader: &mut Reader, bytes: &[u8], profile: u8) -> Outcome<Result<(), Fault>> {
    let originals = |error: anyhow::Error| number_of(&error).map(|number| Err(Fault::Originals(number)));
    let taken = match Reader::read(bytes) {
        Ok(taken) => taken,
        Err(error) => return originals(error),
    };
    if let (Some(max), Some(running)) = (taken.max_version_set(), reader.running_max()) {
        if max < running {
            return Ok(Err(Fault::Layers(11)));
        }
    }
    let formed = taken.record().is_none_or(|(key, value, status)| meter::in_form(profile, key.as_bytes(), value.as_bytes(), status));
    if let Err(error) = reader.take(taken) {
        return originals(error);
    }
    if !formed {
        return Ok(Err(Fault::Layers(meter::odd(profile))));
    }
    Ok(if reader.nodes() > NODES { Err(Fault::Layers(13)) } else { Ok(()) })
}

/// The original's stream reader, given the operations up to the faulty one, must err exactly where the fault is its.
fn same_in_stream(fault: Fault, at: usize, operations: &[u8]) -> Answer {
    let whole = Delta::deserialize(&mut &wire::plain_stream(operations)[..]);
    match fault {
        Fault::Originals(number) if whole.is_err() => Answer::RefusedAt(number, at),
        Fault::Layers(number) if whole.is_ok() => Answer::RefusedAt(number, at),
        _ => Answer::Broken(format!("the operation at {at} is read otherwise in a stream: {whole:?}")),
    }
}

/// Layer: 20.
fn edition_of(number: u64) -> Outcome<ProtocolVersion> {
    match number {
        0 => Ok(ProtocolVersion::V0),
        1 => Ok(ProtocolVersion::V1),
        _ => Err(Answer::Refused(20)),
    }
}

pub(crate) fn read_digest(bytes: &[u8], edition: u64) -> Outcome<(Digest, usize)> {
    match edition_of(edition)? {
        ProtocolVersion::V0 => read_counted(bytes),
        ProtocolVersion::V1 => read_to_end(bytes).map(|digest| (digest, 0)),
    }
}

/// Layer: the plain stream around the entries, 13 over eight of them, what 9 lacks. Original: 9, the entries.
fn read_to_end(bytes: &[u8]) -> Outcome<Digest> {
    let original = wire::plain_stream(&wire::entries_original(bytes));
    let mut rest = &original[..];
    match Digest::deserialize(ProtocolVersion::V1, &mut rest) {
        Ok(_) if bytes.len() / wire::DIGEST_ENTRY > NODES => Err(Answer::Refused(13)),
        Ok(_) if !rest.is_empty() => Err(Answer::Broken(format!("{} bytes behind the stream", rest.len()))),
        Ok(digest) => Ok(digest),
        Err(error) => Err(match number_of(&error)? {
            9 => Answer::Cut { at: None, need: wire::entries_lack(bytes) },
            number => Answer::Refused(number),
        }),
    }
}

/// Layer: 13 on the count, and what 9 lacks. Original: 9, the entries, what is left.
fn read_counted(bytes: &[u8]) -> Outcome<(Digest, usize)> {
    if let [low, high, ..] = *bytes {
        if usize::from(u16::from_le_bytes([low, high])) > NODES {
            return Err(Answer::Refused(13));
        }
    }
    let original = wire::digest_original(bytes);
    let mut rest = &original[..];
    match Digest::deserialize(ProtocolVersion::V0, &mut rest) {
        Ok(digest) => Ok((digest, rest.len())),
        Err(error) => Err(match number_of(&error)? {
            9 => Answer::Cut { at: None, need: wire::digest_lacks(bytes) },
            number => Answer::Refused(number),
        }),
    }
}

/// The original's MTU under which the last operation of a delta with `nodes` Nodes fits exactly where document 01
/// lets it fit under `mtu`. The original counts 9 bytes more a Node, 3 bytes a block and 1 at the end; above
/// 16,384 bytes it needs a second block.
pub(crate) fn original_mtu(mtu: usize, nodes: usize) -> usize {
    let bytes = mtu + wire::NAME_EXTRA * nodes;
    bytes + if bytes >= 16_384 { 7 } else { 4 }
}

/// The operations in document 01's bytes. The original must read its own stream of them as the same delta.
fn operations(delta: &Delta) -> Vec<Vec<u8>> {
    let read_again = Delta::deserialize(&mut &delta.serialize_to_vec()[..]);
    assert_eq!(read_again.as_ref().ok(), Some(delta), "the original reads its own delta otherwise");
    operation_bytes(delta).iter().map(|bytes| wire::operation_01(bytes)).collect()
}

fn node_count(operations: &[Vec<u8>]) -> usize {
    operations.iter().filter(|bytes| bytes[0] == wire::TAG_NODE).count()
}

impl Hub {
    /// Whether the lent bytes are a good table.
    pub(crate) fn is_good(&self) -> bool {
        self.bad.is_none()
    }

    /// Layer: 14, then 2. A node of the table.
    pub(crate) fn node(&mut self, number: u64) -> Outcome<&mut NodeState> {
        self.cluster.node_state_mut(&wire::chitchat_id(number)).ok_or(Answer::Refused(2))
    }

    /// A local write: the original's own change of a node. Its overflow panic is number 6, and the node stays.
    fn write(&mut self, number: u64, change: impl FnOnce(&mut NodeState)) -> Outcome<Answer> {
        let node = self.node(number)?;
        let before = node.clone();
        match ask(|| change(node)) {
            Ok(()) => Ok(Answer::Done),
            Err(Answer::Broken(message)) if message.contains("overflow") => {
                self.cluster.put_back(before);
                Ok(Answer::Refused(6))
            }
            Err(other) => Err(other),
        }
    }

    /// Layer: 2, 1, 17, 19, 18, 5. Number 5 asks only for a key that is not held, and 18 for another value, so "nothing to change" is never in their way.
    fn may_set(&mut self, party: u64, number: u64, key: &[u8], value: &[u8], status: u8) -> Outcome<()> {
        let profile = self.profile;
        let node = self.node(number)?;
        within(key.len(), KEY)?;
        within(value.len(), VALUE)?;
        if !meter::sees(profile, party, key) || !meter::in_form(profile, key, value, status) {
            return Err(Answer::Refused(meter::odd(profile)));
        }
        let (key, value) = (text(key)?, text(value)?);
        if meter::falls(profile, key, value, node.get(key)) {
            return Err(Answer::Refused(18));
        }
        let full = meter::full(profile, party, node.key_values_including_deleted().map(|(key, _)| key.as_bytes()));
        if full && node.get_versioned(key).is_none() { Err(Answer::Refused(5)) } else { Ok(()) }
    }

    /// Layer: 2, 1, 19, 3.
    fn may_delete<'a>(&mut self, party: u64, number: u64, key: &'a [u8]) -> Outcome<&'a str> {
        let profile = self.profile;
        let node = self.node(number)?;
        within(key.len(), KEY)?;
        if !meter::sees(profile, party, key) {
            return Err(Answer::Refused(19));
        }
        let key = text(key)?;
        if node.get_versioned(key).is_none() { Err(Answer::Refused(3)) } else { Ok(key) }
    }

    pub(crate) fn add(&mut self, number: u64) -> Outcome<Answer> {
        let id = wire::chitchat_id(number);
        if self.cluster.node_state(&id).is_none() && self.cluster.nodes().count() == NODES {
            return Err(Answer::Refused(4));
        }
        self.cluster.node_state_mut_or_init(&id);
        self.removed.retain(|&other| other != number);
        self.gone.remove(&number);
        Ok(Answer::Done)
    }

    pub(crate) fn remove(&mut self, number: u64) -> Outcome<Answer> {
        self.node(number)?;
        self.cluster.remove_node(&wire::chitchat_id(number));
        if self.removed.len() == REMOVED {
            self.gone.insert(self.removed.remove(0));
        }
        self.removed.push(number);
        Ok(Answer::Done)
    }

    /// What the original remembers of a removed node.
    fn originals(&self, number: u64) -> Option<u64> {
        self.cluster.last_heartbeat_if_deleted(&wire::chitchat_id(number)).map(u64::from)
    }

    /// Layer: which node went by a seventeenth. Original: all else.
    fn last_heartbeat(&mut self, number: u64) -> Outcome<Answer> {
        match (self.originals(number), self.removed.contains(&number)) {
            (Some(heartbeat), true) => Ok(Answer::Heartbeat(heartbeat)),
            (None, false) => Ok(Answer::None),
            (Some(_), false) if self.gone.contains(&number) => Ok(Answer::None),
            (original, _) => Err(Answer::Broken(format!("the original remembers {original:?} of {number}"))),
        }
    }

    fn get(&mut self, party: u64, number: u64, key: &[u8]) -> Outcome<Answer> {
        let profile = self.profile;
        let node = self.node(number)?;
        within(key.len(), KEY)?;
        if !meter::sees(profile, party, key) {
            return Err(Answer::Refused(19));
        }
        Ok(match node.get(text(key)?) {
            Some(value) => Answer::Value(value.as_bytes().to_vec()),
            None => Answer::None,
        })
    }

    /// The hits are the original's; that they are told as ranks, and in a shared table the party's own alone, is the layer's.
    fn list(&mut self, party: u64, number: u64, prefix: &[u8], places: u64) -> Outcome<Answer> {
        let profile = self.profile;
        let node = self.node(number)?;
        within(prefix.len(), KEY)?;
        let prefix = text(prefix)?;
        let seen: Vec<&str> = node.key_values_including_deleted().map(|(key, _)| key).filter(|key| meter::sees(profile, party, key.as_bytes())).collect();
        let rank = |key: &str| seen.iter().position(|held| *held == key);
        let ranks: Vec<usize> = node.iter_prefix(prefix).filter_map(|(key, _)| rank(key)).collect();
        if ranks.len() as u64 > places { Err(Answer::Refused(8)) } else { Ok(Answer::Ranks(ranks)) }
    }

    fn write_digest(&mut self, excluded: &[u64], place: u64, len: usize, edition: u64) -> Outcome<Answer> {
        let edition = edition_of(edition)?;
        let excluded = ids(excluded);
        let digest = self.cluster.compute_digest(&excluded.iter().collect());
        let mut original = Vec::new();
        digest.serialize(edition, &mut original);
        let bytes = match edition {
            ProtocolVersion::V0 => wire::digest_01(&original),
            ProtocolVersion::V1 => wire::entries_01(&wire::plain_blocks(&original)),
        };
        let start = free(place, len, bytes.len())?;
        let end = start + bytes.len();
        let mut datagram = vec![UNTOUCHED; len];
        datagram[start..end].copy_from_slice(&bytes);
        Ok(Answer::DigestWritten { datagram, start, end })
    }

    /// Layer: 20, 7, 8, 15, the digest's 13, the tie numbers. Original: the operations, their order, where the MTU cuts.
    fn compute(
        &mut self,
        digest: &[u8],
        mtu: u64,
        excluded: &[u64],
        ties: &[u64],
        place: u64,
        len: usize,
        edition: u64,
    ) -> Outcome<Answer> {
        edition_of(edition)?;
        let mtu = mtu_of(mtu)?;
        free(place, len, mtu)?;
        if ties.len() != self.cluster.nodes().count() {
            return Err(Answer::Refused(15));
        }
        let (digest, _rest) = read_digest(digest, edition)?;
        let numbers: Vec<u64> = self.cluster.nodes().map(|id| id.generation_id).collect();
        rand::set_ties(numbers.into_iter().zip(ties.iter().copied()));
        let excluded = ids(excluded);
        let cut = self.cut(&digest, mtu, &excluded.iter().collect())?;
        Ok(Answer::DeltaWritten { ops: cut.len(), bytes: cut.concat() })
    }

    /// The operations that fit document 01's MTU, as the original cuts them.
    ///
    /// A delta under an MTU is the beginning of the one without. How many Nodes it has decides the original's MTU; at that
    /// MTU a next Node that fits could still be missed, so where one comes next the original is asked at one Node more.
    fn cut(&self, digest: &Digest, mtu: usize, excluded: &HashSet<&ChitchatId>) -> Outcome<Vec<Vec<u8>>> {
        let under = |mtu| ask(|| operations(&self.cluster.compute_partial_delta_respecting_mtu(digest, mtu, excluded)));
        let whole = under(NO_LIMIT)?;
        let mut bytes = 0;
        let fits = |op: &&Vec<u8>| {
            bytes += op.len();
            bytes <= mtu
        };
        let foreseen = whole.iter().take_while(fits).count();
        let nodes = node_count(&whole[..foreseen]);
        let cut = under(original_mtu(mtu, nodes))?;
        let next_is_node = whole.get(foreseen).is_some_and(|op| op[0] == wire::TAG_NODE);
        let wider = if next_is_node { under(original_mtu(mtu, nodes + 1))? } else { cut.clone() };
        if cut == whole[..foreseen] && cut == wider {
            Ok(cut)
        } else {
            Err(Answer::Broken(format!("cut {}, wider {}, foreseen {foreseen}", cut.len(), wider.len())))
        }
    }

    /// What the original sends of one node to this digest where nothing limits it and every other node is excluded; nothing where it does not count the node
    /// as stale.
    fn all_of(&self, number: u64, digest: &Digest) -> Outcome<Vec<Vec<u8>>> {
        let others: Vec<ChitchatId> = self.cluster.nodes().filter(|id| id.generation_id != number).cloned().collect();
        rand::set_ties(std::iter::once((number, 0)));
        ask(|| operations(&self.cluster.compute_partial_delta_respecting_mtu(digest, NO_LIMIT, &others.iter().collect())))
    }

    /// The operations of one line of a plan, or why it cannot be sent. Layer: held, excluded, named before, and what the count says. Original: whether the node
    /// is stale, and all operations that could be sent of it, in their order.
    fn line(&self, digest: &Digest, excluded: &[u64], before: &[u64], number: u64, count: u64) -> Outcome<Result<Vec<Vec<u8>>, LineFault>> {
        if self.cluster.node_state(&wire::chitchat_id(number)).is_none() {
            return Ok(Err(LineFault::NotHeld));
        }
        if excluded.contains(&number) {
            return Ok(Err(LineFault::Excluded));
        }
        if before.contains(&number) {
            return Ok(Err(LineFault::NamedBefore));
        }
        let mut all = self.all_of(number, digest)?;
        if all.is_empty() {
            return Ok(Err(LineFault::UpToDate));
        }
        let records = all.iter().filter(|op| op[0] == wire::TAG_KEY_VALUE).count();
        if count > records as u64 {
            return Ok(Err(LineFault::TooMany));
        }
        if records > 0 {
            if count == 0 {
                return Ok(Err(LineFault::TooFew));
            }
            // Behind the Node.
            all.truncate(1 + count as usize);
        }
        Ok(Ok(all))
    }

    /// The operations of a plan, or the first line at fault. Layer: the order of the lines, whether they fit, the two lists' lengths.
    fn lines(
        &self,
        digest: &Digest,
        mtu: usize,
        excluded: &[u64],
        nodes: &[u64],
        counts: &[u64],
    ) -> Outcome<Result<Vec<Vec<u8>>, (usize, LineFault)>> {
        let (mut sent, mut bytes) = (Vec::new(), 0);
        for (line, (&number, &count)) in nodes.iter().zip(counts).enumerate() {
            match self.line(digest, excluded, &nodes[..line], number, count)? {
                Ok(ops) => {
                    bytes += ops.concat().len();
                    sent.extend(ops);
                }
                Err(why) => return Ok(Err((line, why))),
            }
            if bytes > mtu {
                return Ok(Err((line, LineFault::NoFit)));
            }
        }
        Ok(if nodes.len() == counts.len() { Ok(sent) } else { Err((nodes.len().min(counts.len()), LineFault::Alone)) })
    }

    fn plan(
        &mut self,
        digest: &[u8],
        mtu: u64,
        excluded: &[u64],
        nodes: &[u64],
        counts: &[u64],
        place: u64,
        len: usize,
        edition: u64,
    ) -> Outcome<Answer> {
        edition_of(edition)?;
        let mtu = mtu_of(mtu)?;
        free(place, len, mtu)?;
        let (digest, _rest) = read_digest(digest, edition)?;
        match self.lines(&digest, mtu, excluded, nodes, counts)? {
            Ok(sent) => {
                let bytes = sent.concat();
                // The original reads what it never wrote in this order.
                read_delta(&bytes, table::FREE)?;
                Ok(Answer::DeltaWritten { ops: sent.len(), bytes })
            }
            Err(_) => Err(Answer::Refused(23)),
        }
    }

    fn plan_fault(
        &mut self,
        digest: &[u8],
        mtu: u64,
        excluded: &[u64],
        nodes: &[u64],
        counts: &[u64],
        edition: u64,
    ) -> Outcome<Answer> {
        edition_of(edition)?;
        let mtu = mtu_of(mtu)?;
        let (digest, _rest) = read_digest(digest, edition)?;
        match self.lines(&digest, mtu, excluded, nodes, counts)? {
            Ok(_) => Ok(Answer::Accepted),
            Err((line, why)) => Err(Answer::AtFault { line, why }),
        }
    }

    /// Whether a fenced or guarded table answers Fenced. Where the delta is from the future step 1 comes first, and the original rejects it.
    fn fences(&self, node: &NodeState, delta: &NodeDelta) -> bool {
        let (own_max, own_last_gc) = (node.max_version(), node.last_gc_version());
        let future = delta.from_version_excluded > own_max;
        let older = own_last_gc > own_max && delta.last_gc_version < own_last_gc;
        let reaches = self.mode == table::GUARDED && delta.max_version >= own_last_gc;
        self.mode != table::PLAIN && !future && older && !reaches
    }

    /// Layer: 17, 19, Unknown where the original passes over a node in silence, Room, Fenced, 8, the nodes that are left alone. Original: status and change.
    fn apply(&mut self, bytes: &[u8], now: u64, places: u64, own: &[u64]) -> Outcome<Answer> {
        let mut delta = read_delta(bytes, self.profile)?.delta;
        if delta.node_deltas.len() as u64 > places {
            return Err(Answer::Refused(8));
        }
        set_clock(now);
        let mut verdicts = Vec::new();
        for tried in read_delta(bytes, self.profile)?.delta.node_deltas {
            verdicts.push(match self.cluster.node_state(&tried.chitchat_id) {
                None => Verdict::Unknown,
                Some(_) if own.contains(&tried.chitchat_id.generation_id) => Verdict::Reject,
                Some(node) if self.fences(node, &tried) => Verdict::Fenced,
                Some(node) => match ask(|| node.try_delta(tried, Instant::now()))? {
                    (Status::Reject, _) => Verdict::Reject,
                    (_, keys) if meter::too_many(self.profile, keys.iter().map(|key| key.as_bytes())) => Verdict::Room,
                    (Status::Apply, _) => Verdict::Apply,
                    (Status::ApplyAfterReset, _) => Verdict::ApplyAfterReset,
                },
            });
        }
        // The original applies the whole delta but for the nodes that have no room for it, are fenced against it or left alone.
        let mut verdict = verdicts.iter();
        delta.node_deltas.retain(|tried| !matches!(verdict.next(), Some(Verdict::Room | Verdict::Fenced)) && !own.contains(&tried.chitchat_id.generation_id));
        let reset = ask(|| self.cluster.apply_delta(delta))?;
        if reset != verdicts.contains(&Verdict::ApplyAfterReset) {
            return Err(Answer::Broken(format!("the original says reset={reset} for {verdicts:?}")));
        }
        Ok(Answer::Applied(verdicts))
    }

    /// A call on a good table.
    fn answer_good(&mut self, call: &Call, party: u64) -> Outcome<Answer> {
        match call {
            Call::Add { node } => self.add(*node),
            Call::Remove { node } => self.remove(*node),
            Call::Removed { node } => self.last_heartbeat(*node),
            Call::Write { node, key, value, status, now } => {
                let ttl = with_ttl(*status)?;
                self.may_set(party, *node, key, value, if ttl { table::TTL } else { table::SET })?;
                let (key, value) = (text(key)?, text(value)?);
                set_clock(*now);
                self.write(*node, |state| if ttl { state.set_with_ttl(key, value) } else { state.set(key, value) })
            }
            Call::Delete { node, key, now } => {
                let key = self.may_delete(party, *node, key)?;
                set_clock(*now);
                self.write(*node, |state| state.delete(key))
            }
            Call::DeleteTtl { node, key, now } => {
                let key = self.may_delete(party, *node, key)?;
                set_clock(*now);
                self.write(*node, |state| state.delete_after_ttl(key))
            }
            Call::Offer { node, heartbeat } => {
                let stored = self.node(*node)?.try_set_heartbeat(Heartbeat(*heartbeat));
                Ok(if stored { Answer::Yes } else { Answer::No })
            }
            Call::Beat { node } => self.write(*node, |state| state.inc_heartbeat()),
            Call::Get { node, key } => self.get(party, *node, key),
            Call::List { node, prefix, places } => self.list(party, *node, prefix, *places),
            Call::Gc { now, grace } => {
                set_clock(*now);
                ask(|| self.cluster.gc_keys_marked_for_deletion(Duration::from_millis(*grace)))?;
                Ok(Answer::Done)
            }
            Call::Digest { excluded, place, len, edition } => self.write_digest(excluded, *place, *len, *edition),
            Call::Compute { digest, mtu, excluded, ties, place, len, edition } => {
                self.compute(given(digest), *mtu, excluded, ties, *place, *len, *edition)
            }
            Call::Plan { digest, mtu, excluded, nodes, counts, place, len, edition } => {
                self.plan(given(digest), *mtu, excluded, nodes, counts, *place, *len, *edition)
            }
            Call::PlanFault { digest, mtu, excluded, nodes, counts, edition } => {
                self.plan_fault(given(digest), *mtu, excluded, nodes, counts, *edition)
            }
            Call::Apply { bytes, now, places, own } => self.apply(given(bytes), *now, *places, own),
            _ => unreachable!("answered without a table"),
        }
    }

    /// The nodes, the mode, the profile and the removed nodes of the table that these bytes are, if they are one that obeys the rules. Layer: number 14.
    fn load(bytes: &[u8]) -> Option<(Vec<table::Node>, u8, u8, Vec<table::Removed>)> {
        let nodes = decode(bytes)?;
        let removed = decode_removed(&bytes[table::AREA_BYTES..])?;
        let (mode, profile) = (bytes[table::AREA_BYTES], bytes[table::AREA_BYTES + 1]);
        let formed = |node: &table::Node| {
            let few = !meter::too_many(profile, node.records.iter().map(|held| &held.key[..]));
            few && node.records.iter().all(|held| meter::in_form(profile, &held.key, &held.value, held.status))
        };
        let ascending = nodes.windows(2).all(|pair| pair[0].number < pair[1].number);
        let all: HashSet<u64> =
            nodes.iter().map(|node| node.number).chain(removed.iter().map(|&(number, _)| number)).collect();
        let apart = all.len() == nodes.len() + removed.len();
        let kind = mode <= table::GUARDED && profile <= table::SHARED;
        let good = ascending && apart && nodes.iter().all(|node| obeys(node) && formed(node)) && kind;
        (good && table::encode_as(&nodes, mode, profile, &removed) == bytes).then_some((nodes, mode, profile, removed))
    }
}

/// Reads the layout as far as it can be read. That unused bytes are zero is told by writing it again.
fn decode(bytes: &[u8]) -> Option<Vec<table::Node>> {
    fn number(part: &[u8]) -> u64 {
        u64::from_le_bytes(part[..8].try_into().unwrap())
    }
    if bytes.len() != table::TABLE_BYTES {
        return None;
    }
    let record = |part: &[u8]| {
        let (key, rest) = part.split_at(1 + KEY);
        let (value, rest) = rest.split_at(1 + VALUE);
        Some(table::Record {
            key: key[1..].get(..key[0].into())?.to_vec(),
            value: value[1..].get(..value[0].into())?.to_vec(),
            version: number(rest),
            status: rest[8],
            start: number(&rest[9..]),
        })
    };
    let node = |part: &[u8]| {
        let (head, records) = part.split_at(table::NODE_HEAD_BYTES);
        let records =
            records.chunks(table::RECORD_BYTES).take(head[32].into()).map(record).collect::<Option<Vec<_>>>()?;
        let [number, heartbeat, max, last_gc] = [0, 8, 16, 24].map(|at| number(&head[at..]));
        (records.len() == usize::from(head[32])).then_some(table::Node { number, heartbeat, max, last_gc, records })
    };
    let nodes = bytes[1..table::AREA_BYTES].chunks(table::NODE_BYTES).take(bytes[0].into()).map(node).collect::<Option<Vec<_>>>()?;
    (nodes.len() == usize::from(bytes[0])).then_some(nodes)
}

/// The removed nodes that a tail says that it has.
fn decode_removed(tail: &[u8]) -> Option<Vec<table::Removed>> {
    let count = usize::from(tail[2]);
    let number = |part: &[u8]| u64::from_le_bytes(part.try_into().unwrap());
    let removed = |part: &[u8]| (number(&part[..8]), number(&part[8..]));
    (count <= REMOVED).then(|| tail[3..].chunks(table::REMOVED_BYTES).take(count).map(removed).collect())
}

/// Document 01's rules for one node of a table.
fn obeys(node: &table::Node) -> bool {
    let versions: HashSet<u64> = node.records.iter().map(|record| record.version).collect();
    node.records.windows(2).all(|pair| pair[0].key < pair[1].key)
        && versions.len() == node.records.len()
        && versions.iter().all(|&version| version >= 1 && version <= node.max)
        && node.records.iter().all(|record| record.status <= table::TTL)
}

impl Side for Hub {
    fn new(mode: u8, profile: u8) -> Hub {
        Hub {
            cluster: ClusterState::with_seed_addrs(watch::Receiver::holding(HashSet::new())),
            bad: None,
            mode,
            profile,
            removed: Vec::new(),
            gone: HashSet::new(),
        }
    }

    fn answer(&mut self, call: &Call, party: u64) -> Answer {
        // The two readers are lent no table.
        let outcome = match call {
            Call::ReadDigest { bytes, edition } => read_digest(given(bytes), *edition).map(|(digest, rest)| Answer::Digest {
                entries: digest
                    .node_digests
                    .iter()
                    .map(|(id, node_digest)| DigestEntry {
                        node: id.generation_id,
                        heartbeat: node_digest.heartbeat.0,
                        last_gc: node_digest.last_gc_version,
                        max: node_digest.max_version,
                    })
                    .collect(),
                rest,
            }),
            Call::ReadDelta { bytes } => read_delta(given(bytes), table::FREE).map(|read| Answer::DeltaRead {
                ops: read.ops,
                nodes: read.delta.node_deltas.len(),
                bytes: given(bytes).len(),
            }),
            _ if self.bad.is_some() => Err(Answer::Refused(14)),
            call => self.answer_good(call, party),
        };
        outcome.unwrap_or_else(|early| early)
    }

    fn answer_grid(&mut self, grid: &mut Vec<u8>, call: &Call) -> Answer {
        self.on_grid(grid, call).unwrap_or_else(|early| early)
    }

    /// Builds the table with the original's own setters.
    fn take_table(&mut self, bytes: &[u8]) -> Answer {
        *self = Hub::new(table::PLAIN, table::FREE);
        let Some((nodes, mode, profile, removed)) = Hub::load(bytes) else {
            self.bad = Some(bytes.to_vec());
            return Answer::Done;
        };
        self.mode = mode;
        self.profile = profile;
        for (number, heartbeat) in removed {
            let id = wire::chitchat_id(number);
            self.cluster.node_state_mut_or_init(&id).with_numbers(Heartbeat(heartbeat), 0, 0);
            self.cluster.remove_node(&id);
            self.removed.push(number);
        }
        for node in nodes {
            let state = self.cluster.node_state_mut_or_init(&wire::chitchat_id(node.number));
            for record in node.records {
                let (Ok(key), Ok(value)) = (String::from_utf8(record.key), String::from_utf8(record.value)) else {
                    return Answer::Outside;
                };
                let start = Instant::at(record.start);
                let status = match record.status {
                    table::SET if record.start != 0 => return Answer::Outside,
                    table::SET => DeletionStatus::Set,
                    table::DELETE => DeletionStatus::Deleted(start),
                    _ => DeletionStatus::DeleteAfterTtl(start),
                };
                state.set_versioned_value(key, VersionedValue { value, version: record.version, status });
            }
            state.with_numbers(Heartbeat(node.heartbeat), node.max, node.last_gc);
        }
        Answer::Done
    }

    fn table_bytes(&self) -> Vec<u8> {
        if let Some(bytes) = &self.bad {
            return bytes.clone();
        }
        let record = |(key, held): (&str, &VersionedValue)| {
            let (status, start) = match held.status {
                DeletionStatus::Set => (table::SET, 0),
                DeletionStatus::Deleted(start) => (table::DELETE, start.milliseconds()),
                DeletionStatus::DeleteAfterTtl(start) => (table::TTL, start.milliseconds()),
            };
            table::Record {
                key: key.as_bytes().to_vec(),
                value: held.value.as_bytes().to_vec(),
                version: held.version,
                status,
                start,
            }
        };
        let nodes: Vec<table::Node> = self
            .cluster
            .node_states()
            .values()
            .map(|state| table::Node {
                number: state.chitchat_id().generation_id,
                heartbeat: state.heartbeat().0,
                max: state.max_version(),
                last_gc: state.last_gc_version(),
                records: state.key_values_including_deleted().map(record).collect(),
            })
            .collect();
        let removed: Vec<table::Removed> =
            self.removed.iter().map(|&number| (number, self.originals(number).expect("a removed node"))).collect();
        table::encode_as(&nodes, self.mode, self.profile, &removed)
    }
}
