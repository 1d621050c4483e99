//! The library's side: each call by its C function, what was lent to it looked at afterwards, and the same call without the check.

use kevdarosh::{Party, Status, TableView};
use script::table::{AREA_BYTES, BUILDING, DELETE, FREE, KEY, METER, METERING, NODE_BYTES, NODE_HEAD_BYTES, Node, RECORD_BYTES, REMOVED_BYTES, Record, SHARED, VALUE, encode_as};
use script::{Answer, Bytes, Call, DigestEntry, Fault, Verdict};

use crate::ffi::{self, Kept};
use crate::look;
use crate::twins::Twins;

/// What stands in lent memory before a call.
const MARK: u8 = 0xEE;
/// Where the status stands in a record.
const STATUS_AT: usize = 1 + KEY + 1 + VALUE + 8;
/// Where the profile stands in a table.
pub const PROFILE_AT: usize = AREA_BYTES + 1;
/// More places than a call can want.
const PLACES: u64 = 64;

pub struct Port {
    pub table: Vec<u8>,
    /// The grid beside it (`grid.rs`).
    pub grid: Vec<u8>,
    /// What each firm's runs would be without the other's (`twins.rs`).
    pub twins: Twins,
    /// How many calls of the library were made.
    pub calls: u64,
}

pub fn given(bytes: &Bytes) -> &[u8] {
    match bytes {
        Bytes::Given(bytes) => bytes,
        _ => unreachable!("bytes are written out"),
    }
}

pub fn plain_answer(number: u64) -> Answer {
    if number == 0 { Answer::Done } else { Answer::Refused(number as u8) }
}

fn verdict(code: u8) -> Verdict {
    match code {
        0 => Verdict::Reject,
        1 => Verdict::Apply,
        2 => Verdict::ApplyAfterReset,
        3 => Verdict::Room,
        4 => Verdict::Unknown,
        _ => Verdict::Fenced,
    }
}

/// Why a line of a plan is at fault, by the header's number.
fn fault(why: u64) -> Fault {
    match why {
        1 => Fault::NotHeld,
        2 => Fault::Excluded,
        3 => Fault::NamedBefore,
        4 => Fault::UpToDate,
        5 => Fault::TooMany,
        6 => Fault::TooFew,
        7 => Fault::NoFit,
        8 => Fault::Alone,
        _ => panic!("{why} names no fault of a plan"),
    }
}

fn status(status: Status) -> u8 {
    match status {
        Status::Set => 0,
        Status::Deleted => 1,
        Status::DeleteAfterTtl => 2,
    }
}

fn marked(bytes: &[u8]) -> bool {
    bytes.iter().all(|&byte| byte == MARK)
}

/// A call that tells an answer and may write to a lent list: what it told, and the list.
#[derive(PartialEq)]
pub struct Told {
    pub number: u64,
    pub answer: Answer,
    list: Vec<u8>,
    /// Where it says that a text or rows stand, and how many.
    places: Vec<usize>,
}

/// The party of a number, as the crate has it.
pub fn party_of(number: u64) -> Party {
    match number {
        METERING => Party::Metering,
        BUILDING => Party::Building,
        _ => Party::Nobody,
    }
}

/// How many bytes further back than it is told the party's texts of a node stand.
pub fn front<S: ffi::Bytes>(table: &S, party: u64, node: u64) -> usize {
    ffi::front(table, party, node).count.get()
}

/// The call on a table in one form or the other, by a party.
/// Applying, with these nodes left alone.
fn apply<S: ffi::BytesMut>(table: &mut S, delta: &[u8], now: u64, own: &[u64], list: &mut [u8]) -> ffi::Applied {
    if own.is_empty() { ffi::apply(table, delta, now, list) } else { ffi::apply_leaving(table, own, delta, now, list) }
}

/// Where the node with this number stands in the table.
fn slot_of(table: &[u8], number: u64) -> Option<std::ops::Range<usize>> {
    const NODE_BYTES: usize = (AREA_BYTES - 1) / 8;
    let slots = (0..usize::from(table[0])).map(|i| 1 + NODE_BYTES * i).map(|at| at..at + NODE_BYTES);
    slots.into_iter().find(|slot| table[slot.start..][..8] == number.to_le_bytes())
}

pub fn ask<S: ffi::BytesMut>(table: &mut S, party: u64, call: &Call) -> Told {
    let (mut list, mut places) = (Vec::new(), Vec::new());
    let (number, answer) = match call {
        Call::Add { node } => plain(ffi::add_node(table, *node)),
        Call::Remove { node } => plain(ffi::remove_node(table, *node)),
        Call::Removed { node } => {
            let told = ffi::last_heartbeat(table, *node);
            or(told.number, if told.found.get() == 0 { Answer::None } else { Answer::Heartbeat(told.heartbeat) })
        }
        Call::Write { node, key, value, status, now } => plain(ffi::write(table, party, *node, key, value, *status, *now)),
        Call::Delete { node, key, now } => plain(ffi::delete(table, party, *node, key, *now)),
        Call::DeleteTtl { node, key, now } => plain(ffi::delete_after_ttl(table, party, *node, key, *now)),
        Call::Beat { node } => plain(ffi::local_beat(table, *node)),
        Call::Gc { now, grace } => plain(ffi::remove_scheduled(table, *now, *grace)),
        Call::Offer { node, heartbeat } => {
            let told = ffi::offer_heartbeat(table, *node, *heartbeat);
            or(told.number, if told.count.get() == 0 { Answer::No } else { Answer::Yes })
        }
        Call::Get { node, key } => {
            let told = ffi::find(table, party, *node, key);
            let start = front(table, party, *node) + told.start.get();
            places = vec![told.found.get(), told.start.get(), told.len.get()];
            let value = || table.bytes()[start..start + told.len.get()].to_vec();
            or(told.number, if told.found.get() == 0 { Answer::None } else { Answer::Value(value()) })
        }
        Call::List { node, prefix, places: room } => {
            list = vec![MARK; (*room).min(PLACES) as usize];
            let told = ffi::list_prefix(table, party, *node, prefix, &mut list);
            assert!(marked(&list[told.count.get()..]), "a place behind the hits was written");
            let rows = ffi::prefix_rows(table, party, *node, prefix);
            places = vec![rows.at.get(), rows.count.get()];
            assert_eq!(rows.number, if told.number == 8 { 0 } else { told.number });
            if told.number == 0 {
                let all = ffi::node_rows(table, party, *node).at.get();
                assert_eq!(shown(table, front(table, party, *node), all, rows), list[..told.count.get()], "the rows of {prefix:?}");
            }
            or(told.number, Answer::Ranks(list[..told.count.get()].iter().map(|&place| place.into()).collect()))
        }
        Call::Digest { excluded, place, len, edition } => {
            list = vec![MARK; *len];
            let told = ffi::write_digest(table, *edition, excluded, &mut list, *place as usize);
            let start = (*place).min(*len as u64) as usize;
            or(told.number, Answer::DigestWritten { datagram: list.clone(), start, end: start + told.count.get() })
        }
        Call::Compute { digest, mtu, excluded, ties, place, len, edition } => {
            list = vec![MARK; *len];
            let told = ffi::compute(table, *edition, given(digest), *mtu as usize, excluded, ties, &mut list, *place as usize);
            let start = (*place).min(*len as u64) as usize;
            assert!(marked(&list[..start]) && marked(&list[start + told.bytes.get()..]), "a byte outside the delta was written");
            assert_eq!(told.number == 9, told.need.get() > 0, "need");
            or_cut(told.number, told.need.get(), Answer::DeltaWritten { ops: told.ops.get(), bytes: list[start..start + told.bytes.get()].to_vec() })
        }
        Call::Plan { digest, mtu, excluded, nodes, counts, place, len, edition } => {
            list = vec![MARK; *len];
            let told = ffi::compute_plan(table, *edition, given(digest), *mtu as usize, excluded, nodes, counts, &mut list, *place as usize);
            let start = (*place).min(*len as u64) as usize;
            assert!(marked(&list[..start]) && marked(&list[start + told.bytes.get()..]), "a byte outside the delta was written");
            assert_eq!(told.number == 9, told.need.get() > 0, "need");
            let said = ffi::plan_fault(table, *edition, given(digest), *mtu as usize, excluded, nodes, counts);
            assert!(told.number == 8 || said.number == told.number, "what is said of a plan has the number that computing by it gives");
            or_cut(told.number, told.need.get(), Answer::DeltaWritten { ops: told.ops.get(), bytes: list[start..start + told.bytes.get()].to_vec() })
        }
        Call::PlanFault { digest, mtu, excluded, nodes, counts, edition } => {
            let told = ffi::plan_fault(table, *edition, given(digest), *mtu as usize, excluded, nodes, counts);
            assert_eq!(told.number == 9, told.need.get() > 0, "need");
            match told.number {
                23 => (23, Answer::AtFault { line: told.line.get(), why: fault(told.why) }),
                number => {
                    assert_eq!((told.line.get(), told.why), (0, 0), "a line and a fault without 23");
                    or_cut(number, told.need.get(), Answer::Accepted)
                }
            }
        }
        Call::Apply { bytes, now, places, own } => {
            list = vec![MARK; (*places).min(PLACES) as usize];
            let told = apply(table, given(bytes), *now, own, &mut list);
            assert!(marked(&list[told.nodes.get()..]), "a place behind the answers was written");
            match told.number {
                0 => (0, Answer::Applied(list[..told.nodes.get()].iter().copied().map(verdict).collect())),
                9 => (9, Answer::Cut { at: Some(told.at.get()), need: told.need.get() }),
                number @ (8 | 14) => (number, Answer::Refused(number as u8)),
                number => (number, Answer::RefusedAt(number as u8, told.at.get())),
            }
        }
        _ => unreachable!("answered without a table"),
    };
    Told { number, answer, list, places }
}

/// Where the operations of a delta that was accepted begin, and whether they are Nodes.
fn operations(delta: &[u8]) -> Vec<(usize, bool)> {
    let (mut at, mut ops) = (0, Vec::new());
    while at < delta.len() {
        ops.push((at, delta[at] == 0));
        at += match delta[at] {
            0 => 25,
            1 => {
                let key = usize::from(u16::from_le_bytes([delta[at + 1], delta[at + 2]]));
                let behind = at + 3 + key;
                14 + key + usize::from(u16::from_le_bytes([delta[behind], delta[behind + 1]]))
            }
            _ => 9,
        };
    }
    ops
}

/// The places of the rows that are not hidden, the party's rows of the node beginning at `all`, and that many bytes further back.
fn shown<S: ffi::Bytes>(table: &S, front: usize, all: usize, rows: ffi::Rows) -> Vec<u8> {
    let first = (rows.at.get() - all) / RECORD_BYTES;
    let hidden = |i: &usize| table.bytes()[front + rows.at.get() + i * RECORD_BYTES + STATUS_AT] == DELETE;
    (0..rows.count.get()).filter(|i| !hidden(i)).map(|i| (first + i) as u8).collect()
}

/// A record as a party is told it: what it has, and where its key and its value are said to stand.
#[derive(Clone, PartialEq)]
pub struct Seen {
    pub record: Record,
    places: (usize, usize),
}

impl Seen {
    /// The same but for its version.
    pub fn unversioned(mut self) -> Seen {
        self.record.version = 0;
        self
    }
}

/// The records of the table's node at place `i` that a party sees, by each reading, which must tell the same.
pub fn seen(table: &&[u8], party: u64, i: usize) -> Result<Vec<Seen>, String> {
    let number = ffi::node_number(table, i).node;
    let count = ffi::record_count(table, party, number).count.get();
    let front = front(table, party, number);
    let text = |found: ffi::Found| table[front + found.start.get()..front + found.start.get() + found.len.get()].to_vec();
    let seen: Vec<Seen> = (0..count)
        .map(|j| {
            let record = ffi::record_at(table, party, number, j);
            let [key_at, value_at] = [ffi::key_at(table, party, number, j), ffi::value_at(table, party, number, j)];
            let texts = (record.key_at, record.key_len, record.value_at, record.value_len);
            assert_eq!(texts, (key_at.start, key_at.len, value_at.start, value_at.len));
            let (key, value) = (text(key_at), text(value_at));
            assert_eq!(ffi::record_of(table, party, i, j), record);
            assert_eq!(ffi::record_by_key(table, party, number, &key), record);
            let places = (record.key_at.get(), record.value_at.get());
            Seen { record: Record { key, value, version: record.version, status: record.status.get() as u8, start: record.start }, places }
        })
        .collect();
    // none behind them
    let past = [ffi::record_at(table, party, number, count).found, ffi::record_of(table, party, i, count).found];
    let texts = [ffi::key_at(table, party, number, count).found, ffi::value_at(table, party, number, count).found];
    assert!(past.iter().chain(&texts).all(|found| found.get() == 0), "a record behind the last of node {number}");
    // the same in one piece: its rows, and the crate's reading of them
    let rows = ffi::node_rows(table, party, number);
    assert_eq!((rows.number, rows.at.get(), rows.count.get()), (0, 1 + i * NODE_BYTES + NODE_HEAD_BYTES, count));
    let view = TableView::over(table);
    let again = view.party(party_of(party)).node_state(number).map_err(|why| why.to_string())?.key_values_including_deleted();
    let again = again.map(|it| (it.key.to_vec(), it.value.to_vec(), it.version, status(it.status), it.start));
    let told = seen.iter().map(|seen| &seen.record).map(|it| (it.key.clone(), it.value.clone(), it.version, it.status, it.start));
    assert!(again.eq(told), "the rows of node {number}");
    Ok(seen)
}

/// The calls that a party makes.
pub fn by_party(call: &Call) -> bool {
    matches!(call, Call::Write { .. } | Call::Delete { .. } | Call::DeleteTtl { .. } | Call::Get { .. } | Call::List { .. })
}

fn plain(number: u64) -> (u64, Answer) {
    (number, plain_answer(number))
}

pub fn or_cut(number: u64, need: usize, answer: Answer) -> (u64, Answer) {
    if number == 9 { (9, Answer::Cut { at: None, need }) } else { or(number, answer) }
}

pub fn or(number: u64, answer: Answer) -> (u64, Answer) {
    (number, if number == 0 { answer } else { plain_answer(number) })
}

impl Port {
    pub fn new() -> Port {
        let mut port = Port { table: vec![MARK; crate::TABLE], grid: script::grid::empty(), twins: Twins::default(), calls: 1 };
        assert_eq!(ffi::new_table(&mut port.table, 0, 0), 0);
        port
    }

    /// A table made in a mode, of a profile: whether it was refused.
    pub fn remake(&mut self, mode: u64, profile: u64) -> Result<bool, String> {
        // A table that was given may have another length; making wants a table's.
        let mut table = vec![MARK; crate::TABLE];
        self.calls += 1;
        match ffi::new_table(&mut table, mode as usize, profile as usize) {
            0 => {
                self.table = table;
                self.grid = script::grid::empty();
                self.twins.meet();
                Ok(false)
            }
            14 if marked(&table) => Ok(true),
            number => Err(format!("kind {mode} {profile}: {number}")),
        }
    }

    /// Document 02's demand of the meter profile: a call on a good table that is answered neither 17 nor 18 tells what it tells on the free table of the same records, and
    /// leaves the same. In a shared table that holds of the calls that no party makes, but for applying, where each firm has its own room.
    fn as_free(&mut self, before: &[u8], party: u64, call: &Call, told: &Told) -> Result<(), String> {
        let profile = before[PROFILE_AT];
        let alike = match profile {
            METER => told.number != 17 && told.number != 18,
            SHARED => !by_party(call) && !matches!(call, Call::Apply { .. }),
            _ => false,
        };
        if !alike {
            return Ok(());
        }
        let mut free = before.to_vec();
        free[PROFILE_AT] = FREE;
        let other = ask(&mut &mut free[..], party, call);
        self.calls += 1;
        free[PROFILE_AT] = profile;
        if other == *told && free == self.table {
            return Ok(());
        }
        Err(format!("{call:?}: a free table gives {}, and one of profile {profile} {}", other.answer, told.answer))
    }

    pub fn answer(&mut self, call: &Call, party: u64) -> Result<Answer, String> {
        match call {
            Call::ReadDigest { bytes, edition } => return Ok(self.read_digest(given(bytes), *edition)),
            Call::ReadDelta { bytes } => return Ok(self.read_delta(given(bytes))),
            _ => {}
        }
        let before = self.table.clone();
        let told = ask(&mut &mut self.table[..], party, call);
        self.calls += 2;
        let good = ffi::check(&before) == 0;
        if told.number != 0 && (self.table != before || !marked(&told.list)) {
            return Err(format!("{call:?}: refused with {}, and something has changed", told.number));
        }
        if told.number == 14 && good || told.number != 14 && !good {
            return Err(format!("{call:?}: answered {} to a table that is{} good", told.number, if good { "" } else { " not" }));
        }
        if good {
            self.calls += 2;
            if ffi::check(&self.table) != 0 {
                return Err(format!("{call:?}: it leaves a table that the check refuses"));
            }
            let mut kept = Kept::checked(&before).map_err(|number| format!("{number} of a good table"))?;
            let other = ask(&mut kept, party, call);
            if other != told || ffi::Bytes::bytes(&kept) != &self.table[..] {
                return Err(format!("{call:?}: without the check it gives {}, and {} with it", other.answer, told.answer));
            }
        }
        if good {
            self.as_free(&before, party, call, &told)?;
            self.twins.follow(&before, &self.table, party, call, &told)?;
        } else {
            self.twins.meet();
        }
        if let (Call::Apply { bytes, now, own, .. }, Answer::Applied(verdicts)) = (call, &told.answer) {
            self.cut(&before, given(bytes), *now, own, &told.list[..verdicts.len()])?;
            self.leave(&before, given(bytes), *now, own, &told.list[..verdicts.len()])?;
        }
        Ok(told.answer)
    }

    /// A delta that was accepted, cut at one of its operations. At a Node: its two parts, in either order, leave the same table and give the same answers.
    /// Elsewhere: what follows is refused with 11.
    fn cut(&mut self, before: &[u8], delta: &[u8], now: u64, own: &[u64], answers: &[u8]) -> Result<(), String> {
        let ops = operations(delta);
        let Some(&(place, is_node)) = ops.get(self.calls as usize % ops.len().max(1)) else { return Ok(()) };
        let (one, two) = delta.split_at(place);
        if !is_node {
            self.calls += 1;
            let told = ffi::read_delta(two);
            let right = (told.number, told.at.get()) == (11, 0);
            return if right { Ok(()) } else { Err(format!("cut at {place}: the rest is answered with {}", told.number)) };
        }
        let nodes = ops.iter().filter(|&&(at, is_node)| is_node && at < place).count();
        for order in [[0, 1], [1, 0]] {
            let (mut table, mut list) = (before.to_vec(), vec![MARK; answers.len()]);
            let (first, second) = list.split_at_mut(nodes);
            let mut parts = [(one, first), (two, second)];
            for i in order {
                let (part, list) = &mut parts[i];
                self.calls += 1;
                let told = apply(&mut &mut table[..], part, now, own, list);
                if (told.number, told.nodes.get()) != (0, list.len()) {
                    return Err(format!("cut at {place}: part {i} is answered with {} for {} nodes", told.number, told.nodes.get()));
                }
            }
            if table != self.table || list != answers {
                return Err(format!("cut at {place}, in the order {order:?}: not as the uncut delta"));
            }
        }
        Ok(())
    }

    /// A delta that was accepted, with one more node left alone, any of the delta's or a stranger: its slot stays byte for byte, every other byte is what it was without that, and so
    /// is every answer but its own, which is Reject where it is held. With none left alone it is applying.
    fn leave(&mut self, before: &[u8], delta: &[u8], now: u64, own: &[u64], answers: &[u8]) -> Result<(), String> {
        let ops = operations(delta);
        let numbers: Vec<u64> = ops.iter().filter(|op| op.1).map(|&(at, _)| u64::from_le_bytes(delta[at + 1..at + 9].try_into().expect("8 bytes"))).collect();
        let one = numbers.get(self.calls as usize % (numbers.len() + 1)).copied().unwrap_or(self.calls);
        for more in [None, Some(one)] {
            let all: Vec<u64> = more.into_iter().chain(own.iter().copied()).collect();
            let (mut table, mut list) = (before.to_vec(), vec![MARK; answers.len()]);
            self.calls += 1;
            let told = ffi::apply_leaving(&mut &mut table[..], &all, delta, now, &mut list);
            let (mut right, mut said) = (self.table.clone(), answers.to_vec());
            if let Some(slot) = more.and_then(|number| slot_of(before, number)) {
                right[slot.clone()].copy_from_slice(&before[slot]);
                for (answer, _) in said.iter_mut().zip(&numbers).filter(|(_, number)| Some(**number) == more) {
                    *answer = 0;
                }
            }
            if told.number != 0 || table != right || list != said {
                return Err(format!("{all:?} left alone: {} and {list:?}, or a byte elsewhere; {said:?} without", told.number));
            }
        }
        Ok(())
    }

    fn read_digest(&mut self, bytes: &[u8], edition: u64) -> Answer {
        let told = ffi::read_digest(edition, bytes);
        self.calls += 2 + told.count.get() as u64;
        let entries = (0..told.count.get()).map(|i| ffi::digest_entry(edition, bytes, i)).map(|entry| {
            assert_eq!((entry.number, entry.need.get()), (0, 0));
            DigestEntry { node: entry.node, heartbeat: entry.heartbeat, last_gc: entry.last_gc, max: entry.max }
        });
        let entries = entries.collect();
        let past = ffi::digest_entry(edition, bytes, told.count.get());
        let past = (past.number, past.need.get());
        if told.number != 0 {
            assert_eq!((told.number, told.need.get(), told.count.get(), told.rest.get()), (past.0, past.1, 0, 0));
            return or_cut(told.number, told.need.get(), Answer::Done).1;
        }
        assert_eq!(past, (8, 0));
        Answer::Digest { entries, rest: bytes.len() - told.rest.get() }
    }

    fn read_delta(&mut self, bytes: &[u8]) -> Answer {
        self.calls += 2;
        let told = ffi::read_delta(bytes);
        let mut out = vec![MARK; 81_979];
        let listed = ffi::list_delta(bytes, &mut out);
        assert_eq!(listed.number, 0);
        let text = &out[..listed.count.get()];
        let last = text[..text.len() - 1].rsplit(|&byte| byte == b'\n').next().map(String::from_utf8_lossy).unwrap_or_default();
        // made again from its listing: the same bytes and none behind them; the line of a refused delta is none
        self.calls += 1;
        let mut again = vec![MARK; bytes.len() + 1];
        let made = ffi::make_delta(text, &mut again);
        let same = again[..made.bytes.get()] == bytes[..made.bytes.get()] && marked(&again[made.bytes.get()..]);
        let wanted = if told.number == 0 { (0, bytes.len(), 0, 0, 0) } else { (16, 0, 1, 0, 0) };
        assert!(same && (made.number, made.bytes.get(), made.line.get(), made.at.get(), made.need.get()) == wanted, "{last}");
        self.calls += look::at_delta(bytes, &told, &String::from_utf8_lossy(text));
        if told.number != 0 {
            assert_eq!((told.ops.get(), told.nodes.get()), (0, 0));
            assert!(last.starts_with(&format!("end=refused code={} at={}", told.number, told.at.get())), "{last}");
            if told.number == 9 {
                assert!(last.ends_with(&format!(" need={}", told.need.get())), "{last}");
                return Answer::Cut { at: Some(told.at.get()), need: told.need.get() };
            }
            return Answer::RefusedAt(told.number as u8, told.at.get());
        }
        assert_eq!(last, format!("end=ok ops={} bytes={}", told.ops.get(), bytes.len()));
        Answer::DeltaRead { ops: told.ops.get(), nodes: told.nodes.get(), bytes: bytes.len() }
    }

    /// The table put together again from its readings by place.
    pub fn read_all(&mut self) -> Result<(), String> {
        let table = &self.table[..];
        let count = ffi::node_count(&table);
        self.calls += 2;
        if count.number != 0 {
            let same = count.number == 14 && ffi::node_number(&table, 0).number == 14 && ffi::check(table) == 14;
            self.calls += look::at_bad_table(table)?;
            return if same { Ok(()) } else { Err("readings of a table that is not good".into()) };
        }
        // the two firms' records, in key order, are a shared table's, and anyone's are any other's
        let parties = if table[PROFILE_AT] == SHARED { vec![BUILDING, METERING, self.calls % 5 * 3] } else { vec![self.calls % 4] };
        let mut nodes = Vec::new();
        for i in 0..count.count.get() {
            let number = ffi::node_number(&table, i).node;
            let header = ffi::node_header(&table, number);
            let mut records = Vec::new();
            for &party in &parties {
                let shared_front = if party == METERING && table[PROFILE_AT] == SHARED { records.len() * RECORD_BYTES } else { 0 };
                assert_eq!((ffi::front(&table, party, number).number, front(&table, party, number)), (0, shared_front), "the front of node {number}");
                let seen = seen(&table, party, i)?;
                self.calls += 5 + 5 * seen.len() as u64;
                if parties.len() == 1 || party == METERING || party == BUILDING {
                    records.extend(seen.into_iter().map(|seen| seen.record));
                } else if !seen.is_empty() {
                    return Err(format!("nobody sees records of node {number}"));
                }
            }
            self.calls += 2;
            nodes.push(Node { number, heartbeat: header.heartbeat, max: header.max, last_gc: header.last_gc, records });
        }
        let view = TableView::over(table);
        let listed = view.nodes().map_err(|why| why.to_string())?;
        assert!(listed.eq(nodes.iter().map(|node| node.number)), "the numbers of the nodes");
        self.calls += 1;
        let tail = &table[AREA_BYTES..];
        let number = |bytes: &[u8]| u64::from_le_bytes(bytes.try_into().expect("eight bytes"));
        let removed: Vec<(u64, u64)> = tail[3..]
            .chunks(REMOVED_BYTES)
            .take(tail[2].into())
            .map(|place| number(&place[..8]))
            .map(|node| (node, ffi::last_heartbeat(&table, node).heartbeat))
            .collect();
        self.calls += removed.len() as u64 + look::at_table(table, &nodes, &removed)?;
        if encode_as(&nodes, tail[0], tail[1], &removed) == table { Ok(()) } else { Err("the readings are not those of the table".into()) }
    }
}
