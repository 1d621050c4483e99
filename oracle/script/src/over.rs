//! Overrides (document 02, ticket 10): one node in form. Whoever answers for a table answers for them too, as for a table of that one node: so the original itself says what a label's
//! write, its delete and the removal do. What is read over both is put together here, from what is read of each.

use std::collections::BTreeMap;

use crate::table::{AREA_BYTES, FREE, METERING, NODE_BYTES, NODE_HEAD_BYTES, PLAIN, RECORD_BYTES, SHARED, TABLE_BYTES, owns};
use crate::{Answer, Call, Side};

/// Overrides as a table of one node, and the node's number; none where the bytes are no overrides: 14.
fn alone<S: Side>(bytes: &[u8]) -> Option<(S, u64)> {
    if bytes.len() != NODE_BYTES {
        return None;
    }
    let mut table = vec![0; TABLE_BYTES];
    table[0] = 1;
    table[1..=NODE_BYTES].copy_from_slice(bytes);
    table[AREA_BYTES] = PLAIN;
    let mut side = S::new(PLAIN, FREE);
    side.take_table(&table);
    let number = u64::from_le_bytes(bytes[..8].try_into().ok()?);
    (side.answer(&Call::Removed { node: number }, 0) == Answer::None).then_some((side, number))
}

/// The key of a record.
fn key(node: &[u8], rank: usize) -> Vec<u8> {
    let record = &node[NODE_HEAD_BYTES + rank * RECORD_BYTES..];
    record[1..1 + usize::from(record[0])].to_vec()
}

/// Overrides without a record.
pub fn fresh(number: u64) -> Vec<u8> {
    let mut bytes = vec![0; NODE_BYTES];
    bytes[..8].copy_from_slice(&number.to_le_bytes());
    bytes
}

/// A call that changes overrides: the answer, and the bytes where it was accepted.
pub fn change<S: Side>(bytes: &[u8], call: &Call) -> (Answer, Option<Vec<u8>>) {
    let Some((mut side, node)) = alone::<S>(bytes) else { return (Answer::Refused(14), None) };
    let call = match call.clone() {
        Call::Label { key, value, status, now } => Call::Write { node, key, value, status, now },
        Call::Unlabel { key, now } => Call::Delete { node, key, now },
        Call::UnlabelTtl { key, now } => Call::DeleteTtl { node, key, now },
        Call::GcLabels { now, grace } => Call::Gc { now, grace },
        _ => unreachable!("a call on overrides"),
    };
    let answer = side.answer(&call, 0);
    let after = (answer == Answer::Done).then(|| side.table_bytes()[1..=NODE_BYTES].to_vec());
    (answer, after)
}

/// The answer of one side, or the refusal that ends the call; 14 is the table's.
fn shared(answer: Answer) -> Result<Answer, Answer> {
    match answer {
        Answer::Refused(14) => Err(Answer::RefusedOf("table")),
        Answer::Refused(_) | Answer::Outside | Answer::Broken(_) => Err(answer),
        answer => Ok(answer),
    }
}

/// The override's value if its record is there and unhidden, else the node's.
pub fn get<S: Side>(overrides: &[u8], table: &mut S, party: u64, node: u64, key: &[u8]) -> Result<Answer, Answer> {
    let (mut own, number) = alone::<S>(overrides).ok_or(Answer::RefusedOf("overrides"))?;
    let below = shared(table.answer(&Call::Get { node, key: key.to_vec() }, party))?;
    Ok(match own.answer(&Call::Get { node: number, key: key.to_vec() }, 0) {
        Answer::Value(value) => Answer::Label(value),
        _ => below,
    })
}

/// Each key once, in key order: 128 and the place in the overrides, or the place in the node. Of a shared table the party's own keys alone, and its places among
/// its own records, which stand behind the building manager's where it is the metering firm.
pub fn list<S: Side>(overrides: &[u8], table: &mut S, party: u64, node: u64, prefix: &[u8], places: u64) -> Result<Answer, Answer> {
    let (mut own, number) = alone::<S>(overrides).ok_or(Answer::RefusedOf("overrides"))?;
    let all = |node| Call::List { node, prefix: prefix.to_vec(), places: u64::MAX };
    let below = shared(table.answer(&all(node), party))?;
    let bytes = table.table_bytes();
    let slot = bytes[1..AREA_BYTES].chunks(NODE_BYTES).find(|slot| slot[..8] == node.to_le_bytes()).unwrap_or_default();
    let is_shared = bytes.get(AREA_BYTES + 1) == Some(&SHARED);
    let count = slot.get(NODE_HEAD_BYTES - 1).map_or(0, |&count| usize::from(count));
    let before = if is_shared && party == METERING { (0..count).filter(|&rank| key(slot, rank).starts_with(b"b/")).count() } else { 0 };
    let mut hits = BTreeMap::new();
    if let Answer::Ranks(ranks) = below {
        hits.extend(ranks.into_iter().map(|rank| (key(slot, before + rank), rank)));
    }
    if let Answer::Ranks(ranks) = own.answer(&all(number), 0) {
        let labels = ranks.into_iter().map(|rank| (key(overrides, rank), 128 + rank));
        hits.extend(labels.filter(|(key, _)| !is_shared || owns(party, key)));
    }
    if hits.len() as u64 > places { Err(Answer::Refused(8)) } else { Ok(Answer::Ranks(hits.into_values().collect())) }
}
