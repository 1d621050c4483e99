//! The exchange in one call, between the tables that a script left, of any profile, good or not. It is asked that it is refused by the step and the number that docs/RULES.md says, 17 wherever the
//! follower is a meter table and a record of the publisher's table is not a reading, 19 wherever it is shared and a record is of neither firm, with no lent byte changed; and that it else does what its
//! three calls do.

use plain::table::Table;
use script::table::{AREA_BYTES, BUILDING, METER, METERING, SHARED, owns};

use crate::ffi;
use crate::random::Random;

const MARK: u8 = 0xEE;
const PROFILE_AT: usize = AREA_BYTES + 1;

/// Whether every key is of one firm or of the other.
fn of_firms(publisher: &[u8]) -> bool {
    let nodes = Table::from_bytes(publisher).map(|table| table.nodes).unwrap_or_default();
    nodes.values().flat_map(|node| node.records.keys()).all(|key| owns(METERING, key) || owns(BUILDING, key))
}

/// Step and number that the call must give; 0 and 0 where it goes ahead.
fn foreseen(publisher: &[u8], follower: &[u8], mtu: usize, ties: usize, answers: usize) -> (usize, u64) {
    if ffi::check(follower) != 0 {
        return (1, 14);
    }
    if ffi::check(publisher) != 0 {
        return (2, 14);
    }
    let nodes = usize::from(publisher[0]);
    let mut as_meter = publisher.to_vec();
    as_meter[PROFILE_AT] = METER;
    match () {
        () if mtu < 100 => (2, 7),
        () if ties != nodes => (2, 15),
        () if follower[PROFILE_AT] == METER && Table::from_bytes(&as_meter).is_none() => (3, 17),
        () if follower[PROFILE_AT] == SHARED && !of_firms(publisher) => (3, 19),
        () if answers < nodes => (3, 8),
        () => (0, 0),
    }
}

/// How many calls were made, and the number of the first.
pub fn once(random: &mut Random, publisher: &[u8], follower: &[u8]) -> Result<(u64, u64), String> {
    let nodes = publisher.first().map_or(0, |&nodes| usize::from(nodes));
    let mtu = if random.once_in(12) { 99 } else { random.within(100, 1_400) as usize };
    let ties = vec![0; if random.once_in(12) { nodes + 1 } else { nodes }];
    let places = if random.once_in(6) { nodes.saturating_sub(1) } else { 8 };
    let (mut digest, mut delta, mut answers) = (vec![MARK; 258], vec![MARK; 1_400], vec![MARK; places]);
    let mut after = follower.to_vec();
    let told = ffi::exchange(publisher, &mut after, 0, mtu, &[], &[], &ties, 7, &mut digest, &mut delta, &mut answers);
    let wanted = foreseen(publisher, follower, mtu, ties.len(), places);
    if (told.step.get(), told.number) != wanted {
        return Err(format!("an exchange is refused by step {} with {}, not by {wanted:?}", told.step.get(), told.number));
    }
    if told.number != 0 {
        let untouched = [&digest, &delta, &answers].into_iter().all(|lent| lent.iter().all(|&byte| byte == MARK));
        return if after == follower && untouched { Ok((1, told.number)) } else { Err("a refused exchange has changed something".into()) };
    }
    let (mut one, mut two, mut three, mut table) = (vec![MARK; 258], vec![MARK; 1_400], vec![MARK; places], follower.to_vec());
    let asked = ffi::write_digest(&follower, 0, &[], &mut one, 0);
    let sent = ffi::compute(&publisher, 0, &one[..asked.count.get()], mtu, &[], &ties, &mut two, 0);
    let taken = ffi::apply(&mut &mut table[..], &two[..sent.bytes.get()], 7, &mut three);
    let counts = (told.ops, told.bytes, told.nodes) == (sent.ops, sent.bytes, taken.nodes) && (asked.number, sent.number, taken.number) == (0, 0, 0);
    if counts && (digest, delta, answers, after) == (one, two, three, table) { Ok((4, 0)) } else { Err("an exchange is not its three calls".into()) }
}
