//! The calls of a script, with document 01's order of refusals.

use script::{Answer, Bytes, Call, DigestEntry, Side};

use crate::grid::Grid;
use crate::local::{Refused, Scheduled, Unread};
use crate::meter::Profile;
use crate::table::Table;
use crate::{apply, compute, delta, digest, plan};

/// The lent table: good, or bytes that break a rule.
pub enum Lent {
    Good(Table),
    Bad(Vec<u8>),
}

fn given(bytes: &Bytes) -> &[u8] {
    match bytes {
        Bytes::Given(bytes) => bytes,
        _ => unreachable!("the runner writes bytes out"),
    }
}

/// Number 8 for a datagram of `len` bytes.
fn room(place: u64, len: usize, need: usize) -> Result<usize, Answer> {
    let len = len as u64;
    if place > len || len - place < need as u64 { Err(Answer::Refused(8)) } else { Ok(place as usize) }
}

fn unread(why: Unread) -> Answer {
    match why {
        Unread::Refused(number) => Answer::Refused(number),
        Unread::Cut(need) => Answer::Cut { at: None, need },
    }
}

fn edition_of(number: u64) -> Result<digest::Edition, Answer> {
    digest::Edition::of(number).map_err(Answer::Refused)
}

fn read_digest(bytes: &[u8], edition: u64) -> Result<Answer, Answer> {
    let (entries, rest) = digest::read(bytes, edition_of(edition)?).map_err(unread)?;
    let entries = entries.iter().map(|(&node, entry)| DigestEntry {
        node,
        heartbeat: entry.heartbeat,
        last_gc: entry.last_gc,
        max: entry.max,
    });
    Ok(Answer::Digest { entries: entries.collect(), rest: rest.len() })
}

fn read_delta(bytes: &[u8], profile: Profile) -> Result<delta::Delta, Answer> {
    delta::read(bytes, profile).map_err(|(why, at)| match why {
        Unread::Refused(number) => Answer::RefusedAt(number, at),
        Unread::Cut(need) => Answer::Cut { at: Some(at), need },
    })
}

fn write_digest(table: &Table, excluded: &[u64], place: u64, len: usize, edition: u64) -> Result<Answer, Answer> {
    let bytes = digest::write(table, excluded, edition_of(edition)?);
    let start = room(place, len, bytes.len())?;
    let end = start + bytes.len();
    let mut datagram = vec![0xEE; len];
    datagram[start..end].copy_from_slice(&bytes);
    Ok(Answer::DigestWritten { datagram, start, end })
}

/// Number 7.
fn mtu_of(mtu: u64) -> Result<usize, Answer> {
    if mtu < 100 || mtu > 16_384 { Err(Answer::Refused(7)) } else { Ok(mtu as usize) }
}

fn compute_delta(
    table: &Table,
    digest: &[u8],
    mtu: u64,
    excluded: &[u64],
    ties: &[u64],
    place: u64,
    len: usize,
    edition: u64,
) -> Result<Answer, Answer> {
    let edition = edition_of(edition)?;
    let mtu = mtu_of(mtu)?;
    room(place, len, mtu)?;
    if ties.len() != table.nodes.len() {
        return Err(Answer::Refused(15));
    }
    let (digest, _rest) = digest::read(digest, edition).map_err(unread)?;
    let (ops, bytes) = compute::delta(table, &digest, mtu, excluded, ties);
    Ok(Answer::DeltaWritten { ops, bytes })
}

fn compute_plan(
    table: &Table,
    digest: &[u8],
    mtu: u64,
    excluded: &[u64],
    nodes: &[u64],
    counts: &[u64],
    place: u64,
    len: usize,
    edition: u64,
) -> Result<Answer, Answer> {
    let edition = edition_of(edition)?;
    let mtu = mtu_of(mtu)?;
    room(place, len, mtu)?;
    let (digest, _rest) = digest::read(digest, edition).map_err(unread)?;
    match plan::delta(table, &digest, mtu, excluded, nodes, counts) {
        Some((ops, bytes)) => Ok(Answer::DeltaWritten { ops, bytes }),
        None => Err(Answer::Refused(23)),
    }
}

fn plan_fault(
    table: &Table,
    digest: &[u8],
    mtu: u64,
    excluded: &[u64],
    nodes: &[u64],
    counts: &[u64],
    edition: u64,
) -> Result<Answer, Answer> {
    let edition = edition_of(edition)?;
    let mtu = mtu_of(mtu)?;
    let (digest, _rest) = digest::read(digest, edition).map_err(unread)?;
    match plan::first_fault(table, &digest, mtu, excluded, nodes, counts) {
        Some((line, why)) => Err(Answer::AtFault { line, why }),
        None => Ok(Answer::Accepted),
    }
}

fn apply_delta(table: &mut Table, bytes: &[u8], now: u64, places: u64, own: &[u64]) -> Result<Answer, Answer> {
    let delta = read_delta(bytes, table.profile)?;
    if delta.nodes.len() as u64 > places {
        return Err(Answer::Refused(8));
    }
    Ok(Answer::Applied(apply::apply(table, &delta.nodes, now, own)))
}

fn done(outcome: Result<(), Refused>) -> Result<Answer, Answer> {
    outcome.map(|()| Answer::Done).map_err(Answer::Refused)
}

fn answer_good(table: &mut Table, call: &Call, party: u64) -> Result<Answer, Answer> {
    match call {
        Call::Add { node } => done(table.add(*node)),
        Call::Remove { node } => done(table.remove(*node)),
        Call::Removed { node } => Ok(table.last_heartbeat(*node).map_or(Answer::None, Answer::Heartbeat)),
        Call::Write { node, key, value, status, now } => done(table.write(party, *node, key, value, *status, *now)),
        Call::Delete { node, key, now } => done(table.delete(party, *node, key, *now, Scheduled::Delete)),
        Call::DeleteTtl { node, key, now } => done(table.delete(party, *node, key, *now, Scheduled::AfterTtl)),
        Call::Beat { node } => done(table.beat(*node)),
        Call::Offer { node, heartbeat } => match table.offer(*node, *heartbeat) {
            Ok(true) => Ok(Answer::Yes),
            Ok(false) => Ok(Answer::No),
            Err(number) => Err(Answer::Refused(number)),
        },
        Call::Get { node, key } => match table.get(party, *node, key) {
            Ok(Some(value)) => Ok(Answer::Value(value.to_vec())),
            Ok(None) => Ok(Answer::None),
            Err(number) => Err(Answer::Refused(number)),
        },
        Call::List { node, prefix, places } => {
            table.list(party, *node, prefix, *places).map(Answer::Ranks).map_err(Answer::Refused)
        }
        Call::Gc { now, grace } => {
            table.gc(*now, *grace);
            Ok(Answer::Done)
        }
        Call::Digest { excluded, place, len, edition } => write_digest(table, excluded, *place, *len, *edition),
        Call::Compute { digest, mtu, excluded, ties, place, len, edition } => {
            compute_delta(table, given(digest), *mtu, excluded, ties, *place, *len, *edition)
        }
        Call::Plan { digest, mtu, excluded, nodes, counts, place, len, edition } => {
            compute_plan(table, given(digest), *mtu, excluded, nodes, counts, *place, *len, *edition)
        }
        Call::PlanFault { digest, mtu, excluded, nodes, counts, edition } => {
            plan_fault(table, given(digest), *mtu, excluded, nodes, counts, *edition)
        }
        Call::Apply { bytes, now, places, own } => apply_delta(table, given(bytes), *now, *places, own),
        _ => unreachable!("answered without a table"),
    }
}

/// A call on a grid. Where it takes the table too, both must be good and belong together.
fn answer_grid(lent: &mut Lent, bytes: &mut Vec<u8>, call: &Call) -> Result<Answer, Answer> {
    const BAD: Answer = Answer::Refused(14);
    if let (Call::NewGrid, Lent::Good(table)) = (call, &lent) {
        if bytes.len() != script::grid::GRID_BYTES {
            return Err(BAD);
        }
        *bytes = Grid::of(table).to_bytes();
        return Ok(Answer::Done);
    }
    let mut grid = Grid::from_bytes(bytes).ok_or(BAD)?;
    let answer = match (call, lent) {
        (Call::Tell { peer, digest, edition }, _) => grid.tell(*peer, *edition, given(digest)).map(|()| Answer::Done).map_err(unread),
        (Call::TakeOut { peer }, _) => done(grid.take_out(*peer)),
        (Call::Least { node }, _) => grid.least(*node).map(Answer::Least).map_err(Answer::Refused),
        (Call::Told { peer, node }, _) => match grid.told(*peer, *node) {
            Ok(Some((last_gc, max))) => Ok(Answer::Told { last_gc, max }),
            Ok(None) => Ok(Answer::Absent),
            Err(number) => Err(Answer::Refused(number)),
        },
        (call, Lent::Good(table)) if grid.fits(table) => match call {
            Call::GridAdd { node } => done(grid.add(table, *node)),
            Call::GridRemove { node } => done(grid.remove(table, *node)),
            Call::Careful { now, grace } => done(grid.remove_carefully(table, *now, *grace)),
            _ => unreachable!("answered without a grid"),
        },
        _ => Err(BAD),
    }?;
    *bytes = grid.to_bytes();
    Ok(answer)
}

impl Side for Lent {
    fn new(mode: u8, profile: u8) -> Lent {
        Lent::Good(Table::made(mode, profile))
    }

    fn answer(&mut self, call: &Call, party: u64) -> Answer {
        let outcome = match (call, self) {
            (Call::ReadDigest { bytes, edition }, _) => read_digest(given(bytes), *edition),
            (Call::ReadDelta { bytes }, _) => read_delta(given(bytes), Profile::Free).map(|delta| Answer::DeltaRead {
                ops: delta.operations,
                nodes: delta.nodes.len(),
                bytes: given(bytes).len(),
            }),
            (_, Lent::Bad(_)) => Err(Answer::Refused(14)),
            (call, Lent::Good(table)) => answer_good(table, call, party),
        };
        outcome.unwrap_or_else(|refused| refused)
    }

    fn answer_grid(&mut self, grid: &mut Vec<u8>, call: &Call) -> Answer {
        answer_grid(self, grid, call).unwrap_or_else(|refused| refused)
    }

    fn take_table(&mut self, bytes: &[u8]) -> Answer {
        *self = match Table::from_bytes(bytes) {
            Some(table) => Lent::Good(table),
            None => Lent::Bad(bytes.to_vec()),
        };
        Answer::Done
    }

    fn table_bytes(&self) -> Vec<u8> {
        match self {
            Lent::Good(table) => table.to_bytes(),
            Lent::Bad(bytes) => bytes.clone(),
        }
    }
}
