//! Grids: the library's calls on them, and what `Watched` of the crate does by them. Of each call it is asked, beside what `main.rs` asks, that
//! - where it is refused, no byte of the grid or of the table has changed,
//! - where it is accepted, grid and table are good afterwards, and the one that it is lent for reading is as it was; with 9 and no other number it tells what the digest lacks,
//! - the crate takes grid and table in exactly where they are good and belong together, and its call tells and leaves the same.

use kevdarosh::{Edition, Pair, Refusal, Watched};
use plain::side::Lent;
use script::grid::PEERS;
use script::{Answer, Call};

use crate::ffi;
use crate::port::{Port, given, or, or_cut, plain_answer};

/// A peer's number that is refused straight after 14, so that the call is the check of a grid.
const NO_PEER: u64 = PEERS as u64;

fn good(grid: &mut [u8]) -> bool {
    ffi::take_out(grid, NO_PEER) != 14
}

/// The call on lent bytes: its number, and its answer.
fn ask(grid: &mut Vec<u8>, table: &mut Vec<u8>, call: &Call) -> (u64, Answer) {
    let mut store = &mut table[..];
    let done = |number| (number, plain_answer(number));
    match call {
        Call::NewGrid => done(ffi::new_grid(grid, &store)),
        Call::GridAdd { node } => done(ffi::grid_add_node(grid, &mut store, *node)),
        Call::GridRemove { node } => done(ffi::grid_remove_node(grid, &mut store, *node)),
        Call::Tell { peer, digest, edition } => {
            let told = ffi::tell(grid, *peer, *edition, given(digest));
            assert_eq!(told.number == 9, told.need.get() > 0, "need");
            or_cut(told.number, told.need.get(), Answer::Done)
        }
        Call::TakeOut { peer } => done(ffi::take_out(grid, *peer)),
        Call::Least { node } => {
            let told = ffi::least_max(grid, *node);
            assert!(told.number == 0 || told.max == 0, "a max with a number");
            or(told.number, Answer::Least(told.max))
        }
        Call::Told { peer, node } => {
            let told = ffi::seen_by(grid, *peer, *node);
            assert!(told.found.get() == 1 || (told.found.get(), told.last_gc, told.max) == (0, 0, 0), "a pair of nobody");
            or(told.number, if told.found.get() == 1 { Answer::Told { last_gc: told.last_gc, max: told.max } } else { Answer::Absent })
        }
        Call::Careful { now, grace } => done(ffi::remove_carefully(grid, &mut store, *now, *grace)),
        _ => unreachable!("answered without a grid"),
    }
}

/// The same by the crate; none where it has no such call: an edition that is none, a grid made anew.
fn watched(hub: &mut Watched, call: &Call) -> Option<Result<Answer, Refusal>> {
    let done = |outcome: Result<(), Refusal>| outcome.map(|()| Answer::Done);
    Some(match call {
        Call::GridAdd { node } => done(hub.add_node(*node)),
        Call::GridRemove { node } => done(hub.remove_node(*node)),
        Call::Tell { peer, digest, edition } => {
            let edition = [Edition::V0, Edition::V1].get(usize::try_from(*edition).ok()?).copied()?;
            match hub.tell(*peer, edition, given(digest)) {
                Err(fault) if fault.refusal == Refusal::Cut => Ok(Answer::Cut { at: None, need: fault.need }),
                told => done(told.map_err(|fault| fault.refusal)),
            }
        }
        Call::TakeOut { peer } => done(hub.take_out(*peer)),
        Call::Least { node } => hub.least_max(*node).map(Answer::Least),
        Call::Told { peer, node } => {
            let pair = |Pair { last_gc_version, max_version }| Answer::Told { last_gc: last_gc_version, max: max_version };
            hub.told(*peer, *node).map(|told| told.map_or(Answer::Absent, pair))
        }
        Call::Careful { now, grace } => done(hub.remove_carefully(*now, *grace)),
        _ => return None,
    })
}

impl Port {
    pub fn answer_grid(&mut self, call: &Call) -> Result<Answer, String> {
        let (grid, table) = (self.grid.clone(), self.table.clone());
        let (number, answer) = ask(&mut self.grid, &mut self.table, call);
        self.calls += 1;
        let (grid_stays, table_stays) = (self.grid == grid, self.table == table);
        if !table_stays {
            self.twins.meet();
        }
        if number != 0 && !(grid_stays && table_stays) {
            return Err(format!("{call:?}: refused with {number}, and something has changed"));
        }
        let changes_grid = !matches!(call, Call::Least { .. } | Call::Told { .. } | Call::Careful { .. });
        let changes_table = matches!(call, Call::GridAdd { .. } | Call::GridRemove { .. } | Call::Careful { .. });
        if !(grid_stays || changes_grid) || !(table_stays || changes_table) {
            return Err(format!("{call:?}: it changes what it is lent for reading"));
        }
        if number == 0 {
            self.calls += 2;
            if !good(&mut self.grid) || changes_table && ffi::check(&self.table) != 0 {
                return Err(format!("{call:?}: it leaves a grid or a table that the check refuses"));
            }
        }
        self.calls += 1;
        let hub = Watched::from_bytes(&table, &grid);
        if hub.is_ok() && number == 14 && !matches!(call, Call::NewGrid) {
            return Err(format!("{call:?}: 14 to a grid and a table that the crate takes"));
        }
        if let Ok(mut hub) = hub {
            let Some(told) = watched(&mut hub, call) else { return Ok(answer) };
            self.calls += 1;
            let told = told.unwrap_or_else(|refusal| plain_answer(refusal.number()));
            if told != answer || hub.grid_bytes() != self.grid || hub.table().as_bytes() != self.table {
                return Err(format!("{call:?}: the crate gives {told}, and the library {answer}"));
            }
        }
        Ok(answer)
    }
}

/// Whether the crate should take these two in: they are good, and belong together.
pub fn belong(grid: &[u8], table: &Lent) -> bool {
    matches!(table, Lent::Good(table) if plain::grid::Grid::from_bytes(grid).is_some_and(|grid| grid.fits(table)))
}
