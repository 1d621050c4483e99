//! The grid beside a table (document 02, ticket 12). The original has none. The layer keeps who told what; the original reads the digests, adds and removes the
//! nodes, and removes the records: those that a peer present has not seen are put aside before it does, and put back behind it.

use std::time::Duration;

use script::grid::{self, GCS, GRID_BYTES, MAXES, NUMBERS, PEERS, PRESENT, Pair, ROW_BYTES};
use script::{Answer, Call};
use tokio::time::set_clock;

use crate::hub::{Hub, Outcome, ask, given, read_digest};
use crate::types::VersionedValue;
use crate::wire;

/// A row for each peer, a pair for each column in it; no row for a peer that is absent.
struct Grid {
    columns: Vec<u64>,
    rows: [Option<Vec<Pair>>; PEERS],
}

impl Grid {
    /// The grid that these bytes are, if they are one that obeys the rules. Layer: number 14.
    fn load(bytes: &[u8]) -> Outcome<Grid> {
        if bytes.len() != GRID_BYTES {
            return Err(Answer::Refused(14));
        }
        let number = |at: usize| u64::from_le_bytes(bytes[at..at + 8].try_into().unwrap());
        let places = 0..usize::from(bytes[0]).min(8);
        let row = |peer: usize, place: usize| (number(GCS + ROW_BYTES * peer + 8 * place), number(MAXES + ROW_BYTES * peer + 8 * place));
        let columns: Vec<u64> = places.clone().map(|place| number(NUMBERS + 8 * place)).collect();
        let ascending = columns.windows(2).all(|pair| pair[0] < pair[1]);
        let rows = std::array::from_fn(|peer| (bytes[PRESENT + peer] == 1).then(|| places.clone().map(|place| row(peer, place)).collect()));
        if ascending && grid::encode(&columns, &rows) == bytes { Ok(Grid { columns, rows }) } else { Err(Answer::Refused(14)) }
    }

    fn bytes(&self) -> Vec<u8> {
        grid::encode(&self.columns, &self.rows)
    }

    /// Layer: number 21.
    fn row(&mut self, peer: u64) -> Outcome<&mut Option<Vec<Pair>>> {
        usize::try_from(peer).ok().and_then(|peer| self.rows.get_mut(peer)).ok_or(Answer::Refused(21))
    }

    /// Layer: number 22.
    fn attended(&self) -> Outcome<()> {
        if self.rows.iter().any(Option::is_some) { Ok(()) } else { Err(Answer::Refused(22)) }
    }

    /// Layer: number 2.
    fn place(&self, number: u64) -> Outcome<usize> {
        self.columns.iter().position(|&column| column == number).ok_or(Answer::Refused(2))
    }

    fn least(&self, place: usize) -> Option<u64> {
        self.rows.iter().flatten().map(|row| row[place].1).min()
    }

    /// A column at (0,0) in its place, in every row of a peer present.
    fn put_in(&mut self, number: u64) {
        let place = self.columns.iter().take_while(|&&column| column < number).count();
        if self.columns.get(place) != Some(&number) {
            self.columns.insert(place, number);
            self.rows.iter_mut().flatten().for_each(|row| row.insert(place, (0, 0)));
        }
    }

    fn put_out(&mut self, place: usize) {
        self.columns.remove(place);
        for row in self.rows.iter_mut().flatten() {
            row.remove(place);
        }
    }

    /// Original: what the digest says, which of two entries of a node counts, its own numbers. Layer: 20 and 13 among these, and all else.
    fn tell(&mut self, peer: u64, bytes: &[u8], edition: u64) -> Outcome<()> {
        self.row(peer)?;
        let (digest, _rest) = read_digest(bytes, edition)?;
        let told = |number: &u64| digest.node_digests.get(&wire::chitchat_id(*number)).map_or((0, 0), |told| (told.last_gc_version, told.max_version));
        let row = self.columns.iter().map(told).collect();
        *self.row(peer)? = Some(row);
        Ok(())
    }
}

impl Hub {
    fn numbers(&self) -> Vec<u64> {
        self.cluster.nodes().map(|id| id.generation_id).collect()
    }

    /// Layer: number 14 of the table, and where the columns are not its nodes.
    fn beside(&self, grid: &Grid) -> Outcome<()> {
        if self.is_good() && grid.columns == self.numbers() { Ok(()) } else { Err(Answer::Refused(14)) }
    }

    /// The original's removal, but for the records that a peer present has not seen.
    fn remove_carefully(&mut self, grid: &Grid, now: u64, grace: u64) -> Outcome<()> {
        let mut aside: Vec<(u64, String, VersionedValue)> = Vec::new();
        for (place, &number) in grid.columns.iter().enumerate() {
            let least = grid.least(place);
            let node = self.node(number)?;
            let unseen = |held: &VersionedValue| least.is_some_and(|least| held.version > least);
            let kept = node.key_values_including_deleted().filter(|(_, held)| unseen(held));
            aside.extend(kept.map(|(key, held)| (number, key.to_string(), held.clone())));
        }
        for (number, key, _) in &aside {
            self.node(*number)?.remove_key_value_internal(key);
        }
        set_clock(now);
        ask(|| self.cluster.gc_keys_marked_for_deletion(Duration::from_millis(grace)))?;
        for (number, key, held) in aside {
            self.node(number)?.set_versioned_value(key, held);
        }
        Ok(())
    }

    /// A call on the lent grid, which changes where the call is accepted.
    pub(crate) fn on_grid(&mut self, bytes: &mut Vec<u8>, call: &Call) -> Outcome<Answer> {
        if let Call::NewGrid = call {
            if bytes.len() != GRID_BYTES || !self.is_good() {
                return Err(Answer::Refused(14));
            }
            *bytes = grid::encode(&self.numbers(), &Default::default());
            return Ok(Answer::Done);
        }
        let mut grid = Grid::load(bytes)?;
        let answer = match call {
            Call::GridAdd { node } => {
                self.beside(&grid)?;
                self.add(*node)?;
                grid.put_in(*node);
                Answer::Done
            }
            Call::GridRemove { node } => {
                self.beside(&grid)?;
                self.remove(*node)?;
                grid.put_out(grid.place(*node)?);
                Answer::Done
            }
            Call::Tell { peer, digest, edition } => {
                grid.tell(*peer, given(digest), *edition)?;
                Answer::Done
            }
            Call::TakeOut { peer } => {
                *grid.row(*peer)? = None;
                Answer::Done
            }
            Call::Least { node } => {
                grid.attended()?;
                let place = grid.place(*node)?;
                Answer::Least(grid.least(place).expect("somebody is present"))
            }
            Call::Told { peer, node } => {
                grid.row(*peer)?;
                let place = grid.place(*node)?;
                match grid.row(*peer)? {
                    Some(row) => Answer::Told { last_gc: row[place].0, max: row[place].1 },
                    None => Answer::Absent,
                }
            }
            Call::Careful { now, grace } => {
                self.beside(&grid)?;
                grid.attended()?;
                self.remove_carefully(&grid, *now, *grace)?;
                Answer::Done
            }
            _ => unreachable!("answered without a grid"),
        };
        *bytes = grid.bytes();
        Ok(answer)
    }
}
