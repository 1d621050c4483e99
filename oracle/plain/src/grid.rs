//! Who has seen what (document 02, ticket 12): for each peer that is present, the pair that its last digest told of each node of a table.

use std::collections::BTreeMap;

use script::grid as layout;

use crate::digest::{self, Edition};
use crate::local::{Refused, Unread};
use crate::table::{MOST_NODES, Table, Walk};

const MOST_PEERS: u64 = 8;

/// last_gc and max.
type Pair = (u64, u64);

#[derive(Clone, Default)]
pub struct Grid {
    /// The nodes of the table, ascending.
    columns: Vec<u64>,
    /// The peers present, each with a pair for each column.
    rows: BTreeMap<u64, BTreeMap<u64, Pair>>,
}

/// Number 21.
fn row_of(peer: u64) -> Result<u64, Refused> {
    if peer < MOST_PEERS { Ok(peer) } else { Err(21) }
}

impl Grid {
    /// For a table: nobody is present.
    pub fn of(table: &Table) -> Grid {
        Grid { columns: table.nodes.keys().copied().collect(), rows: BTreeMap::new() }
    }

    pub fn to_bytes(&self) -> Vec<u8> {
        let row = |row: &BTreeMap<u64, Pair>| self.columns.iter().map(|number| row[number]).collect();
        let rows: Vec<_> = (0..MOST_PEERS).map(|peer| self.rows.get(&peer).map(row)).collect();
        layout::encode(&self.columns, &rows.try_into().expect("eight rows"))
    }

    /// None: number 14.
    pub fn from_bytes(bytes: &[u8]) -> Option<Grid> {
        let mut walk = Walk(bytes);
        let count = walk.count(MOST_NODES)?;
        let mut grid = Grid::default();
        for _ in 0..count {
            let number = walk.number()?;
            if grid.columns.last().is_some_and(|&last| last >= number) {
                return None;
            }
            grid.columns.push(number);
        }
        walk.zeros(8 * (MOST_NODES - count))?;
        for peer in 0..MOST_PEERS {
            if walk.count(1)? == 1 {
                grid.rows.insert(peer, BTreeMap::new());
            }
        }
        // Both arrays: a row has nothing behind the columns, that of an absent peer nothing at all.
        let mut arrays = [BTreeMap::new(), BTreeMap::new()];
        for array in &mut arrays {
            for peer in 0..MOST_PEERS {
                let told = if grid.rows.contains_key(&peer) { count } else { 0 };
                for &number in &grid.columns[..told] {
                    array.insert((peer, number), walk.number()?);
                }
                walk.zeros(8 * (MOST_NODES - told))?;
            }
        }
        let [gcs, maxes] = arrays;
        for ((peer, number), last_gc) in gcs {
            grid.rows.get_mut(&peer)?.insert(number, (last_gc, maxes[&(peer, number)]));
        }
        walk.0.is_empty().then_some(grid)
    }

    /// Whether the columns are the table's nodes; 14 where not.
    pub fn fits(&self, table: &Table) -> bool {
        self.columns.iter().eq(table.nodes.keys())
    }

    /// A node comes, at (0,0). One that is held keeps what was told of it.
    pub fn add(&mut self, table: &mut Table, number: u64) -> Result<(), Refused> {
        table.add(number)?;
        self.columns = table.nodes.keys().copied().collect();
        for row in self.rows.values_mut() {
            row.entry(number).or_insert((0, 0));
        }
        Ok(())
    }

    pub fn remove(&mut self, table: &mut Table, number: u64) -> Result<(), Refused> {
        table.remove(number)?;
        self.columns = table.nodes.keys().copied().collect();
        for row in self.rows.values_mut() {
            row.remove(&number);
        }
        Ok(())
    }

    /// The digest replaces its row; a node that it omits counts as (0,0), and others that it tells of are ignored.
    pub fn tell(&mut self, peer: u64, edition: u64, bytes: &[u8]) -> Result<(), Unread> {
        let peer = row_of(peer).map_err(Unread::Refused)?;
        let edition = Edition::of(edition).map_err(Unread::Refused)?;
        let (told, _rest) = digest::read(bytes, edition)?;
        let pair = |number: &u64| told.get(number).map_or((0, 0), |entry| (entry.last_gc, entry.max));
        let row = self.columns.iter().map(|number| (*number, pair(number))).collect();
        self.rows.insert(peer, row);
        Ok(())
    }

    pub fn take_out(&mut self, peer: u64) -> Result<(), Refused> {
        self.rows.remove(&row_of(peer)?);
        Ok(())
    }

    /// The maxes of a node that the peers present have told.
    fn maxes(&self, number: u64) -> impl Iterator<Item = u64> {
        self.rows.values().map(move |row| row[&number].1)
    }

    pub fn least(&self, number: u64) -> Result<u64, Refused> {
        if self.rows.is_empty() {
            return Err(22);
        }
        if !self.columns.contains(&number) {
            return Err(2);
        }
        Ok(self.maxes(number).min().expect("somebody is present"))
    }

    /// The pair that a peer told of a node; none where the peer is absent.
    pub fn told(&self, peer: u64, number: u64) -> Result<Option<Pair>, Refused> {
        let peer = row_of(peer)?;
        if !self.columns.contains(&number) {
            return Err(2);
        }
        Ok(self.rows.get(&peer).map(|row| row[&number]))
    }

    /// A scheduled record goes if its grace is over and every peer present has told a max not below its version.
    pub fn remove_carefully(&self, table: &mut Table, now: u64, grace: u64) -> Result<(), Refused> {
        if self.rows.is_empty() {
            return Err(22);
        }
        table.remove_records(|number, record| record.over(now, grace) && self.maxes(number).all(|max| max >= record.version));
        Ok(())
    }
}
