//! Who has seen what: a table with the grid of what its peers told.

use core::fmt;

use crate::ffi;
use crate::refusal::{Fault, Refusal, accepted, refusal};
use crate::table::{Answers, OwnedTable, Wanted};
use crate::wire::Edition;
use crate::{GRID, PEERS, TABLE};

/// The pair that a peer's digest told of a node.
#[derive(Clone, Copy, Debug, PartialEq, Eq, Hash)]
pub struct Pair {
    /// The highest version that the peer had removed. No call uses it.
    pub last_gc_version: u64,
    /// The highest version that the peer had heard of.
    pub max_version: u64,
}

/// A table and its grid: for eight peers and eight nodes, the pair that each peer's digest told last.
///
/// It owns both and hands the table out for reading alone. So nodes come and go through it, the grid's columns are always the table's nodes, and none of its calls is refused with
/// [`Refusal::BadTable`]. It is 31,061 bytes large, [`TABLE`](crate::TABLE) and [`GRID`]: put it where there is room.
///
/// A peer is present from the first digest that it told until it is taken out. A careful removal keeps a tombstone until every peer present has seen it:
///
/// ```
/// use kevdarosh::{DIGEST, Edition, Mode, OwnedTable, Pair, Wanted, Watched};
///
/// # fn main() -> Result<(), Box<dyn std::error::Error>> {
/// let mut hub = Watched::new(OwnedTable::new(Mode::Plain));
/// hub.add_node(7)?;
/// hub.write(7, b"lamp", b"on", Wanted::Set)?;
///
/// // Peers 0 and 1 have heard of the lamp, and told it.
/// let mut peers = [hub.table().clone(), hub.table().clone()];
/// let mut digest = [0; DIGEST];
/// for (number, peer) in (0..).zip(&peers) {
///     let n = peer.compute_digest(Edition::V0, &[], &mut digest)?;
///     hub.tell(number, Edition::V0, &digest[..n])?;
/// }
/// assert_eq!(hub.told(1, 7)?, Some(Pair { last_gc_version: 0, max_version: 1 }));
///
/// // The lamp is deleted. Peer 0 hears and tells it; peer 1 is switched off.
/// hub.delete(7, b"lamp", 1_000)?;
/// peers[0].delete(7, b"lamp", 1_000)?;
/// let n = peers[0].compute_digest(Edition::V0, &[], &mut digest)?;
/// hub.tell(0, Edition::V0, &digest[..n])?;
///
/// // The grace is over, and the tombstone stays for peer 1.
/// assert_eq!(hub.least_max(7)?, 1);
/// hub.remove_carefully(9_000, 500)?;
/// assert_eq!(hub.table().node_state(7)?.last_gc_version(), 0);
///
/// // Peer 1 is taken out, and nobody waits for it any more.
/// hub.take_out(1)?;
/// hub.remove_carefully(9_000, 500)?;
/// assert_eq!(hub.table().node_state(7)?.last_gc_version(), 2);
/// # Ok(())
/// # }
/// ```
///
/// What a net of hubs has of it, and under which conditions, stands in docs/NET.md, "Careful nets".
#[derive(Clone, PartialEq, Eq, Hash)]
pub struct Watched {
    table: OwnedTable,
    grid: [u8; GRID],
}

/// The table, and of the grid what the peers present told.
impl fmt::Debug for Watched {
    fn fmt(&self, f: &mut fmt::Formatter<'_>) -> fmt::Result {
        let mut shown = f.debug_struct("Watched");
        shown.field("table", &self.table);
        for peer in 0..PEERS as u64 {
            let told = |node| Some((node, self.told(peer, node).ok()??));
            for (node, pair) in self.table.nodes().into_iter().flatten().filter_map(told) {
                shown.field("told", &(peer, node, pair));
            }
        }
        shown.finish()
    }
}

impl Watched {
    /// The table with a grid of its nodes: nobody is present.
    ///
    /// ```
    /// # use kevdarosh::{Mode, OwnedTable, Watched};
    /// let mut table = OwnedTable::new(Mode::Plain);
    /// table.add_node(7).unwrap();
    /// assert_eq!(Watched::new(table).told(0, 7), Ok(None));
    /// ```
    pub fn new(table: OwnedTable) -> Watched {
        let mut grid = [0; GRID];
        match ffi::new_grid(&mut grid, table.store()) {
            0 => Watched { table, grid },
            _ => unreachable!("an owned table is good, and the bytes are as many as a grid has"),
        }
    }

    /// A table and its grid, as they were stored side by side.
    ///
    /// The two are stored one after the other, so that a crash between can leave an older grid beside a newer table. Where a node came or went between, that is found here. Where none did, the
    /// grid has what the peers told then; a peer that came since is absent in it until it tells again. Where a node went *and came again* between, it is not found, and the old pairs would
    /// stand for the new node: a hub that cannot rule this out begins with [`Watched::new`], and waits until its peers have told again.
    ///
    /// # Errors
    ///
    /// [`Refusal::BadTable`] where the one is no table that obeys the rules, the other no grid that does, or the columns of the grid are not the nodes of the table.
    ///
    /// ```
    /// use kevdarosh::{Mode, OwnedTable, Refusal, Watched};
    ///
    /// # fn main() -> Result<(), Refusal> {
    /// let mut hub = Watched::new(OwnedTable::new(Mode::Guarded));
    /// hub.add_node(7)?;
    /// let (table, grid) = (hub.table().as_bytes().to_vec(), hub.grid_bytes().to_vec());
    /// assert!(Watched::from_bytes(&table, &grid).is_ok());
    ///
    /// // Node 9 came, its table was stored, and the hub crashed before its grid was.
    /// hub.add_node(9)?;
    /// let table = hub.table().as_bytes().to_vec();
    /// assert_eq!(Watched::from_bytes(&table, &grid).err(), Some(Refusal::BadTable));
    /// let again = Watched::new(OwnedTable::from_bytes(&table)?);
    /// assert_eq!(again.told(0, 9)?, None);
    /// # Ok(())
    /// # }
    /// ```
    pub fn from_bytes(table: &[u8], grid: &[u8]) -> Result<Watched, Refusal> {
        let table = OwnedTable::from_bytes(table)?;
        let grid = grid.try_into().map_err(|_| Refusal::BadTable)?;
        let mut watched = Watched { table, grid };
        // No record is due at time 0 with the longest grace, so that nothing goes: the call asks for 14 and no more.
        match ffi::remove_carefully(&watched.grid, watched.table.store_mut(), 0, u64::MAX) {
            0 | NOBODY_PRESENT => Ok(watched),
            number => Err(refusal(number)),
        }
    }

    /// The bytes of the grid, to be stored beside the table's.
    ///
    /// ```
    /// # use kevdarosh::{Mode, OwnedTable, Watched};
    /// let mut hub = Watched::new(OwnedTable::new(Mode::Plain));
    /// hub.add_node(7).unwrap();
    /// assert_eq!(hub.grid_bytes().len(), kevdarosh::GRID);
    /// ```
    pub fn grid_bytes(&self) -> &[u8] {
        &self.grid
    }

    /// The table, for reading; its bytes are to be stored beside the grid's.
    ///
    /// ```
    /// # use kevdarosh::{Mode, OwnedTable, Watched};
    /// let mut hub = Watched::new(OwnedTable::new(Mode::Plain));
    /// hub.add_node(7).unwrap();
    /// assert_eq!(hub.table().nodes().unwrap().collect::<Vec<_>>(), [7]);
    /// ```
    pub fn table(&self) -> &OwnedTable {
        &self.table
    }

    /// The table by itself. What the peers told is gone.
    ///
    /// ```
    /// # use kevdarosh::{Mode, OwnedTable, Watched};
    /// let mut hub = Watched::new(OwnedTable::new(Mode::Plain));
    /// hub.add_node(7).unwrap();
    /// let table: OwnedTable = hub.into_table();
    /// ```
    pub fn into_table(self) -> OwnedTable {
        self.table
    }

    /// Adds a fresh node, and forgets that it was removed; its column comes at (0,0) for every peer. One that is held already stays as it is, and so does its column.
    ///
    /// # Errors
    ///
    /// [`Refusal::NinthNode`].
    ///
    /// ```
    /// # use kevdarosh::{Mode, OwnedTable, Refusal, Watched};
    /// let mut hub = Watched::new(OwnedTable::new(Mode::Plain));
    /// hub.add_node(7).unwrap();
    /// (0..7).for_each(|node| hub.add_node(node).unwrap());
    /// assert_eq!(hub.add_node(9), Err(Refusal::NinthNode));
    /// ```
    pub fn add_node(&mut self, node: u64) -> Result<(), Refusal> {
        accepted(ffi::grid_add_node(&mut self.grid, self.table.store_mut(), node))
    }

    /// Removes a node with its records and its column, and remembers its last heartbeat.
    ///
    /// # Errors
    ///
    /// [`Refusal::NoNode`].
    ///
    /// ```
    /// # use kevdarosh::{Mode, OwnedTable, Refusal, Watched};
    /// let mut hub = Watched::new(OwnedTable::new(Mode::Plain));
    /// hub.add_node(7).unwrap();
    /// assert_eq!(hub.remove_node(7), Ok(()));
    /// assert_eq!(hub.remove_node(7), Err(Refusal::NoNode));
    /// ```
    pub fn remove_node(&mut self, node: u64) -> Result<(), Refusal> {
        accepted(ffi::grid_remove_node(&mut self.grid, self.table.store_mut(), node))
    }

    /// What a peer's digest of this edition tells takes the place of all that the peer told before, also where a number falls; a node that it omits counts as (0,0), and one that the
    /// table does not hold is ignored. From then on the peer is present. A refused digest makes nobody present.
    ///
    /// Tell the edition in which the peer wrote: the bytes do not say it. In the wrong one they are refused, or tell other numbers, and a removal is then not careful.
    ///
    /// # Errors
    ///
    /// [`Refusal::BadPeer`], and of the digest [`Refusal::Cut`], [`Refusal::TooMany`]. With the second the fault says how many bytes the field lacks in which the digest ends.
    ///
    /// ```
    /// use kevdarosh::{Edition, Mode, OwnedTable, Refusal, Watched};
    ///
    /// let mut hub = Watched::new(OwnedTable::new(Mode::Plain));
    /// hub.add_node(7).unwrap();
    /// // The count says one entry, and 31 of its 32 bytes came.
    /// let mut digest = [0; 33];
    /// digest[0] = 1;
    /// let cut = hub.tell(0, Edition::V0, &digest).unwrap_err();
    /// assert_eq!((cut.refusal, cut.need), (Refusal::Cut, 1));
    /// assert_eq!(hub.tell(8, Edition::V0, &digest).unwrap_err().refusal, Refusal::BadPeer);
    /// assert_eq!(hub.told(0, 7), Ok(None));
    /// // An empty digest is one: the peer is present, and has seen nothing.
    /// hub.tell(0, Edition::V1, &[]).unwrap();
    /// assert_eq!(hub.least_max(7), Ok(0));
    /// ```
    pub fn tell(&mut self, peer: u64, edition: Edition, digest: &[u8]) -> Result<(), Fault> {
        let answer = ffi::tell(&mut self.grid, peer, edition.number(), digest);
        Fault::nowhere(answer.number, answer.need)
    }

    /// A peer is taken out, and what it told with it; of an absent one nothing changes.
    ///
    /// # Errors
    ///
    /// [`Refusal::BadPeer`].
    ///
    /// ```
    /// # use kevdarosh::{Edition, Mode, OwnedTable, Refusal, Watched};
    /// let mut hub = Watched::new(OwnedTable::new(Mode::Plain));
    /// hub.add_node(7).unwrap();
    /// hub.tell(3, Edition::V1, &[]).unwrap();
    /// hub.take_out(3).unwrap();
    /// assert_eq!(hub.told(3, 7), Ok(None));
    /// assert_eq!(hub.take_out(8), Err(Refusal::BadPeer));
    /// ```
    pub fn take_out(&mut self, peer: u64) -> Result<(), Refusal> {
        accepted(ffi::take_out(&mut self.grid, peer))
    }

    /// The least max that the peers present told of a node; an absent peer is not counted.
    ///
    /// # Errors
    ///
    /// [`Refusal::NobodyPresent`], [`Refusal::NoNode`].
    ///
    /// ```
    /// # use kevdarosh::{Edition, Mode, OwnedTable, Refusal, Watched};
    /// let mut hub = Watched::new(OwnedTable::new(Mode::Plain));
    /// hub.add_node(7).unwrap();
    /// assert_eq!(hub.least_max(7), Err(Refusal::NobodyPresent));
    /// hub.tell(3, Edition::V1, &[]).unwrap();
    /// assert_eq!(hub.least_max(7), Ok(0));
    /// assert_eq!(hub.least_max(8), Err(Refusal::NoNode));
    /// ```
    pub fn least_max(&self, node: u64) -> Result<u64, Refusal> {
        let answer = ffi::least_max(&self.grid, node);
        accepted(answer.number)?;
        Ok(answer.max)
    }

    /// What a peer told last of a node; none where the peer is absent.
    ///
    /// # Errors
    ///
    /// [`Refusal::BadPeer`], [`Refusal::NoNode`].
    ///
    /// ```
    /// # use kevdarosh::{Mode, OwnedTable, Refusal, Watched};
    /// let mut hub = Watched::new(OwnedTable::new(Mode::Plain));
    /// hub.add_node(7).unwrap();
    /// assert_eq!(hub.told(0, 7), Ok(None));
    /// assert_eq!(hub.told(8, 7), Err(Refusal::BadPeer));
    /// assert_eq!(hub.told(0, 8), Err(Refusal::NoNode));
    /// ```
    pub fn told(&self, peer: u64, node: u64) -> Result<Option<Pair>, Refusal> {
        let answer = ffi::seen_by(&self.grid, peer, node);
        accepted(answer.number)?;
        Ok((answer.found.0 != 0).then_some(Pair { last_gc_version: answer.last_gc, max_version: answer.max }))
    }

    /// Removes what was scheduled a grace ago and has a version that no peer present told a max below.
    ///
    /// # Errors
    ///
    /// [`Refusal::NobodyPresent`].
    ///
    /// ```
    /// # use kevdarosh::{Edition, Mode, OwnedTable, Refusal, Watched};
    /// let mut hub = Watched::new(OwnedTable::new(Mode::Plain));
    /// hub.add_node(7).unwrap();
    /// assert_eq!(hub.remove_carefully(9_000, 500), Err(Refusal::NobodyPresent));
    /// hub.tell(3, Edition::V1, &[]).unwrap();
    /// assert_eq!(hub.remove_carefully(9_000, 500), Ok(()));
    /// ```
    pub fn remove_carefully(&mut self, clock: u64, grace: u64) -> Result<(), Refusal> {
        accepted(ffi::remove_carefully(&self.grid, self.table.store_mut(), clock, grace))
    }

    /// As [`Table::write`](crate::Table::write).
    pub fn write(&mut self, node: u64, key: &[u8], value: &[u8], wanted: Wanted) -> Result<(), Refusal> {
        self.table.write(node, key, value, wanted)
    }

    /// As [`Table::delete`](crate::Table::delete).
    pub fn delete(&mut self, node: u64, key: &[u8], clock: u64) -> Result<(), Refusal> {
        self.table.delete(node, key, clock)
    }

    /// As [`Table::delete_after_ttl`](crate::Table::delete_after_ttl).
    pub fn delete_after_ttl(&mut self, node: u64, key: &[u8], clock: u64) -> Result<(), Refusal> {
        self.table.delete_after_ttl(node, key, clock)
    }

    /// As [`Table::gc_keys_marked_for_deletion`](crate::Table::gc_keys_marked_for_deletion): by the clock alone, whatever the peers told.
    pub fn gc_keys_marked_for_deletion(&mut self, clock: u64, grace: u64) -> Result<(), Refusal> {
        self.table.gc_keys_marked_for_deletion(clock, grace)
    }

    /// As [`Table::inc_heartbeat`](crate::Table::inc_heartbeat).
    pub fn inc_heartbeat(&mut self, node: u64) -> Result<(), Refusal> {
        self.table.inc_heartbeat(node)
    }

    /// As [`Table::try_set_heartbeat`](crate::Table::try_set_heartbeat).
    pub fn try_set_heartbeat(&mut self, node: u64, heartbeat: u64) -> Result<bool, Refusal> {
        self.table.try_set_heartbeat(node, heartbeat)
    }

    /// As [`Table::apply_delta`](crate::Table::apply_delta).
    pub fn apply_delta(&mut self, delta: &[u8], clock: u64) -> Result<Answers, Fault> {
        self.table.apply_delta(delta, clock)
    }

    /// As [`Table::apply_leaving`](crate::Table::apply_leaving).
    pub fn apply_leaving(&mut self, own: &[u64], delta: &[u8], clock: u64) -> Result<Answers, Fault> {
        self.table.apply_leaving(own, delta, clock)
    }
}

/// The number of [`Refusal::NobodyPresent`], which comes after 14.
const NOBODY_PRESENT: u64 = Refusal::NobodyPresent.number();

const _: () = assert!(size_of::<Watched>() == TABLE + GRID);
