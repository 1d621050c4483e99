//! Tables, their nodes and records.

use core::fmt;
use core::hash::{Hash, Hasher};

use crate::ffi::{self, Bytes, BytesMut, Kept, Lent, Size};
use crate::refusal::{Fault, LineFault, PlanFault, Refusal, accepted, refusal};
use crate::row::{self, Records};
use crate::wire::Edition;
use crate::{NODES, TABLE};

/// How a table takes deltas that come late. It is chosen when the table is made, and stays in its bytes.
#[derive(Clone, Copy, Debug, PartialEq, Eq, Hash)]
#[non_exhaustive]
pub enum Mode {
    /// As chitchat does: for deltas that arrive before the next digest is written.
    Plain,
    /// A late delta cannot bring back what was deleted: for links that deliver late, twice or out of order.
    Fenced,
    /// The same, and in a net of hubs a hub that hears others than the owner is not left behind.
    Guarded,
}

impl Mode {
    const fn number(self) -> usize {
        match self {
            Mode::Plain => 0,
            Mode::Fenced => 1,
            Mode::Guarded => 2,
        }
    }
}

/// Which records a table may have. It is chosen when the table is made, and stays in its bytes; it does not hang on the mode. Choose one for all hubs of a net: a meter
/// table refuses a whole delta for one record that it may not have.
#[derive(Clone, Copy, Debug, Default, PartialEq, Eq, Hash)]
#[non_exhaustive]
pub enum Profile {
    /// Any record.
    #[default]
    Free,
    /// Readings alone. A key is 1 to 32 of `a` to `z`, `0` to `9` and `.`; a value is 1 to 10 decimal digits, or empty where the record is deleted or has a TTL. What is not
    /// so is [`Refusal::BadForm`], and a write to the key `total` that states a smaller number than the record there, unless that is deleted, [`Refusal::SmallerTotal`].
    Meter,
    /// Two firms. Every key begins `m/` or `b/`, and each firm has at most [`EACH`](crate::EACH) records a node. Its calls go through [`Table::party`] and
    /// [`Table::party_mut`]; a call on the table itself is nobody's, which sees nothing and may write nothing ([`Refusal::OtherParty`]).
    Shared,
}

impl Profile {
    const fn number(self) -> usize {
        match self {
            Profile::Free => 0,
            Profile::Meter => 1,
            Profile::Shared => 2,
        }
    }
}

/// Who calls, where a table is shared by two firms ([`Profile::Shared`]). Other tables do not look at it.
#[derive(Clone, Copy, Debug, Default, PartialEq, Eq, Hash)]
pub enum Party {
    /// The metering firm: its keys begin `m/`.
    Metering,
    /// The building manager: its keys begin `b/`.
    Building,
    /// Neither of the two: no key of a shared table is its own.
    #[default]
    Nobody,
}

impl Party {
    pub(crate) const fn number(self) -> u64 {
        match self {
            Party::Metering => 1,
            Party::Building => 2,
            Party::Nobody => 0,
        }
    }
}

/// How a record stands to deletion.
#[derive(Clone, Copy, Debug, PartialEq, Eq, Hash)]
pub enum Status {
    /// It stays.
    Set,
    /// A tombstone: hidden, without a value, and removed after the grace.
    Deleted,
    /// It can be read, and is removed after the grace.
    DeleteAfterTtl,
}

impl Status {
    #[inline]
    pub(crate) fn of(byte: u64) -> Status {
        match byte {
            0 => Status::Set,
            1 => Status::Deleted,
            _ => Status::DeleteAfterTtl,
        }
    }
}

/// The status that a write wants. There are two; a caller cannot ask for another, so that a write is never refused with [`Refusal::BadTag`].
#[derive(Clone, Copy, Debug, PartialEq, Eq, Hash)]
pub enum Wanted {
    /// The record stays.
    Set,
    /// It can be read, and is scheduled for removal from this time on.
    Ttl(u64),
}

impl Wanted {
    /// The status by its number, and the time of the call, which counts under TTL alone.
    pub(crate) fn numbers(self) -> (u64, u64) {
        match self {
            Wanted::Set => (0, 0),
            Wanted::Ttl(clock) => (2, clock),
        }
    }
}

/// What a node has beside its records.
#[derive(Clone, Copy, Debug, PartialEq, Eq, Hash)]
pub struct Header {
    /// How often its owner has beaten.
    pub heartbeat: u64,
    /// The highest version that it has heard of.
    pub max_version: u64,
    /// The highest version that was removed.
    pub last_gc_version: u64,
}

/// A record, its texts being those very bytes of the table.
#[derive(Clone, Copy, PartialEq, Eq, Hash)]
pub struct Record<'a> {
    /// Its key.
    pub key: &'a [u8],
    /// Its value, empty in a tombstone.
    pub value: &'a [u8],
    /// Its version in the node.
    pub version: u64,
    /// How it stands to deletion.
    pub status: Status,
    /// Since when it is scheduled for removal, 0 where it is not.
    pub start: u64,
}

impl fmt::Debug for Record<'_> {
    fn fmt(&self, f: &mut fmt::Formatter<'_>) -> fmt::Result {
        let Record { key, value, version, status, start } = self;
        let (key, value) = (Text(key), Text(value));
        f.debug_struct("Record").field("key", &key).field("value", &value).field("version", version).field("status", status).field("start", start).finish()
    }
}

/// Bytes as they are written in a program.
struct Text<'a>(&'a [u8]);

impl fmt::Debug for Text<'_> {
    fn fmt(&self, f: &mut fmt::Formatter<'_>) -> fmt::Result {
        write!(f, "b\"{}\"", self.0.escape_ascii())
    }
}

impl Record<'_> {
    /// Whether a lookup does not find it: chitchat's `is_deleted`.
    ///
    /// ```
    /// # use kevdarosh::{Mode, OwnedTable, Wanted};
    /// let mut table = OwnedTable::new(Mode::Plain);
    /// table.add_node(7).unwrap();
    /// table.write(7, b"lamp", b"on", Wanted::Set).unwrap();
    /// table.delete(7, b"lamp", 1_000).unwrap();
    /// assert!(table.node_state(7).unwrap().get_versioned(b"lamp").unwrap().unwrap().is_hidden());
    /// ```
    pub fn is_hidden(&self) -> bool {
        self.status == Status::Deleted
    }
}

/// What was answered to a delta's part for one node.
#[derive(Clone, Copy, Debug, PartialEq, Eq, Hash)]
#[non_exhaustive]
pub enum Answer {
    /// From the future, or nothing new.
    Reject,
    /// Taken.
    Apply,
    /// The node began afresh, then the part was taken.
    ApplyAfterReset,
    /// Over 32 keys: the node stays as it is.
    Room,
    /// The table has no such node.
    Unknown,
    /// Older than the reset that the fenced or guarded node is in: it stays as it is.
    Fenced,
}

/// The answers to a delta, one for each node in it, in its order.
#[derive(Clone, Copy, Debug, PartialEq, Eq, Hash)]
pub struct Answers {
    codes: [u8; NODES],
    count: usize,
}

impl Answers {
    /// Each answer.
    ///
    /// ```
    /// # use kevdarosh::{Answer, Mode, OwnedTable, make_delta};
    /// let mut table = OwnedTable::new(Mode::Plain);
    /// let mut delta = [0; 100];
    /// let bytes = make_delta(b"op=node id=7 gc=0 from=0\nend=ok ops=1 bytes=25\n", &mut delta).unwrap();
    /// let answers = table.apply_delta(&delta[..bytes], 1_000).unwrap();
    /// assert!(answers.iter().eq([Answer::Unknown]));
    /// ```
    pub fn iter(&self) -> impl Iterator<Item = Answer> + '_ {
        self.codes[..self.count].iter().map(|code| match code {
            0 => Answer::Reject,
            1 => Answer::Apply,
            2 => Answer::ApplyAfterReset,
            3 => Answer::Room,
            4 => Answer::Unknown,
            _ => Answer::Fenced,
        })
    }

    /// Whether anything was taken.
    ///
    /// ```
    /// # use kevdarosh::{Mode, OwnedTable, make_delta};
    /// let mut table = OwnedTable::new(Mode::Plain);
    /// let mut delta = [0; 100];
    /// let bytes = make_delta(b"op=node id=7 gc=0 from=0\nend=ok ops=1 bytes=25\n", &mut delta).unwrap();
    /// let answers = table.apply_delta(&delta[..bytes], 1_000).unwrap();
    /// assert!(!answers.changed());
    /// ```
    pub fn changed(&self) -> bool {
        self.iter().any(|answer| matches!(answer, Answer::Apply | Answer::ApplyAfterReset))
    }
}

/// A delta that was computed: its operations, and its bytes at the front of the datagram.
#[derive(Clone, Copy, Debug, PartialEq, Eq, Hash)]
pub struct Computed {
    /// How many operations.
    pub ops: usize,
    /// How many bytes.
    pub bytes: usize,
}

/// A table: eight nodes of 32 records.
///
/// [`OwnedTable`] keeps its bytes private, so its calls go without the check of the whole table; [`LentTable`] and [`TableView`] are over bytes of yours, good
/// or not, and check them in each call: each can be refused with [`Refusal::BadTable`] before all else, and an owned one never.
///
/// Tables are equal where their bytes are. [`fmt::Debug`] shows the mode, the profile and the nodes with their records, those of a shared table for each party.
#[derive(Clone, Copy)]
pub struct Table<S> {
    store: S,
}

/// A table that keeps its own bytes. It is 29,964 bytes large: put it where there is room, as in a `Box`.
///
/// All its methods stand at [`Table`]:
///
/// - to make one: [`new`](OwnedTable::new), [`from_bytes`](OwnedTable::from_bytes); to store it: [`as_bytes`](Table::as_bytes); to look at it: [`listing`](Table::listing);
/// - its nodes: [`add_node`](Table::add_node), [`remove_node`](Table::remove_node), [`nodes`](Table::nodes), [`node_state`](Table::node_state),
///   [`last_heartbeat_if_deleted`](Table::last_heartbeat_if_deleted), and its [`mode`](Table::mode);
/// - its readings: [`get`](Table::get), [`get_over`](Table::get_over), and of a node those of [`NodeState`];
/// - its owner's calls: [`write`](Table::write), [`delete`](Table::delete), [`delete_after_ttl`](Table::delete_after_ttl), [`inc_heartbeat`](Table::inc_heartbeat);
/// - of a profile: [`with_profile`](OwnedTable::with_profile), [`profile`](Table::profile); two firms on a shared one: [`party`](Table::party) to read,
///   [`party_mut`](Table::party_mut) to write;
/// - the clock's: [`gc_keys_marked_for_deletion`](Table::gc_keys_marked_for_deletion);
/// - gossip: [`compute_digest`](Table::compute_digest), [`compute_partial_delta_respecting_mtu`](Table::compute_partial_delta_respecting_mtu), [`compute_plan`](Table::compute_plan),
///   [`plan_fault`](Table::plan_fault), [`apply_delta`](Table::apply_delta), [`apply_leaving`](Table::apply_leaving), [`try_set_heartbeat`](Table::try_set_heartbeat).
///
/// One for the whole program, with the standard library:
///
/// ```
/// use std::sync::{LazyLock, Mutex};
/// use kevdarosh::{Mode, OwnedTable};
///
/// static TABLE: LazyLock<Mutex<OwnedTable>> = LazyLock::new(|| Mutex::new(OwnedTable::new(Mode::Guarded)));
///
/// TABLE.lock().unwrap().add_node(7).unwrap();
/// ```
pub type OwnedTable = Table<Kept>;

/// A node of an [`OwnedTable`].
pub type OwnedNode<'a> = NodeState<'a, Kept>;

/// A table over bytes that are lent to it. Each call checks them, and answers [`Refusal::BadTable`] where they are no table.
pub type LentTable<'a> = Table<&'a mut [u8]>;

/// A table over bytes that are lent for reading.
pub type TableView<'a> = Table<&'a [u8]>;

impl<S: Bytes, T: Bytes> PartialEq<Table<T>> for Table<S> {
    fn eq(&self, other: &Table<T>) -> bool {
        self.as_bytes() == other.as_bytes()
    }
}

impl<S: Bytes> Eq for Table<S> {}

impl<S: Bytes> Hash for Table<S> {
    fn hash<H: Hasher>(&self, state: &mut H) {
        self.as_bytes().hash(state);
    }
}

impl<S: Bytes> fmt::Debug for Table<S> {
    fn fmt(&self, f: &mut fmt::Formatter<'_>) -> fmt::Result {
        let (mode, profile) = match (self.mode(), self.profile()) {
            (Ok(mode), Ok(profile)) => (mode, profile),
            (Err(refusal), _) | (_, Err(refusal)) => return f.debug_tuple("Table").field(&refusal).finish(),
        };
        let mut shown = f.debug_struct("Table");
        shown.field("mode", &mode).field("profile", &profile);
        // Nobody sees the records of a shared table; each party sees its own.
        let parties: &[Party] = if profile == Profile::Shared { &[Party::Building, Party::Metering] } else { &[Party::Nobody] };
        for number in self.nodes().into_iter().flatten() {
            for node in parties.iter().filter_map(|party| self.party(*party).node_state(number).ok()) {
                shown.field("node", &node);
            }
        }
        shown.finish()
    }
}

impl OwnedTable {
    /// An empty table, free in its records.
    ///
    /// It is made by the library, so this is no `const fn`.
    ///
    /// ```
    /// # use kevdarosh::{Mode, OwnedTable};
    /// let table = OwnedTable::new(Mode::Guarded);
    /// assert_eq!(table.nodes().unwrap().count(), 0);
    /// ```
    pub fn new(mode: Mode) -> OwnedTable {
        OwnedTable::with_profile(mode, Profile::Free)
    }

    /// An empty table of this profile.
    ///
    /// ```
    /// # use kevdarosh::{Mode, OwnedTable, Profile, Refusal, Wanted};
    /// let mut table = OwnedTable::with_profile(Mode::Guarded, Profile::Meter);
    /// table.add_node(7).unwrap();
    /// table.write(7, b"total", b"0041823", Wanted::Set).unwrap();
    /// assert_eq!(table.write(7, b"total", b"41283", Wanted::Set), Err(Refusal::SmallerTotal));
    /// assert_eq!(table.write(7, b"Total", b"41823", Wanted::Set), Err(Refusal::BadForm));
    /// ```
    pub fn with_profile(mode: Mode, profile: Profile) -> OwnedTable {
        match Kept::new(mode.number(), profile.number()) {
            Ok(store) => Table { store },
            // Ours have numbers that the library knows.
            Err(_) => unreachable!("the library knows every mode and every profile"),
        }
    }

    /// The table of these bytes, as they were stored.
    ///
    /// # Errors
    ///
    /// [`Refusal::BadTable`] where they are no table that obeys the rules.
    ///
    /// ```
    /// # use kevdarosh::{Mode, OwnedTable, Refusal};
    /// let table = OwnedTable::new(Mode::Guarded);
    /// let mut bytes = table.as_bytes().to_vec();
    /// assert_eq!(OwnedTable::from_bytes(&bytes), Ok(table));
    /// bytes[0] = 9; // a table of nine nodes
    /// assert_eq!(OwnedTable::from_bytes(&bytes), Err(Refusal::BadTable));
    /// ```
    pub fn from_bytes(bytes: &[u8]) -> Result<OwnedTable, Refusal> {
        Kept::checked(bytes).map(|store| Table { store }).map_err(refusal)
    }
}

impl<'a> LentTable<'a> {
    /// A table over these bytes, as they are.
    ///
    /// ```
    /// # use kevdarosh::{LentTable, Mode, OwnedTable};
    /// let mut bytes = OwnedTable::new(Mode::Plain).as_bytes().to_vec();
    /// LentTable::over(&mut bytes).add_node(7).unwrap();
    /// ```
    pub fn over(bytes: &'a mut [u8]) -> LentTable<'a> {
        Table { store: bytes }
    }

    /// The same bytes for reading, for as long as they are lent.
    ///
    /// ```
    /// # use kevdarosh::{LentTable, Mode, TABLE};
    /// let mut bytes = [0; TABLE];
    /// let table = LentTable::new_in(&mut bytes, Mode::Fenced).unwrap().into_view();
    /// assert_eq!(table.mode(), Ok(Mode::Fenced));
    /// ```
    pub fn into_view(self) -> TableView<'a> {
        Table { store: self.store }
    }

    /// Makes these [`TABLE`] bytes an empty table, free in its records.
    ///
    /// # Errors
    ///
    /// [`Refusal::BadTable`] where they are not as many.
    ///
    /// ```
    /// # use kevdarosh::{LentTable, Mode, Refusal, TABLE};
    /// assert!(LentTable::new_in(&mut [0; TABLE], Mode::Plain).is_ok());
    /// assert_eq!(LentTable::new_in(&mut [0; 100], Mode::Plain), Err(Refusal::BadTable));
    /// ```
    pub fn new_in(bytes: &'a mut [u8], mode: Mode) -> Result<LentTable<'a>, Refusal> {
        LentTable::with_profile_in(bytes, mode, Profile::Free)
    }

    /// Makes these [`TABLE`] bytes an empty table of this profile.
    ///
    /// # Errors
    ///
    /// [`Refusal::BadTable`] where they are not as many.
    ///
    /// ```
    /// # use kevdarosh::{LentTable, Mode, Profile, TABLE};
    /// let mut bytes = [0; TABLE];
    /// let table = LentTable::with_profile_in(&mut bytes, Mode::Plain, Profile::Meter).unwrap();
    /// assert_eq!(table.profile(), Ok(Profile::Meter));
    /// ```
    pub fn with_profile_in(bytes: &'a mut [u8], mode: Mode, profile: Profile) -> Result<LentTable<'a>, Refusal> {
        accepted(ffi::new_table(bytes, mode.number(), profile.number()))?;
        Ok(Table { store: bytes })
    }
}

impl<'a> TableView<'a> {
    /// A view of these bytes, as they are.
    ///
    /// ```
    /// # use kevdarosh::{Mode, OwnedTable, TableView};
    /// let stored = OwnedTable::new(Mode::Fenced).as_bytes().to_vec();
    /// assert_eq!(TableView::over(&stored).mode(), Ok(Mode::Fenced));
    /// ```
    pub fn over(bytes: &'a [u8]) -> TableView<'a> {
        Table { store: bytes }
    }

    /// A node, to read it; what it tells lives as long as the bytes, not only as long as the view.
    ///
    /// # Errors
    ///
    /// [`Refusal::BadTable`], [`Refusal::NoNode`].
    ///
    /// ```
    /// use kevdarosh::{Mode, OwnedTable, Refusal, TableView, Wanted};
    ///
    /// fn total(bytes: &[u8]) -> Result<Option<&[u8]>, Refusal> {
    ///     TableView::over(bytes).into_node_state(7)?.get(b"total")
    /// }
    ///
    /// # fn main() -> Result<(), Refusal> {
    /// let mut table = OwnedTable::new(Mode::Plain);
    /// table.add_node(7)?;
    /// table.write(7, b"total", b"41", Wanted::Set)?;
    /// assert_eq!(total(table.as_bytes())?, Some(&b"41"[..]));
    /// # Ok(())
    /// # }
    /// ```
    #[inline]
    pub fn into_node_state(self, node: u64) -> Result<NodeState<'a, &'a [u8]>, Refusal> {
        NodeState::of(Lent::over(self.store), Party::Nobody, node)
    }
}

/// Calls that read. A lent table is refused with [`Refusal::BadTable`] before all else.
impl<S: Bytes> Table<S> {
    /// The bytes, to be stored or sent: a table on disk is its bytes.
    ///
    /// ```
    /// # use kevdarosh::{Mode, OwnedTable, TABLE};
    /// assert_eq!(OwnedTable::new(Mode::Plain).as_bytes().len(), TABLE);
    /// ```
    pub fn as_bytes(&self) -> &[u8] {
        self.store.bytes()
    }

    /// The listing of the table in words at the front of the buffer: a line for its mode and profile, for each node and each of its records, for each removed node, and for
    /// the end; or the one line of bytes that are no table, with 14 and the first thing that is wrong where it has a name. How many bytes; [`crate::TABLE_LISTING`] are always
    /// enough. Good tables with equal listings are equal. It shows every party's records.
    ///
    /// # Errors
    ///
    /// [`Refusal::NoPlace`].
    ///
    /// ```
    /// # use kevdarosh::{Mode, OwnedTable, Refusal, TableView, Wanted};
    /// let mut table = OwnedTable::new(Mode::Guarded);
    /// table.add_node(7).unwrap();
    /// table.write(7, b"total", b"4 kWh", Wanted::Set).unwrap();
    /// let mut text = [0; 1_000];
    /// let bytes = table.listing(&mut text).unwrap();
    /// let lines = "mode=guarded profile=free\nnode=7 heartbeat=0 max=1 gc=0\nkey=total value=4%20kWh version=1 status=set start=0\nend=ok nodes=1 records=1 removed=0\n";
    /// assert_eq!(core::str::from_utf8(&text[..bytes]), Ok(lines));
    /// assert_eq!(table.listing(&mut text[..100]), Err(Refusal::NoPlace));
    ///
    /// // A file that was cut off.
    /// let bytes = TableView::over(&table.as_bytes()[..9]).listing(&mut text).unwrap();
    /// assert_eq!(&text[..bytes], b"end=refused code=14 length=9\n");
    /// ```
    pub fn listing(&self, out: &mut [u8]) -> Result<usize, Refusal> {
        let answer = ffi::list_table(self.store.bytes(), out);
        accepted(answer.number)?;
        Ok(answer.count.get())
    }

    /// How the table takes late deltas.
    ///
    /// # Errors
    ///
    /// [`Refusal::BadTable`].
    ///
    /// ```
    /// # use kevdarosh::{Mode, OwnedTable};
    /// assert_eq!(OwnedTable::new(Mode::Guarded).mode(), Ok(Mode::Guarded));
    /// ```
    pub fn mode(&self) -> Result<Mode, Refusal> {
        accepted(if S::GOOD { 0 } else { ffi::check(self.store.bytes()) })?;
        Ok(match self.store.bytes()[crate::MODE_AT] {
            0 => Mode::Plain,
            1 => Mode::Fenced,
            _ => Mode::Guarded,
        })
    }

    /// Which records the table may have.
    ///
    /// # Errors
    ///
    /// [`Refusal::BadTable`].
    ///
    /// ```
    /// # use kevdarosh::{Mode, OwnedTable, Profile};
    /// assert_eq!(OwnedTable::new(Mode::Guarded).profile(), Ok(Profile::Free));
    /// ```
    pub fn profile(&self) -> Result<Profile, Refusal> {
        accepted(if S::GOOD { 0 } else { ffi::check(self.store.bytes()) })?;
        Ok(match self.store.bytes()[crate::PROFILE_AT] {
            0 => Profile::Free,
            1 => Profile::Meter,
            _ => Profile::Shared,
        })
    }

    /// The numbers of the nodes, ascending. A lent table is checked once for them.
    ///
    /// # Errors
    ///
    /// [`Refusal::BadTable`].
    ///
    /// ```
    /// # use kevdarosh::{Mode, OwnedTable};
    /// let mut table = OwnedTable::new(Mode::Plain);
    /// table.add_node(12).unwrap();
    /// table.add_node(7).unwrap();
    /// assert_eq!(table.nodes().unwrap().collect::<Vec<_>>(), [7, 12]);
    /// ```
    #[inline]
    pub fn nodes(&self) -> Result<impl ExactSizeIterator<Item = u64> + '_, Refusal> {
        let answer = ffi::node_count(&self.store);
        accepted(answer.number)?;
        Ok(row::numbers(self.store.bytes(), answer.count.get()))
    }

    /// A node, to read it.
    ///
    /// # Errors
    ///
    /// [`Refusal::BadTable`], [`Refusal::NoNode`].
    ///
    /// ```
    /// # use kevdarosh::{Mode, OwnedTable, Refusal};
    /// let mut table = OwnedTable::new(Mode::Plain);
    /// table.add_node(7).unwrap();
    /// assert_eq!(table.node_state(7).unwrap().max_version(), 0);
    /// assert_eq!(table.node_state(8).unwrap_err(), Refusal::NoNode);
    /// ```
    #[inline]
    pub fn node_state(&self, node: u64) -> Result<NodeState<'_, S>, Refusal> {
        self.party(Party::Nobody).node_state(node)
    }

    /// The value of a key, as those very bytes of the table; none where there is no such key, or its record is deleted.
    ///
    /// # Errors
    ///
    /// [`Refusal::BadTable`], [`Refusal::NoNode`], [`Refusal::TooLong`], in a shared table [`Refusal::OtherParty`].
    ///
    /// ```
    /// # use kevdarosh::{Mode, OwnedTable, Refusal, Wanted};
    /// let mut table = OwnedTable::new(Mode::Plain);
    /// table.add_node(7).unwrap();
    /// table.write(7, b"total", b"41", Wanted::Set).unwrap();
    /// assert_eq!(table.get(7, b"total"), Ok(Some(&b"41"[..])));
    /// assert_eq!(table.get(7, b"flow"), Ok(None));
    /// assert_eq!(table.get(8, b"total"), Err(Refusal::NoNode));
    /// ```
    #[inline]
    pub fn get(&self, node: u64, key: &[u8]) -> Result<Option<&[u8]>, Refusal> {
        self.party(Party::Nobody).get(node, key)
    }

    /// The table as this party sees it, for reading: with its own records alone where the table is shared, else all of it.
    ///
    /// ```
    /// # use kevdarosh::{Mode, OwnedTable, Party, Profile, Refusal, Wanted};
    /// let mut table = OwnedTable::with_profile(Mode::Guarded, Profile::Shared);
    /// table.add_node(7).unwrap();
    /// table.party_mut(Party::Building).write(7, b"b/name", b"Stair B", Wanted::Set).unwrap();
    /// table.party_mut(Party::Metering).write(7, b"m/total", b"41", Wanted::Set).unwrap();
    /// let firm = table.party(Party::Metering);
    /// assert_eq!(firm.get(7, b"m/total"), Ok(Some(&b"41"[..])));
    /// assert_eq!(firm.get(7, b"b/name"), Err(Refusal::OtherParty));
    /// assert_eq!(firm.node_state(7).unwrap().key_values().count(), 1);
    /// ```
    #[inline]
    pub fn party(&self, party: Party) -> PartyTable<'_, S> {
        PartyTable { table: Lent::of(&self.store), party }
    }

    /// The last heartbeat of a node that was removed; none where the table does not remember it. It remembers the last sixteen.
    ///
    /// # Errors
    ///
    /// [`Refusal::BadTable`].
    ///
    /// ```
    /// # use kevdarosh::{Mode, OwnedTable};
    /// let mut table = OwnedTable::new(Mode::Plain);
    /// table.add_node(7).unwrap();
    /// table.inc_heartbeat(7).unwrap();
    /// table.remove_node(7).unwrap();
    /// assert_eq!(table.last_heartbeat_if_deleted(7), Ok(Some(1)));
    /// assert_eq!(table.last_heartbeat_if_deleted(8), Ok(None));
    /// ```
    pub fn last_heartbeat_if_deleted(&self, node: u64) -> Result<Option<u64>, Refusal> {
        let answer = ffi::last_heartbeat(&self.store, node);
        accepted(answer.number)?;
        Ok((answer.found.0 != 0).then_some(answer.heartbeat))
    }

    /// The table's digest without the excluded nodes, in this edition, at the front of the datagram: how many bytes. [`crate::DIGEST`] bytes are always enough.
    ///
    /// # Errors
    ///
    /// [`Refusal::BadTable`], [`Refusal::NoPlace`].
    ///
    /// ```
    /// # use kevdarosh::{DIGEST, Edition, Mode, OwnedTable, Refusal};
    /// let mut table = OwnedTable::new(Mode::Plain);
    /// table.add_node(7).unwrap();
    /// let mut digest = [0; DIGEST];
    /// assert_eq!(table.compute_digest(Edition::V0, &[], &mut digest), Ok(34));
    /// assert_eq!(table.compute_digest(Edition::V0, &[7], &mut digest), Ok(2));
    /// assert_eq!(table.compute_digest(Edition::V0, &[], &mut [0; 33]), Err(Refusal::NoPlace));
    /// ```
    pub fn compute_digest(&self, edition: Edition, excluded: &[u64], datagram: &mut [u8]) -> Result<usize, Refusal> {
        let answer = ffi::write_digest(&self.store, edition.number(), excluded, datagram, 0);
        accepted(answer.number)?;
        Ok(answer.count.get())
    }

    /// The delta for a peer's digest of this edition, of at most `mtu` bytes, without the excluded nodes, at the front of the datagram. Of two nodes with as much to tell the
    /// one with the smaller tie goes first: one number for each node of the table, random ones for a fair share.
    ///
    /// # Errors
    ///
    /// [`Refusal::BadTable`], [`Refusal::BadMtu`], [`Refusal::NoPlace`], [`Refusal::BadTies`], and of the digest [`Refusal::Cut`], [`Refusal::TooMany`].
    ///
    /// ```
    /// # use kevdarosh::{Computed, Edition, Mode, OwnedTable, Refusal, Wanted};
    /// let mut table = OwnedTable::new(Mode::Plain);
    /// table.add_node(7).unwrap();
    /// table.write(7, b"total", b"41", Wanted::Set).unwrap();
    /// // A peer that knows of nothing: the count of its digest is 0.
    /// let mut delta = [0; 100];
    /// let sent = table.compute_partial_delta_respecting_mtu(Edition::V0, &[0, 0], 100, &[], &[0], &mut delta).unwrap();
    /// assert_eq!(sent, Computed { ops: 2, bytes: 46 });
    /// let cut = table.compute_partial_delta_respecting_mtu(Edition::V0, &[0], 100, &[], &[0], &mut delta).unwrap_err();
    /// assert_eq!((cut.refusal, cut.need), (Refusal::Cut, 1));
    /// ```
    pub fn compute_partial_delta_respecting_mtu(
        &self,
        edition: Edition,
        digest: &[u8],
        mtu: usize,
        excluded: &[u64],
        ties: &[u64],
        datagram: &mut [u8],
    ) -> Result<Computed, Fault> {
        let answer = ffi::compute(&self.store, edition.number(), digest, mtu, excluded, ties, datagram, 0);
        Fault::nowhere(answer.number, answer.need)?;
        Ok(Computed { ops: answer.ops.get(), bytes: answer.bytes.get() })
    }

    /// The delta of a plan for a peer's digest of this edition, at the front of the datagram: these nodes in this order, and of each so many of its stale records,
    /// the lowest versions first; where a node has none, its max. The plan is accepted exactly if every node is held, not excluded, named once, and stale; each
    /// count is at most the node's stale records, and not 0 unless there are none; and the bytes fit the MTU. Else
    /// [`Table::plan_fault`] tells which line is at fault. Nothing of an accepted plan is cut or dropped.
    ///
    /// # Errors
    ///
    /// [`Refusal::BadTable`], [`Refusal::BadMtu`], [`Refusal::NoPlace`], of the digest [`Refusal::Cut`], [`Refusal::TooMany`], then [`Refusal::BadPlan`].
    ///
    /// ```
    /// use kevdarosh::{DIGEST, Edition, LineFault, Mode, OwnedTable, PlanFault, Refusal, Wanted};
    ///
    /// # fn main() -> Result<(), Box<dyn std::error::Error>> {
    /// // Flat 12 has waited longest, so the planner wants its total first, and then one reading of flat 7.
    /// let (mut hub, mut peer) = (OwnedTable::new(Mode::Guarded), OwnedTable::new(Mode::Guarded));
    /// for flat in [7, 12] {
    ///     hub.add_node(flat)?;
    ///     peer.add_node(flat)?;
    /// }
    /// hub.write(7, b"flow", b"3", Wanted::Set)?;
    /// hub.write(7, b"total", b"41", Wanted::Set)?;
    /// hub.write(12, b"total", b"88", Wanted::Set)?;
    /// let (mut digest, mut delta) = ([0; DIGEST], [0; 200]);
    /// let n = peer.compute_digest(Edition::V0, &[], &mut digest)?;
    ///
    /// // Two records of flat 12 are more than it has: nothing is sent, and the first line is told.
    /// let asked = hub.compute_plan(Edition::V0, &digest[..n], 200, &[], &[12, 7], &[2, 1], &mut delta);
    /// assert_eq!(asked.map_err(|fault| fault.refusal), Err(Refusal::BadPlan));
    /// assert_eq!(hub.plan_fault(Edition::V0, &digest[..n], 200, &[], &[12, 7], &[2, 1])?, Some(PlanFault { line: 0, why: LineFault::CountAbove }));
    ///
    /// let sent = hub.compute_plan(Edition::V0, &digest[..n], 200, &[], &[12, 7], &[1, 1], &mut delta)?;
    /// peer.apply_delta(&delta[..sent.bytes], 1_000)?;
    /// assert_eq!(peer.get(12, b"total")?, Some(&b"88"[..]));
    /// assert_eq!((peer.get(7, b"flow")?, peer.get(7, b"total")?), (Some(&b"3"[..]), None));
    /// # Ok(())
    /// # }
    /// ```
    #[allow(clippy::too_many_arguments)]
    pub fn compute_plan(
        &self,
        edition: Edition,
        digest: &[u8],
        mtu: usize,
        excluded: &[u64],
        nodes: &[u64],
        counts: &[u64],
        datagram: &mut [u8],
    ) -> Result<Computed, Fault> {
        let answer = ffi::compute_plan(&self.store, edition.number(), digest, mtu, excluded, nodes, counts, datagram, 0);
        Fault::nowhere(answer.number, answer.need)?;
        Ok(Computed { ops: answer.ops.get(), bytes: answer.bytes.get() })
    }

    /// The first line of a plan that is at fault; none exactly where [`Table::compute_plan`] accepts it. [`Table::compute_plan`] has an example.
    ///
    /// # Errors
    ///
    /// [`Refusal::BadTable`], [`Refusal::BadMtu`], and of the digest [`Refusal::Cut`], [`Refusal::TooMany`].
    ///
    /// ```
    /// # use kevdarosh::{Edition, LineFault, Mode, OwnedTable, PlanFault};
    /// let table = OwnedTable::new(Mode::Plain);
    /// let fault = table.plan_fault(Edition::V0, &[0, 0], 100, &[], &[7], &[1]).unwrap();
    /// assert_eq!(fault, Some(PlanFault { line: 0, why: LineFault::NotHeld }));
    /// ```
    pub fn plan_fault(
        &self,
        edition: Edition,
        digest: &[u8],
        mtu: usize,
        excluded: &[u64],
        nodes: &[u64],
        counts: &[u64],
    ) -> Result<Option<PlanFault>, Fault> {
        let answer = ffi::plan_fault(&self.store, edition.number(), digest, mtu, excluded, nodes, counts);
        if answer.number == Refusal::BadPlan.number() {
            return Ok(Some(PlanFault { line: answer.line.get(), why: LineFault::of(answer.why) }));
        }
        Fault::nowhere(answer.number, answer.need)?;
        Ok(None)
    }

    /// Where its bytes are, for a call.
    #[inline]
    pub(crate) fn store(&self) -> &S {
        &self.store
    }
}

/// Calls that change the table. A refused one changes nothing. A lent table is refused with [`Refusal::BadTable`] before all else.
impl<S: BytesMut> Table<S> {
    /// Its bytes, for a call that keeps them.
    #[inline]
    pub(crate) fn store_mut(&mut self) -> &mut S {
        &mut self.store
    }

    /// Adds a fresh node, and forgets that it was removed; one that is held already stays as it is.
    ///
    /// # Errors
    ///
    /// [`Refusal::BadTable`], [`Refusal::NinthNode`].
    ///
    /// ```
    /// # use kevdarosh::{Mode, OwnedTable, Refusal};
    /// let mut table = OwnedTable::new(Mode::Plain);
    /// (1..=8).for_each(|node| table.add_node(node).unwrap());
    /// assert_eq!(table.add_node(9), Err(Refusal::NinthNode));
    /// ```
    pub fn add_node(&mut self, node: u64) -> Result<(), Refusal> {
        accepted(ffi::add_node(&mut self.store, node))
    }

    /// Removes a node and its records, and remembers it with its last heartbeat.
    ///
    /// # Errors
    ///
    /// [`Refusal::BadTable`], [`Refusal::NoNode`].
    ///
    /// ```
    /// # use kevdarosh::{Mode, OwnedTable, Refusal};
    /// let mut table = OwnedTable::new(Mode::Plain);
    /// table.add_node(7).unwrap();
    /// assert_eq!(table.remove_node(7), Ok(()));
    /// assert_eq!(table.remove_node(7), Err(Refusal::NoNode));
    /// ```
    pub fn remove_node(&mut self, node: u64) -> Result<(), Refusal> {
        accepted(ffi::remove_node(&mut self.store, node))
    }

    /// The key's record takes this value under the wanted status. Where it has both already, nothing changes, and no version is given: a record under
    /// TTL keeps the time that it is scheduled from.
    ///
    /// # Errors
    ///
    /// [`Refusal::BadTable`], [`Refusal::NoNode`], [`Refusal::TooLong`], in a meter table [`Refusal::BadForm`], in a shared one [`Refusal::OtherParty`], in a meter table
    /// [`Refusal::SmallerTotal`], then [`Refusal::NodeFull`], [`Refusal::Exhausted`].
    ///
    /// ```
    /// # use kevdarosh::{Mode, OwnedTable, Refusal, Wanted};
    /// let mut table = OwnedTable::new(Mode::Plain);
    /// table.add_node(7).unwrap();
    /// table.write(7, b"total", b"41", Wanted::Set).unwrap();
    /// table.write(7, b"total", b"41", Wanted::Set).unwrap();
    /// assert_eq!(table.node_state(7).unwrap().max_version(), 1);
    /// table.write(7, b"lease", b"hub 3", Wanted::Ttl(1_000)).unwrap();
    /// assert_eq!(table.write(7, &[b'k'; 33], b"", Wanted::Set), Err(Refusal::TooLong));
    /// ```
    pub fn write(&mut self, node: u64, key: &[u8], value: &[u8], wanted: Wanted) -> Result<(), Refusal> {
        self.party_mut(Party::Nobody).write(node, key, value, wanted)
    }

    /// The key's record becomes a tombstone, which is removed after the grace.
    ///
    /// # Errors
    ///
    /// [`Refusal::BadTable`], [`Refusal::NoNode`], [`Refusal::TooLong`], in a shared table [`Refusal::OtherParty`], [`Refusal::NoKey`], [`Refusal::Exhausted`].
    ///
    /// ```
    /// # use kevdarosh::{Mode, OwnedTable, Refusal, Wanted};
    /// let mut table = OwnedTable::new(Mode::Plain);
    /// table.add_node(7).unwrap();
    /// table.write(7, b"lamp", b"on", Wanted::Set).unwrap();
    /// table.delete(7, b"lamp", 1_000).unwrap();
    /// assert_eq!(table.get(7, b"lamp"), Ok(None));
    /// assert_eq!(table.delete(7, b"door", 1_000), Err(Refusal::NoKey));
    /// ```
    pub fn delete(&mut self, node: u64, key: &[u8], clock: u64) -> Result<(), Refusal> {
        self.party_mut(Party::Nobody).delete(node, key, clock)
    }

    /// The key's record keeps its value and is removed after the grace.
    ///
    /// # Errors
    ///
    /// [`Refusal::BadTable`], [`Refusal::NoNode`], [`Refusal::TooLong`], in a shared table [`Refusal::OtherParty`], [`Refusal::NoKey`], [`Refusal::Exhausted`].
    ///
    /// ```
    /// # use kevdarosh::{Mode, OwnedTable, Wanted};
    /// let mut table = OwnedTable::new(Mode::Plain);
    /// table.add_node(7).unwrap();
    /// table.write(7, b"lamp", b"on", Wanted::Set).unwrap();
    /// table.delete_after_ttl(7, b"lamp", 1_000).unwrap();
    /// assert_eq!(table.get(7, b"lamp"), Ok(Some(&b"on"[..])));
    /// table.gc_keys_marked_for_deletion(1_500, 500).unwrap();
    /// assert_eq!(table.get(7, b"lamp"), Ok(None));
    /// ```
    pub fn delete_after_ttl(&mut self, node: u64, key: &[u8], clock: u64) -> Result<(), Refusal> {
        self.party_mut(Party::Nobody).delete_after_ttl(node, key, clock)
    }

    /// The table as this party sees it, for its writes and deletes. There is one at a time: it borrows the table alone.
    ///
    /// ```
    /// # use kevdarosh::{Mode, OwnedTable, Party, Profile, Refusal, Wanted};
    /// let mut table = OwnedTable::with_profile(Mode::Guarded, Profile::Shared);
    /// table.add_node(7).unwrap();
    /// let mut firm = table.party_mut(Party::Metering);
    /// firm.write(7, b"m/total", b"41", Wanted::Set).unwrap();
    /// assert_eq!(firm.write(7, b"b/name", b"Stair B", Wanted::Set), Err(Refusal::OtherParty));
    /// assert_eq!(firm.view().get(7, b"m/total"), Ok(Some(&b"41"[..])));
    /// ```
    #[inline]
    pub fn party_mut(&mut self, party: Party) -> PartyTableMut<'_, S> {
        PartyTableMut { store: &mut self.store, party }
    }

    /// Removes what was scheduled a grace ago, of all nodes.
    ///
    /// # Errors
    ///
    /// [`Refusal::BadTable`].
    ///
    /// ```
    /// # use kevdarosh::{Mode, OwnedTable, Wanted};
    /// let mut table = OwnedTable::new(Mode::Plain);
    /// table.add_node(7).unwrap();
    /// table.write(7, b"lamp", b"on", Wanted::Set).unwrap();
    /// table.delete(7, b"lamp", 1_000).unwrap();
    /// table.gc_keys_marked_for_deletion(1_499, 500).unwrap();
    /// assert_eq!(table.node_state(7).unwrap().last_gc_version(), 0);
    /// table.gc_keys_marked_for_deletion(1_500, 500).unwrap();
    /// assert_eq!(table.node_state(7).unwrap().last_gc_version(), 2);
    /// ```
    pub fn gc_keys_marked_for_deletion(&mut self, clock: u64, grace: u64) -> Result<(), Refusal> {
        accepted(ffi::remove_scheduled(&mut self.store, clock, grace))
    }

    /// The node's own heartbeat rises by one.
    ///
    /// # Errors
    ///
    /// [`Refusal::BadTable`], [`Refusal::NoNode`], [`Refusal::Exhausted`].
    ///
    /// ```
    /// # use kevdarosh::{Mode, OwnedTable, Refusal};
    /// let mut table = OwnedTable::new(Mode::Plain);
    /// table.add_node(7).unwrap();
    /// table.inc_heartbeat(7).unwrap();
    /// assert_eq!(table.node_state(7).unwrap().heartbeat(), 1);
    /// table.try_set_heartbeat(7, u64::MAX).unwrap();
    /// assert_eq!(table.inc_heartbeat(7), Err(Refusal::Exhausted));
    /// ```
    pub fn inc_heartbeat(&mut self, node: u64) -> Result<(), Refusal> {
        accepted(ffi::local_beat(&mut self.store, node))
    }

    /// A heartbeat that was heard of: whether it was news. The first one of a node is not, though it is taken.
    ///
    /// # Errors
    ///
    /// [`Refusal::BadTable`], [`Refusal::NoNode`].
    ///
    /// ```
    /// # use kevdarosh::{Mode, OwnedTable, Refusal};
    /// let mut table = OwnedTable::new(Mode::Plain);
    /// table.add_node(7).unwrap();
    /// assert_eq!(table.try_set_heartbeat(7, 5), Ok(false));
    /// assert_eq!(table.try_set_heartbeat(7, 6), Ok(true));
    /// assert_eq!(table.try_set_heartbeat(7, 6), Ok(false));
    /// assert_eq!(table.try_set_heartbeat(8, 6), Err(Refusal::NoNode));
    /// ```
    pub fn try_set_heartbeat(&mut self, node: u64, heartbeat: u64) -> Result<bool, Refusal> {
        let answer = ffi::offer_heartbeat(&mut self.store, node, heartbeat);
        accepted(answer.number)?;
        Ok(answer.count.0 != 0)
    }

    /// Takes a peer's delta, at the receiver's clock: an answer for each node in it. Nothing of a refused delta is taken.
    ///
    /// # Errors
    ///
    /// [`Refusal::BadTable`], [`Refusal::TooMany`], [`Refusal::Cut`], [`Refusal::TooLong`], [`Refusal::BadTag`], [`Refusal::OutOfOrder`], in a meter table [`Refusal::BadForm`], in a shared one
    /// [`Refusal::OtherParty`], [`Refusal::NodeTwice`]: of the delta's the first that is met in its order, with its place.
    ///
    /// ```
    /// # use kevdarosh::{Answer, Fault, Mode, OwnedTable, Refusal, make_delta};
    /// let mut table = OwnedTable::new(Mode::Plain);
    /// table.add_node(7).unwrap();
    /// let mut delta = [0; 100];
    /// let text = b"op=node id=7 gc=0 from=0\nop=kv version=1 status=set key=total value=4\nend=ok ops=2 bytes=45\n";
    /// let bytes = make_delta(text, &mut delta).unwrap();
    /// assert!(table.apply_delta(&delta[..bytes], 1_000).unwrap().iter().eq([Answer::Apply]));
    /// assert_eq!(table.get(7, b"total"), Ok(Some(&b"4"[..])));
    /// assert_eq!(table.apply_delta(&delta[..bytes - 1], 1_000), Err(Fault { refusal: Refusal::Cut, at: Some(25), need: 1 }));
    /// ```
    pub fn apply_delta(&mut self, delta: &[u8], clock: u64) -> Result<Answers, Fault> {
        let mut codes = [0; NODES];
        let answer = ffi::apply(&mut self.store, delta, clock, &mut codes);
        Fault::unless(answer.number, answer.at, answer.need)?;
        Ok(Answers { codes, count: answer.nodes.get() })
    }

    /// As [`apply_delta`](Table::apply_delta), but for the nodes of `own`: the hub's own, which it alone writes. Such a node answers [`Answer::Reject`](crate::Answer::Reject) and stays as it is,
    /// whatever the bytes say, forged ones too; one that the table does not hold answers [`Answer::Unknown`](crate::Answer::Unknown), named or not. The list takes any length and any numbers;
    /// with none it is `apply_delta`. A hub that takes datagrams from anywhere should name its own nodes: one delta with a version of 2^64 - 1 would replace what it wrote, and make every
    /// later write [`Refusal::Exhausted`].
    ///
    /// # Errors
    ///
    /// [`Refusal::BadTable`], [`Refusal::TooMany`], [`Refusal::Cut`], [`Refusal::TooLong`], [`Refusal::BadTag`], [`Refusal::OutOfOrder`], in a meter table [`Refusal::BadForm`], in a shared one
    /// [`Refusal::OtherParty`], [`Refusal::NodeTwice`]: of the delta's the first that is met in its order, with its place.
    ///
    /// ```
    /// # use kevdarosh::{Answer, Mode, OwnedTable, Wanted, make_delta};
    /// let mut table = OwnedTable::new(Mode::Plain);
    /// table.add_node(7).unwrap();
    /// table.write(7, b"total", b"41", Wanted::Set).unwrap();
    /// let mut forged = [0; 100];
    /// let text = b"op=node id=7 gc=0 from=0\nop=kv version=18446744073709551615 status=set key=total value=0\nend=ok ops=2 bytes=45\n";
    /// let bytes = make_delta(text, &mut forged).unwrap();
    /// assert!(table.apply_leaving(&[7], &forged[..bytes], 1_000).unwrap().iter().eq([Answer::Reject]));
    /// assert_eq!(table.get(7, b"total"), Ok(Some(&b"41"[..])));
    /// assert_eq!(table.write(7, b"total", b"42", Wanted::Set), Ok(()));
    /// ```
    pub fn apply_leaving(&mut self, own: &[u64], delta: &[u8], clock: u64) -> Result<Answers, Fault> {
        let mut codes = [0; NODES];
        let answer = ffi::apply_leaving(&mut self.store, own, delta, clock, &mut codes);
        Fault::unless(answer.number, answer.at, answer.need)?;
        Ok(Answers { codes, count: answer.nodes.get() })
    }
}

/// A table as a party sees it, for reading. In a shared table ([`Profile::Shared`]) that is the table with its own records alone: what it tells does not depend on the other's,
/// but for versions and for the max and last_gc of a node. Any other table shows all of it.
pub struct PartyTable<'a, S> {
    table: Lent<'a, S>,
    party: Party,
}

impl<S> Clone for PartyTable<'_, S> {
    #[inline]
    fn clone(&self) -> Self {
        *self
    }
}
impl<S> Copy for PartyTable<'_, S> {}

impl<S: Bytes> fmt::Debug for PartyTable<'_, S> {
    fn fmt(&self, f: &mut fmt::Formatter<'_>) -> fmt::Result {
        let mut shown = f.debug_struct("PartyTable");
        shown.field("party", &self.party);
        let nodes = ffi::node_count(&self.table);
        for number in row::numbers(self.table.all(), if nodes.number == 0 { nodes.count.get() } else { 0 }) {
            if let Ok(node) = self.node_state(number) {
                shown.field("node", &node);
            }
        }
        shown.finish()
    }
}

impl<'a, S: Bytes> PartyTable<'a, S> {
    /// Who it is.
    ///
    /// ```
    /// # use kevdarosh::{Mode, OwnedTable, Party};
    /// assert_eq!(OwnedTable::new(Mode::Plain).party(Party::Building).party(), Party::Building);
    /// ```
    pub fn party(&self) -> Party {
        self.party
    }

    /// A node, to read of it what the party sees.
    ///
    /// # Errors
    ///
    /// [`Refusal::BadTable`], [`Refusal::NoNode`].
    ///
    /// ```
    /// # use kevdarosh::{Mode, OwnedTable, Party, Profile, Wanted};
    /// let mut table = OwnedTable::with_profile(Mode::Guarded, Profile::Shared);
    /// table.add_node(7).unwrap();
    /// table.party_mut(Party::Building).write(7, b"b/name", b"Stair B", Wanted::Set).unwrap();
    /// assert_eq!(table.party(Party::Building).node_state(7).unwrap().num_key_values(), 1);
    /// assert_eq!(table.party(Party::Metering).node_state(7).unwrap().num_key_values(), 0);
    /// ```
    #[inline]
    pub fn node_state(&self, node: u64) -> Result<NodeState<'a, S>, Refusal> {
        NodeState::of(self.table, self.party, node)
    }

    /// The value of a key, as those very bytes of the table; none where there is no such key, or its record is deleted.
    ///
    /// # Errors
    ///
    /// [`Refusal::BadTable`], [`Refusal::NoNode`], [`Refusal::TooLong`], in a shared table [`Refusal::OtherParty`].
    ///
    /// ```
    /// # use kevdarosh::{Mode, OwnedTable, Party, Profile, Refusal};
    /// let mut table = OwnedTable::with_profile(Mode::Guarded, Profile::Shared);
    /// table.add_node(7).unwrap();
    /// assert_eq!(table.party(Party::Metering).get(7, b"m/total"), Ok(None));
    /// assert_eq!(table.party(Party::Metering).get(7, b"b/name"), Err(Refusal::OtherParty));
    /// assert_eq!(table.party(Party::Nobody).get(7, b"m/total"), Err(Refusal::OtherParty));
    /// ```
    #[inline]
    pub fn get(&self, node: u64, key: &[u8]) -> Result<Option<&'a [u8]>, Refusal> {
        found(self.table, self.party, node, key)
    }

    /// Where its bytes are, for a call.
    #[inline]
    pub(crate) fn lent(&self) -> Lent<'a, S> {
        self.table
    }
}

/// A table as a party sees it, for its writes and deletes.
pub struct PartyTableMut<'a, S> {
    store: &'a mut S,
    party: Party,
}

impl<S: Bytes> fmt::Debug for PartyTableMut<'_, S> {
    fn fmt(&self, f: &mut fmt::Formatter<'_>) -> fmt::Result {
        f.debug_tuple("PartyTableMut").field(&self.view()).finish()
    }
}

impl<S: Bytes> PartyTableMut<'_, S> {
    /// The same for reading.
    ///
    /// ```
    /// # use kevdarosh::{Mode, OwnedTable, Party};
    /// assert_eq!(OwnedTable::new(Mode::Plain).party_mut(Party::Building).view().party(), Party::Building);
    /// ```
    #[inline]
    pub fn view(&self) -> PartyTable<'_, S> {
        PartyTable { table: Lent::of(self.store), party: self.party }
    }
}

impl<S: BytesMut> PartyTableMut<'_, S> {
    /// As [`Table::write`], by this party.
    ///
    /// # Errors
    ///
    /// [`Refusal::BadTable`], [`Refusal::NoNode`], [`Refusal::TooLong`], in a meter table [`Refusal::BadForm`], in a shared one [`Refusal::OtherParty`], in a meter table
    /// [`Refusal::SmallerTotal`], then [`Refusal::NodeFull`], in a shared table for the party's 17th key of the node, [`Refusal::Exhausted`].
    ///
    /// ```
    /// # use kevdarosh::{EACH, Mode, OwnedTable, Party, Profile, Refusal, Wanted};
    /// let mut table = OwnedTable::with_profile(Mode::Guarded, Profile::Shared);
    /// table.add_node(7).unwrap();
    /// for flat in 0..EACH as u8 {
    ///     table.party_mut(Party::Building).write(7, &[b'b', b'/', flat], b"", Wanted::Set).unwrap();
    /// }
    /// assert_eq!(table.party_mut(Party::Building).write(7, b"b/one more", b"", Wanted::Set), Err(Refusal::NodeFull));
    /// assert_eq!(table.party_mut(Party::Metering).write(7, b"m/total", b"41", Wanted::Set), Ok(()));
    /// ```
    #[inline]
    pub fn write(&mut self, node: u64, key: &[u8], value: &[u8], wanted: Wanted) -> Result<(), Refusal> {
        let (status, clock) = wanted.numbers();
        accepted(ffi::write(self.store, self.party.number(), node, key, value, status, clock))
    }

    /// As [`Table::delete`], by this party.
    ///
    /// # Errors
    ///
    /// [`Refusal::BadTable`], [`Refusal::NoNode`], [`Refusal::TooLong`], in a shared table [`Refusal::OtherParty`], [`Refusal::NoKey`], [`Refusal::Exhausted`].
    ///
    /// ```
    /// # use kevdarosh::{Mode, OwnedTable, Party, Profile, Refusal};
    /// let mut table = OwnedTable::with_profile(Mode::Guarded, Profile::Shared);
    /// table.add_node(7).unwrap();
    /// let mut firm = table.party_mut(Party::Metering);
    /// assert_eq!(firm.delete(7, b"m/total", 1_000), Err(Refusal::NoKey));
    /// assert_eq!(firm.delete(7, b"b/name", 1_000), Err(Refusal::OtherParty));
    /// ```
    #[inline]
    pub fn delete(&mut self, node: u64, key: &[u8], clock: u64) -> Result<(), Refusal> {
        accepted(ffi::delete(self.store, self.party.number(), node, key, clock))
    }

    /// As [`Table::delete_after_ttl`], by this party.
    ///
    /// # Errors
    ///
    /// [`Refusal::BadTable`], [`Refusal::NoNode`], [`Refusal::TooLong`], in a shared table [`Refusal::OtherParty`], [`Refusal::NoKey`], [`Refusal::Exhausted`].
    ///
    /// ```
    /// # use kevdarosh::{Mode, OwnedTable, Party, Profile, Refusal};
    /// let mut table = OwnedTable::with_profile(Mode::Guarded, Profile::Shared);
    /// table.add_node(7).unwrap();
    /// assert_eq!(table.party_mut(Party::Building).delete_after_ttl(7, b"m/total", 1_000), Err(Refusal::OtherParty));
    /// ```
    #[inline]
    pub fn delete_after_ttl(&mut self, node: u64, key: &[u8], clock: u64) -> Result<(), Refusal> {
        accepted(ffi::delete_after_ttl(self.store, self.party.number(), node, key, clock))
    }
}

/// How many bytes further back than `told` a party's text stands in the table: only the metering firm's records have others before them.
#[inline]
pub(crate) fn front<S: Bytes>(table: Lent<'_, S>, party: Party, told: Size) -> usize {
    match party {
        Party::Metering => row::front(table.all(), told.get()),
        Party::Building | Party::Nobody => 0,
    }
}

/// The value of a key, which lives as long as the bytes.
#[inline]
fn found<'a, S: Bytes>(table: Lent<'a, S>, party: Party, node: u64, key: &[u8]) -> Result<Option<&'a [u8]>, Refusal> {
    let answer = ffi::find(&table, party.number(), node, key);
    accepted(answer.number)?;
    Ok((answer.found.0 != 0).then(|| text(table, front(table, party, answer.start), answer.start, answer.len)))
}

/// The bytes of the table that an answer names, from the party's front on.
#[inline]
fn text<S: Bytes>(table: Lent<'_, S>, front: usize, start: Size, len: Size) -> &[u8] {
    let (start, len) = (front + start.get(), len.get());
    &table.all()[start..start + len]
}

/// A node of a table, to read it. What it tells lives as long as the table is borrowed, not only as long as this.
///
/// A function of your own takes it by [`OwnedNode`], or of a table of any kind by the bound [`Bytes`]:
///
/// ```
/// use kevdarosh::{Mode, OwnedNode, OwnedTable, Wanted};
///
/// fn is_alive(node: &OwnedNode) -> bool {
///     node.heartbeat() > 0 && node.get(b"state").is_ok_and(|state| state != Some(b"leaving"))
/// }
///
/// # fn main() -> Result<(), kevdarosh::Refusal> {
/// let mut table = OwnedTable::new(Mode::Guarded);
/// table.add_node(7)?;
/// assert!(!is_alive(&table.node_state(7)?));
/// table.try_set_heartbeat(7, 12)?;
/// assert!(is_alive(&table.node_state(7)?));
/// # Ok(())
/// # }
/// ```
pub struct NodeState<'a, S> {
    table: Lent<'a, S>,
    party: Party,
    node: u64,
    /// Where its rows stand, and how many of them the party sees. The table is borrowed, so they stay.
    rows: ffi::Rows,
}

impl<S> Clone for NodeState<'_, S> {
    fn clone(&self) -> Self {
        NodeState { table: self.table, party: self.party, node: self.node, rows: self.rows }
    }
}

impl<S: Bytes> fmt::Debug for NodeState<'_, S> {
    fn fmt(&self, f: &mut fmt::Formatter<'_>) -> fmt::Result {
        struct All<'a>(Records<'a>);
        impl fmt::Debug for All<'_> {
            fn fmt(&self, f: &mut fmt::Formatter<'_>) -> fmt::Result {
                f.debug_list().entries(self.0.clone()).finish()
            }
        }
        let Header { heartbeat, max_version, last_gc_version } = self.header();
        let mut shown = f.debug_struct("NodeState");
        if self.party != Party::Nobody {
            shown.field("party", &self.party);
        }
        shown.field("number", &self.node).field("heartbeat", &heartbeat).field("max_version", &max_version).field("last_gc_version", &last_gc_version);
        shown.field("records", &All(self.key_values_including_deleted())).finish()
    }
}

impl<'a, S: Bytes> NodeState<'a, S> {
    #[inline]
    fn of(table: Lent<'a, S>, party: Party, node: u64) -> Result<NodeState<'a, S>, Refusal> {
        // The one call tells whether the node is there and where it stands; its header is read there.
        let rows = ffi::node_rows(&table, party.number(), node);
        accepted(rows.number)?;
        Ok(NodeState { table, party, node, rows })
    }

    /// Its number.
    ///
    /// ```
    /// # use kevdarosh::{Mode, OwnedTable};
    /// let mut table = OwnedTable::new(Mode::Plain);
    /// table.add_node(7).unwrap();
    /// assert_eq!(table.node_state(7).unwrap().number(), 7);
    /// ```
    pub fn number(&self) -> u64 {
        self.node
    }

    /// The table that it is a node of.
    #[inline]
    pub(crate) fn table(&self) -> Lent<'a, S> {
        self.table
    }

    /// Whether two firms share the table.
    #[inline]
    pub(crate) fn is_shared(&self) -> bool {
        self.table.all()[crate::PROFILE_AT] == 2
    }

    /// Who reads it: nobody, or the party of a [`PartyTable`].
    ///
    /// ```
    /// # use kevdarosh::{Mode, OwnedTable, Party};
    /// let mut table = OwnedTable::new(Mode::Plain);
    /// table.add_node(7).unwrap();
    /// assert_eq!(table.node_state(7).unwrap().party(), Party::Nobody);
    /// ```
    pub fn party(&self) -> Party {
        self.party
    }

    /// Heartbeat, max and last_gc.
    ///
    /// ```
    /// # use kevdarosh::{Header, Mode, OwnedTable, Wanted};
    /// let mut table = OwnedTable::new(Mode::Plain);
    /// table.add_node(7).unwrap();
    /// table.write(7, b"flow.day", b"11", Wanted::Set).unwrap();
    /// table.write(7, b"flow.night", b"3", Wanted::Set).unwrap();
    /// table.write(7, b"total", b"88", Wanted::Set).unwrap();
    /// table.delete(7, b"flow.night", 500).unwrap();
    /// let node = table.node_state(7).unwrap();
    /// assert_eq!(node.header(), Header { heartbeat: 0, max_version: 4, last_gc_version: 0 });
    /// ```
    #[inline]
    pub fn header(&self) -> Header {
        row::header(self.table.all(), self.rows)
    }

    /// How often its owner has beaten.
    ///
    /// ```
    /// # use kevdarosh::{Mode, OwnedTable, Wanted};
    /// let mut table = OwnedTable::new(Mode::Plain);
    /// table.add_node(7).unwrap();
    /// table.write(7, b"flow.day", b"11", Wanted::Set).unwrap();
    /// table.write(7, b"flow.night", b"3", Wanted::Set).unwrap();
    /// table.write(7, b"total", b"88", Wanted::Set).unwrap();
    /// table.delete(7, b"flow.night", 500).unwrap();
    /// let node = table.node_state(7).unwrap();
    /// assert_eq!(node.heartbeat(), 0);
    /// ```
    #[inline]
    pub fn heartbeat(&self) -> u64 {
        self.header().heartbeat
    }

    /// The highest version that it has heard of.
    ///
    /// ```
    /// # use kevdarosh::{Mode, OwnedTable, Wanted};
    /// let mut table = OwnedTable::new(Mode::Plain);
    /// table.add_node(7).unwrap();
    /// table.write(7, b"flow.day", b"11", Wanted::Set).unwrap();
    /// table.write(7, b"flow.night", b"3", Wanted::Set).unwrap();
    /// table.write(7, b"total", b"88", Wanted::Set).unwrap();
    /// table.delete(7, b"flow.night", 500).unwrap();
    /// let node = table.node_state(7).unwrap();
    /// assert_eq!(node.max_version(), 4);
    /// ```
    #[inline]
    pub fn max_version(&self) -> u64 {
        self.header().max_version
    }

    /// The highest version that was removed.
    ///
    /// ```
    /// # use kevdarosh::{Mode, OwnedTable, Wanted};
    /// let mut table = OwnedTable::new(Mode::Plain);
    /// table.add_node(7).unwrap();
    /// table.write(7, b"flow.day", b"11", Wanted::Set).unwrap();
    /// table.write(7, b"flow.night", b"3", Wanted::Set).unwrap();
    /// table.write(7, b"total", b"88", Wanted::Set).unwrap();
    /// table.delete(7, b"flow.night", 500).unwrap();
    /// let node = table.node_state(7).unwrap();
    /// assert_eq!(node.last_gc_version(), 0);
    /// ```
    #[inline]
    pub fn last_gc_version(&self) -> u64 {
        self.header().last_gc_version
    }

    /// The value of a key; none where there is no such key, or its record is deleted.
    ///
    /// # Errors
    ///
    /// [`Refusal::TooLong`], in a shared table [`Refusal::OtherParty`].
    ///
    /// ```
    /// # use kevdarosh::{Mode, OwnedTable, Refusal, Wanted};
    /// let mut table = OwnedTable::new(Mode::Plain);
    /// table.add_node(7).unwrap();
    /// table.write(7, b"flow.day", b"11", Wanted::Set).unwrap();
    /// table.write(7, b"flow.night", b"3", Wanted::Set).unwrap();
    /// table.write(7, b"total", b"88", Wanted::Set).unwrap();
    /// table.delete(7, b"flow.night", 500).unwrap();
    /// let node = table.node_state(7).unwrap();
    /// assert_eq!(node.get(b"total"), Ok(Some(&b"88"[..])));
    /// assert_eq!(node.get(b"flow.night"), Ok(None));
    /// assert_eq!(node.get(&[b'k'; 33]), Err(Refusal::TooLong));
    /// ```
    #[inline]
    pub fn get(&self, key: &[u8]) -> Result<Option<&'a [u8]>, Refusal> {
        found(self.table, self.party, self.node, key)
    }

    /// Whether [`NodeState::get`] finds the key.
    ///
    /// # Errors
    ///
    /// [`Refusal::TooLong`], in a shared table [`Refusal::OtherParty`].
    ///
    /// ```
    /// # use kevdarosh::{Mode, OwnedTable, Wanted};
    /// let mut table = OwnedTable::new(Mode::Plain);
    /// table.add_node(7).unwrap();
    /// table.write(7, b"flow.day", b"11", Wanted::Set).unwrap();
    /// table.write(7, b"flow.night", b"3", Wanted::Set).unwrap();
    /// table.write(7, b"total", b"88", Wanted::Set).unwrap();
    /// table.delete(7, b"flow.night", 500).unwrap();
    /// let node = table.node_state(7).unwrap();
    /// assert_eq!(node.contains_key(b"total"), Ok(true));
    /// ```
    #[inline]
    pub fn contains_key(&self, key: &[u8]) -> Result<bool, Refusal> {
        let answer = ffi::find(&self.table, self.party.number(), self.node, key);
        accepted(answer.number)?;
        Ok(answer.found.0 != 0)
    }

    /// The record of a key, deleted or not.
    ///
    /// # Errors
    ///
    /// [`Refusal::TooLong`], in a shared table [`Refusal::OtherParty`].
    ///
    /// ```
    /// # use kevdarosh::{Mode, OwnedTable, Status, Wanted};
    /// let mut table = OwnedTable::new(Mode::Plain);
    /// table.add_node(7).unwrap();
    /// table.write(7, b"flow.day", b"11", Wanted::Set).unwrap();
    /// table.write(7, b"flow.night", b"3", Wanted::Set).unwrap();
    /// table.write(7, b"total", b"88", Wanted::Set).unwrap();
    /// table.delete(7, b"flow.night", 500).unwrap();
    /// let node = table.node_state(7).unwrap();
    /// let record = node.get_versioned(b"flow.night").unwrap().unwrap();
    /// assert_eq!((record.version, record.status, record.start), (4, Status::Deleted, 500));
    /// ```
    #[inline]
    pub fn get_versioned(&self, key: &[u8]) -> Result<Option<Record<'a>>, Refusal> {
        let found = ffi::record_by_key(&self.table, self.party.number(), self.node, key);
        accepted(found.number)?;
        Ok((found.found.0 != 0).then(|| {
            let front = self.front();
            Record {
                key: text(self.table, front, found.key_at, found.key_len),
                value: text(self.table, front, found.value_at, found.value_len),
                version: found.version,
                status: Status::of(found.status.0),
                start: found.start,
            }
        }))
    }

    /// All records, deleted ones too, in key order.
    ///
    /// ```
    /// # use kevdarosh::{Mode, OwnedTable, Wanted};
    /// let mut table = OwnedTable::new(Mode::Plain);
    /// table.add_node(7).unwrap();
    /// table.write(7, b"flow.day", b"11", Wanted::Set).unwrap();
    /// table.write(7, b"flow.night", b"3", Wanted::Set).unwrap();
    /// table.write(7, b"total", b"88", Wanted::Set).unwrap();
    /// table.delete(7, b"flow.night", 500).unwrap();
    /// let node = table.node_state(7).unwrap();
    /// assert_eq!(node.key_values_including_deleted().map(|record| record.version).collect::<Vec<_>>(), [1, 4, 3]);
    /// ```
    #[inline]
    pub fn key_values_including_deleted(&self) -> Records<'a> {
        self.records(self.rows)
    }

    /// The keys and values that are not deleted, in key order.
    ///
    /// ```
    /// # use kevdarosh::{Mode, OwnedTable, Wanted};
    /// let mut table = OwnedTable::new(Mode::Plain);
    /// table.add_node(7).unwrap();
    /// table.write(7, b"flow.day", b"11", Wanted::Set).unwrap();
    /// table.write(7, b"flow.night", b"3", Wanted::Set).unwrap();
    /// table.write(7, b"total", b"88", Wanted::Set).unwrap();
    /// table.delete(7, b"flow.night", 500).unwrap();
    /// let node = table.node_state(7).unwrap();
    /// assert!(node.key_values().eq([(&b"flow.day"[..], &b"11"[..]), (b"total", b"88")]));
    /// ```
    #[inline]
    pub fn key_values(&self) -> impl DoubleEndedIterator<Item = (&'a [u8], &'a [u8])> + use<'a, S> {
        self.key_values_including_deleted().filter(|record| !record.is_hidden()).map(|record| (record.key, record.value))
    }

    /// How many keys are not deleted.
    ///
    /// ```
    /// # use kevdarosh::{Mode, OwnedTable, Wanted};
    /// let mut table = OwnedTable::new(Mode::Plain);
    /// table.add_node(7).unwrap();
    /// table.write(7, b"flow.day", b"11", Wanted::Set).unwrap();
    /// table.write(7, b"flow.night", b"3", Wanted::Set).unwrap();
    /// table.write(7, b"total", b"88", Wanted::Set).unwrap();
    /// table.delete(7, b"flow.night", 500).unwrap();
    /// let node = table.node_state(7).unwrap();
    /// assert_eq!(node.num_key_values(), 2);
    /// ```
    #[inline]
    pub fn num_key_values(&self) -> usize {
        self.key_values().count()
    }

    /// The records that are not deleted and whose keys begin with the prefix, in key order.
    ///
    /// # Errors
    ///
    /// [`Refusal::TooLong`].
    ///
    /// ```
    /// # use kevdarosh::{Mode, OwnedTable, Wanted};
    /// let mut table = OwnedTable::new(Mode::Plain);
    /// table.add_node(7).unwrap();
    /// table.write(7, b"flow.day", b"11", Wanted::Set).unwrap();
    /// table.write(7, b"flow.night", b"3", Wanted::Set).unwrap();
    /// table.write(7, b"total", b"88", Wanted::Set).unwrap();
    /// table.delete(7, b"flow.night", 500).unwrap();
    /// let node = table.node_state(7).unwrap();
    /// assert_eq!(node.iter_prefix(b"flow.").unwrap().map(|record| record.key).collect::<Vec<_>>(), [b"flow.day"]);
    /// ```
    #[inline]
    pub fn iter_prefix(&self, prefix: &[u8]) -> Result<impl DoubleEndedIterator<Item = Record<'a>> + use<'a, S>, Refusal> {
        let rows = ffi::prefix_rows(&self.table, self.party.number(), self.node, prefix);
        accepted(rows.number)?;
        Ok(self.records(rows).filter(|record| !record.is_hidden()))
    }

    /// The records of these rows, which are counted from the party's front on.
    #[inline]
    pub(crate) fn records(&self, rows: ffi::Rows) -> Records<'a> {
        Records::of(&self.table.all()[self.front()..], rows)
    }

    /// How many bytes further back than they are told its rows stand: so many as those of the building manager take before the metering firm's.
    #[inline]
    fn front(&self) -> usize {
        match self.party {
            Party::Metering => row::others(self.table.all(), self.rows),
            Party::Building | Party::Nobody => 0,
        }
    }
}

const _: () = assert!(size_of::<OwnedTable>() == TABLE);
