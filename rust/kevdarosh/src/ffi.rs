//! The one module with `unsafe`: the C functions of `include/kevdarosh.h`, each behind a safe function.
//!
//! Why a call is sound:
//!
//! - A slice is passed as its pointer and its length, so the function sees exactly the bytes that the borrow covers. Its contract is proved on the
//!   language's abstract machine: it reads and writes inside what it is lent, and keeps no pointer. A `&mut [u8]` is borrowed alone, so lent parts
//!   do not overlap.
//! - The functions without `good` in their name take any bytes.
//! - A `kev_good_..` function asks for a table that `kev_check` accepts. It is called for [`Kept`] alone, and for what [`Lent`] borrows of one. Its bytes are private to this module, and what lends them
//!   out for writing asks for a value that only this module can make: they come
//!   from `kev_new_table`, or `kev_check` accepted them, and after that only these functions write to them. Each leaves a table that the check
//!   accepts again: that is proved of every call (docs/PROMISES.md, demand 1).
//! - `kev_good_find_over` and `kev_good_list_over` ask for good overrides too. They are called for [`Labels`] alone, which are kept in the same way: they come from `kev_new_overrides`, or
//!   `kev_check_overrides` accepted them, and only calls on overrides write to them, each of which leaves good ones (`overrides: Keeps`).
//! - The structs are declared again in C's layout, field by field as in the header: its `uint64_t` is `u64`, its `kev_size` is [`Size`].
//! - An answer's `start` and `len` lie inside the table (`lookup`, `inspect_text`: `Within`), and so do a record's texts, which are told by the same places
//!   (`inspect_text`: `Same`). They are used by indexing, which checks once more.

#![allow(unsafe_code)]
// Every function of the header stands here; tables need not all of them.
#![allow(dead_code)]
// They have the arguments of the C functions.
#![allow(clippy::too_many_arguments)]

use core::marker::PhantomData;

use crate::{OVERRIDES, TABLE};

/// A length, a count or a place, in 64 bits on every processor: `kev_size` of the header.
#[repr(transparent)]
#[derive(Clone, Copy, Debug, PartialEq, Eq)]
pub struct Size(pub u64);

impl Size {
    /// Nothing is lost: a `usize` has 32 or 64 bits.
    #[inline]
    fn of(size: usize) -> Size {
        Size(size as u64)
    }

    /// What came back of a call. It always fits, so where a `usize` has 32 bits the check finds nothing, and where it has 64 there is none: a place, a length
    /// or a count is at most the length of a slice that was lent, a line at most one more, and what a field lacks is at most the 65,535 bytes that it can have.
    #[inline]
    pub fn get(self) -> usize {
        match self.0.try_into() {
            Ok(size) => size,
            Err(_) => unreachable!("a size beyond what was lent"),
        }
    }
}

/// The length of what is lent.
#[inline]
fn len<T>(lent: &[T]) -> Size {
    Size::of(lent.len())
}

#[repr(C)]
#[derive(Clone, Copy)]
pub struct Count {
    pub number: u64,
    pub count: Size,
}

#[repr(C)]
#[derive(Clone, Copy)]
pub struct Heartbeat {
    pub number: u64,
    pub found: Size,
    pub heartbeat: u64,
}

#[repr(C)]
#[derive(Clone, Copy)]
pub struct NodeNumber {
    pub number: u64,
    pub node: u64,
}

#[repr(C)]
#[derive(Clone, Copy)]
pub struct Found {
    pub number: u64,
    pub found: Size,
    pub start: Size,
    pub len: Size,
}

#[repr(C)]
#[derive(Clone, Copy)]
pub struct FoundOver {
    pub number: u64,
    pub found: Size,
    pub over: Size,
    pub start: Size,
    pub len: Size,
    pub which: u64,
}

#[repr(C)]
#[derive(Clone, Copy)]
pub struct ListedOver {
    pub number: u64,
    pub count: Size,
    pub which: u64,
}

#[repr(C)]
#[derive(Clone, Copy)]
pub struct Header {
    pub number: u64,
    pub heartbeat: u64,
    pub max: u64,
    pub last_gc: u64,
}

#[repr(C)]
#[derive(Clone, Copy, Debug, PartialEq, Eq)]
pub struct Record {
    pub number: u64,
    pub found: Size,
    pub key_at: Size,
    pub value_at: Size,
    pub key_len: Size,
    pub value_len: Size,
    pub version: u64,
    pub status: Size,
    pub start: u64,
}

#[repr(C)]
#[derive(Clone, Copy)]
pub struct Rows {
    pub number: u64,
    pub at: Size,
    pub count: Size,
}

#[repr(C)]
#[derive(Clone, Copy)]
pub struct Digest {
    pub number: u64,
    pub count: Size,
    pub rest: Size,
    pub need: Size,
}

#[repr(C)]
#[derive(Clone, Copy)]
pub struct Entry {
    pub number: u64,
    pub node: u64,
    pub heartbeat: u64,
    pub last_gc: u64,
    pub max: u64,
    pub need: Size,
}

#[repr(C)]
#[derive(Clone, Copy)]
pub struct Computed {
    pub number: u64,
    pub ops: Size,
    pub bytes: Size,
    pub need: Size,
}

#[repr(C)]
#[derive(Clone, Copy)]
pub struct Judged {
    pub number: u64,
    pub line: Size,
    pub why: u64,
    pub need: Size,
}

#[repr(C)]
#[derive(Clone, Copy)]
pub struct Delta {
    pub number: u64,
    pub ops: Size,
    pub nodes: Size,
    pub at: Size,
    pub need: Size,
}

#[repr(C)]
#[derive(Clone, Copy)]
pub struct Applied {
    pub number: u64,
    pub nodes: Size,
    pub at: Size,
    pub need: Size,
}

#[repr(C)]
#[derive(Clone, Copy)]
pub struct Made {
    pub number: u64,
    pub bytes: Size,
    pub line: Size,
    pub at: Size,
    pub need: Size,
}

#[repr(C)]
#[derive(Clone, Copy)]
pub struct Exchanged {
    pub number: u64,
    pub ops: Size,
    pub bytes: Size,
    pub nodes: Size,
    pub step: Size,
}

#[repr(C)]
#[derive(Clone, Copy)]
pub struct Told {
    pub number: u64,
    pub need: Size,
}

#[repr(C)]
#[derive(Clone, Copy)]
pub struct Least {
    pub number: u64,
    pub max: u64,
}

#[repr(C)]
#[derive(Clone, Copy)]
pub struct Seen {
    pub number: u64,
    pub found: Size,
    pub last_gc: u64,
    pub max: u64,
}

/// Where a table's bytes are, and whether they are known to be a good table: those that an [`OwnedTable`](crate::OwnedTable) keeps, or lent ones. It is the bound of a function that takes any
/// table or any node; no type outside this crate can have it.
///
/// ```
/// use kevdarosh::{Bytes, Mode, NodeState, OwnedTable, TableView, Wanted};
///
/// /// Whether a node says of itself that it serves, in a table of any kind.
/// fn serves<S: Bytes>(node: &NodeState<'_, S>) -> bool {
///     node.get(b"state").is_ok_and(|state| state == Some(b"serving"))
/// }
///
/// # fn main() -> Result<(), kevdarosh::Refusal> {
/// let mut table = OwnedTable::new(Mode::Guarded);
/// table.add_node(7)?;
/// table.write(7, b"state", b"serving", Wanted::Set)?;
/// assert!(serves(&table.node_state(7)?));
/// assert!(serves(&TableView::over(table.as_bytes()).node_state(7)?));
/// # Ok(())
/// # }
/// ```
pub trait Bytes: sealed::Sealed {
    /// Whether they are known to be a good table.
    const GOOD: bool;
    /// The bytes.
    fn bytes(&self) -> &[u8];
}

/// Bytes of a table that a call may change: the bound of a function that changes a table of any kind.
///
/// ```
/// use kevdarosh::{BytesMut, LentTable, Mode, OwnedTable, Refusal, TABLE, Table};
///
/// fn follow<S: BytesMut>(table: &mut Table<S>, nodes: &[u64]) -> Result<(), Refusal> {
///     nodes.iter().try_for_each(|node| table.add_node(*node))
/// }
///
/// # fn main() -> Result<(), Refusal> {
/// follow(&mut OwnedTable::new(Mode::Guarded), &[7, 12])?;
/// follow(&mut LentTable::new_in(&mut [0; TABLE], Mode::Guarded)?, &[7, 12])?;
/// # Ok(())
/// # }
/// ```
pub trait BytesMut: Bytes + sealed::Lend {}

mod sealed {
    /// Who can make one may have the bytes to write to: this module alone, in a call of the library.
    pub struct Call(pub(super) ());
    pub trait Sealed {}
    pub trait Lend {
        fn lend(&mut self, by: Call) -> &mut [u8];
    }
}
use sealed::Call;

/// The bytes of a table for as long as they are borrowed. They are known to be good where those of `S` are.
pub struct Lent<'a, S> {
    bytes: &'a [u8],
    of: PhantomData<fn() -> S>,
}

impl<'a, S: Bytes> Lent<'a, S> {
    /// What `S` has.
    #[inline]
    pub fn of(store: &'a S) -> Lent<'a, S> {
        Lent { bytes: store.bytes(), of: PhantomData }
    }

    /// They live as long as they are borrowed.
    #[inline]
    pub fn all(self) -> &'a [u8] {
        self.bytes
    }
}

impl<'a> Lent<'a, &'a [u8]> {
    /// Bytes of which nothing is known.
    pub fn over(bytes: &'a [u8]) -> Lent<'a, &'a [u8]> {
        Lent { bytes, of: PhantomData }
    }
}

impl<S> Clone for Lent<'_, S> {
    #[inline]
    fn clone(&self) -> Self {
        *self
    }
}
impl<S> Copy for Lent<'_, S> {}
impl<S> sealed::Sealed for Lent<'_, S> {}
impl<S: Bytes> Bytes for Lent<'_, S> {
    const GOOD: bool = S::GOOD;
    #[inline]
    fn bytes(&self) -> &[u8] {
        self.bytes
    }
}

/// The bytes of a table that every call kept, those of an [`OwnedTable`](crate::OwnedTable). There is no way to them but by its calls.
#[derive(Clone)]
pub struct Kept([u8; TABLE]);

impl Kept {
    /// An empty table, or 14 where a number is that of no mode or no profile.
    pub(crate) fn new(mode: usize, profile: usize) -> Result<Kept, u64> {
        let mut bytes = [0; TABLE];
        match new_table(&mut bytes, mode, profile) {
            0 => Ok(Kept(bytes)),
            number => Err(number),
        }
    }

    /// These bytes, where the check accepts them.
    pub(crate) fn checked(bytes: &[u8]) -> Result<Kept, u64> {
        match (check(bytes), bytes.try_into()) {
            (0, Ok(bytes)) => Ok(Kept(bytes)),
            (number, _) => Err(number),
        }
    }
}

impl sealed::Sealed for Kept {}
impl sealed::Lend for Kept {
    fn lend(&mut self, _: Call) -> &mut [u8] {
        &mut self.0
    }
}
impl Bytes for Kept {
    const GOOD: bool = true;
    fn bytes(&self) -> &[u8] {
        &self.0
    }
}
impl BytesMut for Kept {}

/// The bytes of overrides that every call kept. There is no way to them but by these calls.
#[derive(Clone)]
pub struct Labels([u8; OVERRIDES]);

impl Labels {
    /// Overrides without a record, or 14, which does not come.
    pub fn new(node: u64) -> Result<Labels, u64> {
        let mut bytes = [0; OVERRIDES];
        match new_overrides(&mut bytes, node) {
            0 => Ok(Labels(bytes)),
            number => Err(number),
        }
    }

    /// These bytes, where the check accepts them.
    pub fn checked(bytes: &[u8]) -> Result<Labels, u64> {
        match (check_overrides(bytes), bytes.try_into()) {
            (0, Ok(bytes)) => Ok(Labels(bytes)),
            (number, _) => Err(number),
        }
    }

    pub fn bytes(&self) -> &[u8] {
        &self.0
    }

    // The calls that write to them, each of which keeps them.

    pub fn write(&mut self, key: &[u8], value: &[u8], wanted: u64, clock: u64) -> u64 {
        write_override(&mut self.0, key, value, wanted, clock)
    }

    pub fn delete(&mut self, key: &[u8], clock: u64) -> u64 {
        delete_override(&mut self.0, key, clock)
    }

    pub fn delete_after_ttl(&mut self, key: &[u8], clock: u64) -> u64 {
        delete_override_after_ttl(&mut self.0, key, clock)
    }

    pub fn remove(&mut self, clock: u64, grace: u64) -> u64 {
        remove_overrides(&mut self.0, clock, grace)
    }
}

impl sealed::Sealed for &[u8] {}
impl Bytes for &[u8] {
    const GOOD: bool = false;
    fn bytes(&self) -> &[u8] {
        self
    }
}

impl sealed::Sealed for &mut [u8] {}
impl sealed::Lend for &mut [u8] {
    fn lend(&mut self, _: Call) -> &mut [u8] {
        self
    }
}
impl Bytes for &mut [u8] {
    const GOOD: bool = false;
    fn bytes(&self) -> &[u8] {
        self
    }
}
impl BytesMut for &mut [u8] {}

unsafe extern "C" {
    fn kev_check(table: *const u8, table_len: Size) -> u64;
    fn kev_new_table(table: *mut u8, table_len: Size, mode: Size, profile: Size) -> u64;
    fn kev_add_node(table: *mut u8, table_len: Size, node: u64) -> u64;
    fn kev_good_add_node(table: *mut u8, table_len: Size, node: u64) -> u64;
    fn kev_remove_node(table: *mut u8, table_len: Size, node: u64) -> u64;
    fn kev_good_remove_node(table: *mut u8, table_len: Size, node: u64) -> u64;
    fn kev_last_heartbeat(table: *const u8, table_len: Size, node: u64) -> Heartbeat;
    fn kev_good_last_heartbeat(table: *const u8, table_len: Size, node: u64) -> Heartbeat;
    fn kev_write(table: *mut u8, table_len: Size, party: u64, node: u64, key: *const u8, key_len: Size, value: *const u8, value_len: Size, wanted: u64, clock: u64) -> u64;
    fn kev_good_write(table: *mut u8, table_len: Size, party: u64, node: u64, key: *const u8, key_len: Size, value: *const u8, value_len: Size, wanted: u64, clock: u64) -> u64;
    fn kev_delete(table: *mut u8, table_len: Size, party: u64, node: u64, key: *const u8, key_len: Size, clock: u64) -> u64;
    fn kev_good_delete(table: *mut u8, table_len: Size, party: u64, node: u64, key: *const u8, key_len: Size, clock: u64) -> u64;
    fn kev_delete_after_ttl(table: *mut u8, table_len: Size, party: u64, node: u64, key: *const u8, key_len: Size, clock: u64) -> u64;
    fn kev_good_delete_after_ttl(table: *mut u8, table_len: Size, party: u64, node: u64, key: *const u8, key_len: Size, clock: u64) -> u64;
    fn kev_remove_scheduled(table: *mut u8, table_len: Size, clock: u64, grace: u64) -> u64;
    fn kev_good_remove_scheduled(table: *mut u8, table_len: Size, clock: u64, grace: u64) -> u64;
    fn kev_offer_heartbeat(table: *mut u8, table_len: Size, node: u64, heartbeat: u64) -> Count;
    fn kev_good_offer_heartbeat(table: *mut u8, table_len: Size, node: u64, heartbeat: u64) -> Count;
    fn kev_local_beat(table: *mut u8, table_len: Size, node: u64) -> u64;
    fn kev_good_local_beat(table: *mut u8, table_len: Size, node: u64) -> u64;
    fn kev_find(table: *const u8, table_len: Size, party: u64, node: u64, key: *const u8, key_len: Size) -> Found;
    fn kev_good_find(table: *const u8, table_len: Size, party: u64, node: u64, key: *const u8, key_len: Size) -> Found;
    fn kev_list_prefix(table: *const u8, table_len: Size, party: u64, node: u64, prefix: *const u8, prefix_len: Size, out: *mut u8, out_len: Size) -> Count;
    fn kev_good_list_prefix(table: *const u8, table_len: Size, party: u64, node: u64, prefix: *const u8, prefix_len: Size, out: *mut u8, out_len: Size) -> Count;
    fn kev_check_overrides(overrides: *const u8, overrides_len: Size) -> u64;
    fn kev_new_overrides(overrides: *mut u8, overrides_len: Size, node: u64) -> u64;
    fn kev_write_override(overrides: *mut u8, overrides_len: Size, key: *const u8, key_len: Size, value: *const u8, value_len: Size, wanted: u64, clock: u64) -> u64;
    fn kev_delete_override(overrides: *mut u8, overrides_len: Size, key: *const u8, key_len: Size, clock: u64) -> u64;
    fn kev_delete_override_after_ttl(overrides: *mut u8, overrides_len: Size, key: *const u8, key_len: Size, clock: u64) -> u64;
    fn kev_remove_overrides(overrides: *mut u8, overrides_len: Size, clock: u64, grace: u64) -> u64;
    fn kev_find_over(overrides: *const u8, overrides_len: Size, table: *const u8, table_len: Size, party: u64, node: u64, key: *const u8, key_len: Size) -> FoundOver;
    fn kev_good_find_over(overrides: *const u8, overrides_len: Size, table: *const u8, table_len: Size, party: u64, node: u64, key: *const u8, key_len: Size) -> FoundOver;
    fn kev_list_over(overrides: *const u8, overrides_len: Size, table: *const u8, table_len: Size, party: u64, node: u64, prefix: *const u8, prefix_len: Size, out: *mut u8, out_len: Size) -> ListedOver;
    fn kev_good_list_over(overrides: *const u8, overrides_len: Size, table: *const u8, table_len: Size, party: u64, node: u64, prefix: *const u8, prefix_len: Size, out: *mut u8, out_len: Size) -> ListedOver;
    fn kev_node_count(table: *const u8, table_len: Size) -> Count;
    fn kev_good_node_count(table: *const u8, table_len: Size) -> Count;
    fn kev_node_number(table: *const u8, table_len: Size, i: Size) -> NodeNumber;
    fn kev_good_node_number(table: *const u8, table_len: Size, i: Size) -> NodeNumber;
    fn kev_node_header(table: *const u8, table_len: Size, node: u64) -> Header;
    fn kev_good_node_header(table: *const u8, table_len: Size, node: u64) -> Header;
    fn kev_record_count(table: *const u8, table_len: Size, party: u64, node: u64) -> Count;
    fn kev_good_record_count(table: *const u8, table_len: Size, party: u64, node: u64) -> Count;
    fn kev_record_at(table: *const u8, table_len: Size, party: u64, node: u64, j: Size) -> Record;
    fn kev_good_record_at(table: *const u8, table_len: Size, party: u64, node: u64, j: Size) -> Record;
    fn kev_record_of(table: *const u8, table_len: Size, party: u64, i: Size, j: Size) -> Record;
    fn kev_good_record_of(table: *const u8, table_len: Size, party: u64, i: Size, j: Size) -> Record;
    fn kev_record_by_key(table: *const u8, table_len: Size, party: u64, node: u64, key: *const u8, key_len: Size) -> Record;
    fn kev_good_record_by_key(table: *const u8, table_len: Size, party: u64, node: u64, key: *const u8, key_len: Size) -> Record;
    fn kev_node_rows(table: *const u8, table_len: Size, party: u64, node: u64) -> Rows;
    fn kev_good_node_rows(table: *const u8, table_len: Size, party: u64, node: u64) -> Rows;
    fn kev_front(table: *const u8, table_len: Size, party: u64, node: u64) -> Count;
    fn kev_good_front(table: *const u8, table_len: Size, party: u64, node: u64) -> Count;
    fn kev_prefix_rows(table: *const u8, table_len: Size, party: u64, node: u64, prefix: *const u8, prefix_len: Size) -> Rows;
    fn kev_good_prefix_rows(table: *const u8, table_len: Size, party: u64, node: u64, prefix: *const u8, prefix_len: Size) -> Rows;
    fn kev_key_at(table: *const u8, table_len: Size, party: u64, node: u64, j: Size) -> Found;
    fn kev_good_key_at(table: *const u8, table_len: Size, party: u64, node: u64, j: Size) -> Found;
    fn kev_value_at(table: *const u8, table_len: Size, party: u64, node: u64, j: Size) -> Found;
    fn kev_good_value_at(table: *const u8, table_len: Size, party: u64, node: u64, j: Size) -> Found;
    fn kev_write_digest(table: *const u8, table_len: Size, edition: u64, excluded: *const u64, excluded_len: Size, datagram: *mut u8, datagram_len: Size, place: Size) -> Count;
    fn kev_good_write_digest(table: *const u8, table_len: Size, edition: u64, excluded: *const u64, excluded_len: Size, datagram: *mut u8, datagram_len: Size, place: Size) -> Count;
    fn kev_read_digest(edition: u64, digest: *const u8, digest_len: Size) -> Digest;
    fn kev_digest_entry(edition: u64, digest: *const u8, digest_len: Size, i: Size) -> Entry;
    fn kev_compute(table: *const u8, table_len: Size, edition: u64, digest: *const u8, digest_len: Size, mtu: Size, excluded: *const u64, excluded_len: Size, ties: *const u64, ties_len: Size, datagram: *mut u8, datagram_len: Size, place: Size) -> Computed;
    fn kev_good_compute(table: *const u8, table_len: Size, edition: u64, digest: *const u8, digest_len: Size, mtu: Size, excluded: *const u64, excluded_len: Size, ties: *const u64, ties_len: Size, datagram: *mut u8, datagram_len: Size, place: Size) -> Computed;
    fn kev_compute_plan(table: *const u8, table_len: Size, edition: u64, digest: *const u8, digest_len: Size, mtu: Size, excluded: *const u64, excluded_len: Size, nodes: *const u64, nodes_len: Size, counts: *const u64, counts_len: Size, datagram: *mut u8, datagram_len: Size, place: Size) -> Computed;
    fn kev_good_compute_plan(table: *const u8, table_len: Size, edition: u64, digest: *const u8, digest_len: Size, mtu: Size, excluded: *const u64, excluded_len: Size, nodes: *const u64, nodes_len: Size, counts: *const u64, counts_len: Size, datagram: *mut u8, datagram_len: Size, place: Size) -> Computed;
    fn kev_plan_fault(table: *const u8, table_len: Size, edition: u64, digest: *const u8, digest_len: Size, mtu: Size, excluded: *const u64, excluded_len: Size, nodes: *const u64, nodes_len: Size, counts: *const u64, counts_len: Size) -> Judged;
    fn kev_good_plan_fault(table: *const u8, table_len: Size, edition: u64, digest: *const u8, digest_len: Size, mtu: Size, excluded: *const u64, excluded_len: Size, nodes: *const u64, nodes_len: Size, counts: *const u64, counts_len: Size) -> Judged;
    fn kev_read_delta(delta: *const u8, delta_len: Size) -> Delta;
    fn kev_apply(table: *mut u8, table_len: Size, delta: *const u8, delta_len: Size, clock: u64, answers: *mut u8, answers_len: Size) -> Applied;
    fn kev_good_apply(table: *mut u8, table_len: Size, delta: *const u8, delta_len: Size, clock: u64, answers: *mut u8, answers_len: Size) -> Applied;
    fn kev_apply_leaving(table: *mut u8, table_len: Size, own: *const u64, own_len: Size, delta: *const u8, delta_len: Size, clock: u64, answers: *mut u8, answers_len: Size) -> Applied;
    fn kev_good_apply_leaving(table: *mut u8, table_len: Size, own: *const u64, own_len: Size, delta: *const u8, delta_len: Size, clock: u64, answers: *mut u8, answers_len: Size) -> Applied;
    fn kev_list_delta(delta: *const u8, delta_len: Size, out: *mut u8, out_len: Size) -> Count;
    fn kev_make_delta(text: *const u8, text_len: Size, out: *mut u8, out_len: Size) -> Made;
    fn kev_list_table(table: *const u8, table_len: Size, out: *mut u8, out_len: Size) -> Count;
    fn kev_delta_nodes(delta: *const u8, delta_len: Size, list: *mut u64, list_len: Size) -> Applied;
    fn kev_exchange(publisher: *const u8, publisher_len: Size, follower: *mut u8, follower_len: Size, edition: u64, mtu: Size, unasked: *const u64, unasked_len: Size, unsent: *const u64, unsent_len: Size, ties: *const u64, ties_len: Size, clock: u64, digest: *mut u8, digest_len: Size, delta: *mut u8, delta_len: Size, answers: *mut u8, answers_len: Size) -> Exchanged;
    fn kev_new_grid(grid: *mut u8, grid_len: Size, table: *const u8, table_len: Size) -> u64;
    fn kev_grid_add_node(grid: *mut u8, grid_len: Size, table: *mut u8, table_len: Size, node: u64) -> u64;
    fn kev_grid_remove_node(grid: *mut u8, grid_len: Size, table: *mut u8, table_len: Size, node: u64) -> u64;
    fn kev_tell(grid: *mut u8, grid_len: Size, peer: u64, edition: u64, digest: *const u8, digest_len: Size) -> Told;
    fn kev_take_out(grid: *mut u8, grid_len: Size, peer: u64) -> u64;
    fn kev_least_max(grid: *const u8, grid_len: Size, node: u64) -> Least;
    fn kev_seen_by(grid: *const u8, grid_len: Size, peer: u64, node: u64) -> Seen;
    fn kev_remove_carefully(grid: *const u8, grid_len: Size, table: *mut u8, table_len: Size, clock: u64, grace: u64) -> u64;
}

// ---- the calls, each by its name in the header; on a good table those without the check

pub fn check(table: &[u8]) -> u64 {
    unsafe { kev_check(table.as_ptr(), len(table)) }
}

pub fn new_table(table: &mut [u8], mode: usize, profile: usize) -> u64 {
    unsafe { kev_new_table(table.as_mut_ptr(), len(table), Size::of(mode), Size::of(profile)) }
}

pub fn add_node<S: BytesMut>(store: &mut S, node: u64) -> u64 {
    let call = if S::GOOD { kev_good_add_node } else { kev_add_node };
    let table = store.lend(Call(()));
    unsafe { call(table.as_mut_ptr(), len(table), node) }
}

pub fn remove_node<S: BytesMut>(store: &mut S, node: u64) -> u64 {
    let call = if S::GOOD { kev_good_remove_node } else { kev_remove_node };
    let table = store.lend(Call(()));
    unsafe { call(table.as_mut_ptr(), len(table), node) }
}

pub fn last_heartbeat<S: Bytes>(store: &S, node: u64) -> Heartbeat {
    let call = if S::GOOD { kev_good_last_heartbeat } else { kev_last_heartbeat };
    let table = store.bytes();
    unsafe { call(table.as_ptr(), len(table), node) }
}

pub fn write<S: BytesMut>(store: &mut S, party: u64, node: u64, key: &[u8], value: &[u8], wanted: u64, clock: u64) -> u64 {
    let call = if S::GOOD { kev_good_write } else { kev_write };
    let table = store.lend(Call(()));
    unsafe { call(table.as_mut_ptr(), len(table), party, node, key.as_ptr(), len(key), value.as_ptr(), len(value), wanted, clock) }
}

pub fn delete<S: BytesMut>(store: &mut S, party: u64, node: u64, key: &[u8], clock: u64) -> u64 {
    let call = if S::GOOD { kev_good_delete } else { kev_delete };
    let table = store.lend(Call(()));
    unsafe { call(table.as_mut_ptr(), len(table), party, node, key.as_ptr(), len(key), clock) }
}

pub fn delete_after_ttl<S: BytesMut>(store: &mut S, party: u64, node: u64, key: &[u8], clock: u64) -> u64 {
    let call = if S::GOOD { kev_good_delete_after_ttl } else { kev_delete_after_ttl };
    let table = store.lend(Call(()));
    unsafe { call(table.as_mut_ptr(), len(table), party, node, key.as_ptr(), len(key), clock) }
}

pub fn remove_scheduled<S: BytesMut>(store: &mut S, clock: u64, grace: u64) -> u64 {
    let call = if S::GOOD { kev_good_remove_scheduled } else { kev_remove_scheduled };
    let table = store.lend(Call(()));
    unsafe { call(table.as_mut_ptr(), len(table), clock, grace) }
}

pub fn offer_heartbeat<S: BytesMut>(store: &mut S, node: u64, heartbeat: u64) -> Count {
    let call = if S::GOOD { kev_good_offer_heartbeat } else { kev_offer_heartbeat };
    let table = store.lend(Call(()));
    unsafe { call(table.as_mut_ptr(), len(table), node, heartbeat) }
}

pub fn local_beat<S: BytesMut>(store: &mut S, node: u64) -> u64 {
    let call = if S::GOOD { kev_good_local_beat } else { kev_local_beat };
    let table = store.lend(Call(()));
    unsafe { call(table.as_mut_ptr(), len(table), node) }
}

pub fn find<S: Bytes>(store: &S, party: u64, node: u64, key: &[u8]) -> Found {
    let call = if S::GOOD { kev_good_find } else { kev_find };
    let table = store.bytes();
    unsafe { call(table.as_ptr(), len(table), party, node, key.as_ptr(), len(key)) }
}

pub fn list_prefix<S: Bytes>(store: &S, party: u64, node: u64, prefix: &[u8], out: &mut [u8]) -> Count {
    let call = if S::GOOD { kev_good_list_prefix } else { kev_list_prefix };
    let table = store.bytes();
    unsafe { call(table.as_ptr(), len(table), party, node, prefix.as_ptr(), len(prefix), out.as_mut_ptr(), len(out)) }
}

pub fn check_overrides(overrides: &[u8]) -> u64 {
    unsafe { kev_check_overrides(overrides.as_ptr(), len(overrides)) }
}

pub fn new_overrides(overrides: &mut [u8], node: u64) -> u64 {
    unsafe { kev_new_overrides(overrides.as_mut_ptr(), len(overrides), node) }
}

pub fn write_override(overrides: &mut [u8], key: &[u8], value: &[u8], wanted: u64, clock: u64) -> u64 {
    unsafe { kev_write_override(overrides.as_mut_ptr(), len(overrides), key.as_ptr(), len(key), value.as_ptr(), len(value), wanted, clock) }
}

pub fn delete_override(overrides: &mut [u8], key: &[u8], clock: u64) -> u64 {
    unsafe { kev_delete_override(overrides.as_mut_ptr(), len(overrides), key.as_ptr(), len(key), clock) }
}

pub fn delete_override_after_ttl(overrides: &mut [u8], key: &[u8], clock: u64) -> u64 {
    unsafe { kev_delete_override_after_ttl(overrides.as_mut_ptr(), len(overrides), key.as_ptr(), len(key), clock) }
}

pub fn remove_overrides(overrides: &mut [u8], clock: u64, grace: u64) -> u64 {
    unsafe { kev_remove_overrides(overrides.as_mut_ptr(), len(overrides), clock, grace) }
}

/// Without the checks where both are known to be good.
pub fn find_over<S: Bytes>(overrides: &Labels, store: &S, party: u64, node: u64, key: &[u8]) -> FoundOver {
    let call = if S::GOOD { kev_good_find_over } else { kev_find_over };
    let (overrides, table) = (overrides.bytes(), store.bytes());
    unsafe { call(overrides.as_ptr(), len(overrides), table.as_ptr(), len(table), party, node, key.as_ptr(), len(key)) }
}

pub fn list_over<S: Bytes>(overrides: &Labels, store: &S, party: u64, node: u64, prefix: &[u8], out: &mut [u8]) -> ListedOver {
    let call = if S::GOOD { kev_good_list_over } else { kev_list_over };
    let (overrides, table) = (overrides.bytes(), store.bytes());
    unsafe { call(overrides.as_ptr(), len(overrides), table.as_ptr(), len(table), party, node, prefix.as_ptr(), len(prefix), out.as_mut_ptr(), len(out)) }
}

/// The same over bytes that may be no overrides.
pub fn find_over_any(overrides: &[u8], table: &[u8], party: u64, node: u64, key: &[u8]) -> FoundOver {
    unsafe { kev_find_over(overrides.as_ptr(), len(overrides), table.as_ptr(), len(table), party, node, key.as_ptr(), len(key)) }
}

pub fn list_over_any(overrides: &[u8], table: &[u8], party: u64, node: u64, prefix: &[u8], out: &mut [u8]) -> ListedOver {
    unsafe { kev_list_over(overrides.as_ptr(), len(overrides), table.as_ptr(), len(table), party, node, prefix.as_ptr(), len(prefix), out.as_mut_ptr(), len(out)) }
}

pub fn node_count<S: Bytes>(store: &S) -> Count {
    let call = if S::GOOD { kev_good_node_count } else { kev_node_count };
    let table = store.bytes();
    unsafe { call(table.as_ptr(), len(table)) }
}

pub fn node_number<S: Bytes>(store: &S, i: usize) -> NodeNumber {
    let call = if S::GOOD { kev_good_node_number } else { kev_node_number };
    let table = store.bytes();
    unsafe { call(table.as_ptr(), len(table), Size::of(i)) }
}

pub fn node_header<S: Bytes>(store: &S, node: u64) -> Header {
    let call = if S::GOOD { kev_good_node_header } else { kev_node_header };
    let table = store.bytes();
    unsafe { call(table.as_ptr(), len(table), node) }
}

pub fn record_count<S: Bytes>(store: &S, party: u64, node: u64) -> Count {
    let call = if S::GOOD { kev_good_record_count } else { kev_record_count };
    let table = store.bytes();
    unsafe { call(table.as_ptr(), len(table), party, node) }
}

pub fn record_at<S: Bytes>(store: &S, party: u64, node: u64, j: usize) -> Record {
    let call = if S::GOOD { kev_good_record_at } else { kev_record_at };
    let table = store.bytes();
    unsafe { call(table.as_ptr(), len(table), party, node, Size::of(j)) }
}

pub fn record_of<S: Bytes>(store: &S, party: u64, i: usize, j: usize) -> Record {
    let call = if S::GOOD { kev_good_record_of } else { kev_record_of };
    let table = store.bytes();
    unsafe { call(table.as_ptr(), len(table), party, Size::of(i), Size::of(j)) }
}

pub fn record_by_key<S: Bytes>(store: &S, party: u64, node: u64, key: &[u8]) -> Record {
    let call = if S::GOOD { kev_good_record_by_key } else { kev_record_by_key };
    let table = store.bytes();
    unsafe { call(table.as_ptr(), len(table), party, node, key.as_ptr(), len(key)) }
}

pub fn node_rows<S: Bytes>(store: &S, party: u64, node: u64) -> Rows {
    let call = if S::GOOD { kev_good_node_rows } else { kev_node_rows };
    let table = store.bytes();
    unsafe { call(table.as_ptr(), len(table), party, node) }
}

pub fn front<S: Bytes>(store: &S, party: u64, node: u64) -> Count {
    let call = if S::GOOD { kev_good_front } else { kev_front };
    let table = store.bytes();
    unsafe { call(table.as_ptr(), len(table), party, node) }
}

pub fn prefix_rows<S: Bytes>(store: &S, party: u64, node: u64, prefix: &[u8]) -> Rows {
    let call = if S::GOOD { kev_good_prefix_rows } else { kev_prefix_rows };
    let table = store.bytes();
    unsafe { call(table.as_ptr(), len(table), party, node, prefix.as_ptr(), len(prefix)) }
}

pub fn key_at<S: Bytes>(store: &S, party: u64, node: u64, j: usize) -> Found {
    let call = if S::GOOD { kev_good_key_at } else { kev_key_at };
    let table = store.bytes();
    unsafe { call(table.as_ptr(), len(table), party, node, Size::of(j)) }
}

pub fn value_at<S: Bytes>(store: &S, party: u64, node: u64, j: usize) -> Found {
    let call = if S::GOOD { kev_good_value_at } else { kev_value_at };
    let table = store.bytes();
    unsafe { call(table.as_ptr(), len(table), party, node, Size::of(j)) }
}

pub fn write_digest<S: Bytes>(store: &S, edition: u64, excluded: &[u64], datagram: &mut [u8], place: usize) -> Count {
    let call = if S::GOOD { kev_good_write_digest } else { kev_write_digest };
    let table = store.bytes();
    unsafe { call(table.as_ptr(), len(table), edition, excluded.as_ptr(), len(excluded), datagram.as_mut_ptr(), len(datagram), Size::of(place)) }
}

pub fn read_digest(edition: u64, digest: &[u8]) -> Digest {
    unsafe { kev_read_digest(edition, digest.as_ptr(), len(digest)) }
}

pub fn digest_entry(edition: u64, digest: &[u8], i: usize) -> Entry {
    unsafe { kev_digest_entry(edition, digest.as_ptr(), len(digest), Size::of(i)) }
}

pub fn compute<S: Bytes>(store: &S, edition: u64, digest: &[u8], mtu: usize, excluded: &[u64], ties: &[u64], datagram: &mut [u8], place: usize) -> Computed {
    let call = if S::GOOD { kev_good_compute } else { kev_compute };
    let table = store.bytes();
    unsafe { call(table.as_ptr(), len(table), edition, digest.as_ptr(), len(digest), Size::of(mtu), excluded.as_ptr(), len(excluded), ties.as_ptr(), len(ties), datagram.as_mut_ptr(), len(datagram), Size::of(place)) }
}

pub fn compute_plan<S: Bytes>(store: &S, edition: u64, digest: &[u8], mtu: usize, excluded: &[u64], nodes: &[u64], counts: &[u64], datagram: &mut [u8], place: usize) -> Computed {
    let call = if S::GOOD { kev_good_compute_plan } else { kev_compute_plan };
    let table = store.bytes();
    unsafe { call(table.as_ptr(), len(table), edition, digest.as_ptr(), len(digest), Size::of(mtu), excluded.as_ptr(), len(excluded), nodes.as_ptr(), len(nodes), counts.as_ptr(), len(counts), datagram.as_mut_ptr(), len(datagram), Size::of(place)) }
}

pub fn plan_fault<S: Bytes>(store: &S, edition: u64, digest: &[u8], mtu: usize, excluded: &[u64], nodes: &[u64], counts: &[u64]) -> Judged {
    let call = if S::GOOD { kev_good_plan_fault } else { kev_plan_fault };
    let table = store.bytes();
    unsafe { call(table.as_ptr(), len(table), edition, digest.as_ptr(), len(digest), Size::of(mtu), excluded.as_ptr(), len(excluded), nodes.as_ptr(), len(nodes), counts.as_ptr(), len(counts)) }
}

pub fn read_delta(delta: &[u8]) -> Delta {
    unsafe { kev_read_delta(delta.as_ptr(), len(delta)) }
}

pub fn apply<S: BytesMut>(store: &mut S, delta: &[u8], clock: u64, answers: &mut [u8]) -> Applied {
    let call = if S::GOOD { kev_good_apply } else { kev_apply };
    let table = store.lend(Call(()));
    unsafe { call(table.as_mut_ptr(), len(table), delta.as_ptr(), len(delta), clock, answers.as_mut_ptr(), len(answers)) }
}

pub fn apply_leaving<S: BytesMut>(store: &mut S, own: &[u64], delta: &[u8], clock: u64, answers: &mut [u8]) -> Applied {
    let call = if S::GOOD { kev_good_apply_leaving } else { kev_apply_leaving };
    let table = store.lend(Call(()));
    unsafe { call(table.as_mut_ptr(), len(table), own.as_ptr(), len(own), delta.as_ptr(), len(delta), clock, answers.as_mut_ptr(), len(answers)) }
}

pub fn list_delta(delta: &[u8], out: &mut [u8]) -> Count {
    unsafe { kev_list_delta(delta.as_ptr(), len(delta), out.as_mut_ptr(), len(out)) }
}

pub fn make_delta(text: &[u8], out: &mut [u8]) -> Made {
    unsafe { kev_make_delta(text.as_ptr(), len(text), out.as_mut_ptr(), len(out)) }
}

pub fn list_table(table: &[u8], out: &mut [u8]) -> Count {
    unsafe { kev_list_table(table.as_ptr(), len(table), out.as_mut_ptr(), len(out)) }
}

pub fn delta_nodes(delta: &[u8], list: &mut [u64]) -> Applied {
    unsafe { kev_delta_nodes(delta.as_ptr(), len(delta), list.as_mut_ptr(), len(list)) }
}

pub fn exchange(publisher: &[u8], follower: &mut [u8], edition: u64, mtu: usize, unasked: &[u64], unsent: &[u64], ties: &[u64], clock: u64, digest: &mut [u8], delta: &mut [u8], answers: &mut [u8]) -> Exchanged {
    unsafe { kev_exchange(publisher.as_ptr(), len(publisher), follower.as_mut_ptr(), len(follower), edition, Size::of(mtu), unasked.as_ptr(), len(unasked), unsent.as_ptr(), len(unsent), ties.as_ptr(), len(ties), clock, digest.as_mut_ptr(), len(digest), delta.as_mut_ptr(), len(delta), answers.as_mut_ptr(), len(answers)) }
}

// ---- who has seen what: both are checked in each call, an owned table too

pub fn new_grid<S: Bytes>(grid: &mut [u8], store: &S) -> u64 {
    let table = store.bytes();
    unsafe { kev_new_grid(grid.as_mut_ptr(), len(grid), table.as_ptr(), len(table)) }
}

pub fn grid_add_node<S: BytesMut>(grid: &mut [u8], store: &mut S, node: u64) -> u64 {
    let table = store.lend(Call(()));
    unsafe { kev_grid_add_node(grid.as_mut_ptr(), len(grid), table.as_mut_ptr(), len(table), node) }
}

pub fn grid_remove_node<S: BytesMut>(grid: &mut [u8], store: &mut S, node: u64) -> u64 {
    let table = store.lend(Call(()));
    unsafe { kev_grid_remove_node(grid.as_mut_ptr(), len(grid), table.as_mut_ptr(), len(table), node) }
}

pub fn tell(grid: &mut [u8], peer: u64, edition: u64, digest: &[u8]) -> Told {
    unsafe { kev_tell(grid.as_mut_ptr(), len(grid), peer, edition, digest.as_ptr(), len(digest)) }
}

pub fn take_out(grid: &mut [u8], peer: u64) -> u64 {
    unsafe { kev_take_out(grid.as_mut_ptr(), len(grid), peer) }
}

pub fn least_max(grid: &[u8], node: u64) -> Least {
    unsafe { kev_least_max(grid.as_ptr(), len(grid), node) }
}

pub fn seen_by(grid: &[u8], peer: u64, node: u64) -> Seen {
    unsafe { kev_seen_by(grid.as_ptr(), len(grid), peer, node) }
}

pub fn remove_carefully<S: BytesMut>(grid: &[u8], store: &mut S, clock: u64, grace: u64) -> u64 {
    let table = store.lend(Call(()));
    unsafe { kev_remove_carefully(grid.as_ptr(), len(grid), table.as_mut_ptr(), len(table), clock, grace) }
}
