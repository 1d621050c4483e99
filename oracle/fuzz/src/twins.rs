//! Two firms on one table: what one does and is told does not depend on the other (`parties: the two runs`), asked of the library itself. Beside a good shared table stands, for each firm, a second
//! one on which the other's writes and deletes are left out. Each call of the firm, and each that no firm makes, is made on both, and must tell the same; so must its readings afterwards, but for
//! versions. Where a delta is applied, or a firm's own call is answered 6 since versions have come to their end, the second table becomes a copy: what a hub says to its peers, and when versions end,
//! does depend on both.

use script::Call;
use script::table::{BUILDING, METERING, SHARED};

use crate::ffi;
use crate::port::{PROFILE_AT, Seen, Told, ask, by_party, seen};

const FIRMS: [u64; 2] = [METERING, BUILDING];

#[derive(Default)]
pub struct Twins {
    /// Each firm's second table; none where it is a copy.
    second: [Option<Vec<u8>>; 2],
    /// How many calls were made on second tables, and on how many of these a record of the other's was missing.
    pub asked: u64,
    pub apart: u64,
    /// Calls of the library.
    pub calls: u64,
}

/// The node that a call names.
fn node_of(call: &Call) -> Option<u64> {
    match call {
        Call::Write { node, .. } | Call::Delete { node, .. } | Call::DeleteTtl { node, .. } | Call::Get { node, .. } | Call::List { node, .. } => Some(*node),
        _ => None,
    }
}

/// Calls that tell of all records, to peers.
fn to_peers(call: &Call) -> bool {
    matches!(call, Call::Digest { .. } | Call::Compute { .. } | Call::Plan { .. } | Call::PlanFault { .. })
}

/// What a firm reads of a node at a place, without versions.
fn told_of(table: &[u8], firm: u64, i: usize) -> Result<Vec<Seen>, String> {
    Ok(seen(&table, firm, i)?.into_iter().map(Seen::unversioned).collect())
}

impl Twins {
    /// From now on the second tables are copies.
    pub fn meet(&mut self) {
        self.second = [None, None];
    }

    /// A call that was made on a good table.
    pub fn follow(&mut self, before: &[u8], after: &[u8], party: u64, call: &Call, told: &Told) -> Result<(), String> {
        if after[PROFILE_AT] != SHARED || matches!(call, Call::Apply { .. }) && told.number == 0 {
            self.meet();
            return Ok(());
        }
        if to_peers(call) || matches!(call, Call::Apply { .. }) {
            return Ok(());
        }
        for (i, &firm) in FIRMS.iter().enumerate() {
            let mut second = self.second[i].take().unwrap_or_else(|| before.to_vec());
            let left_out = by_party(call) && FIRMS.contains(&party) && party != firm;
            if !left_out {
                self.asked += 1;
                self.apart += u64::from(second != before);
                self.calls += 1;
                let other = ask(&mut &mut second[..], party, call);
                if by_party(call) && (told.number == 6 || other.number == 6) {
                    continue;
                }
                if other != *told {
                    return Err(format!("{call:?} by {party}: {}, and {} without the other firm's calls", told.answer, other.answer));
                }
                if before != after {
                    self.same(&second, after, firm, call)?;
                }
            }
            self.second[i] = Some(second);
        }
        Ok(())
    }

    /// The firm reads the same of both, of the node that the call names or of another.
    fn same(&mut self, second: &[u8], after: &[u8], firm: u64, call: &Call) -> Result<(), String> {
        let count = ffi::node_count(&after).count.get();
        if ffi::node_count(&second).count.get() != count {
            return Err(format!("{call:?}: the two have not as many nodes"));
        }
        let named = node_of(call).and_then(|node| (0..count).find(|&i| ffi::node_number(&after, i).node == node));
        let Some(i) = named.or_else(|| (count > 0).then(|| self.asked as usize % count)) else { return Ok(()) };
        let [one, two] = [told_of(after, firm, i)?, told_of(second, firm, i)?];
        self.calls += 12 + 10 * one.len() as u64;
        if one == two { Ok(()) } else { Err(format!("{call:?}: firm {firm} does not read the same without the other's calls")) }
    }
}
