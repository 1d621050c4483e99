//! Overrides: the library's calls beside `plain`, in a walk of their own. Of each call it is asked that its answer and the overrides afterwards equal those of `plain`; where it is
//! refused, no lent byte has changed; where it is accepted, the check accepts what it leaves. A lookup's bytes are those very bytes of the one slice or of the other; the listing is what the crate's
//! merging iterator gives, and a key is listed where the lookup finds it; both without the checks tell the same; with 14 the answer says which of the two is no good. Half the tables are shared, and
//! are read by both firms and by nobody.

use kevdarosh::{Overrides as Owned, TableView};
use plain::local::Scheduled;
use plain::over::{Over, Overrides};
use plain::table::Table;
use script::table::{BUILDING, DELETE, FREE, METERING, NODE_BYTES, NODE_HEAD_BYTES, PLAIN, RECORD_BYTES, SET, SHARED, TTL};

use crate::ffi::{self, Kept, Labels};
use crate::port::{front, party_of};
use crate::random::Random;

const MARK: u8 = 0xEE;

/// A key of a few letters, so that the two have many in common; now and then one that is too long. Where two firms share the table, mostly one of theirs.
fn key(random: &mut Random, firms: bool) -> Vec<u8> {
    let len = if random.once_in(60) { random.within(29, 34) } else { random.below(4) };
    let firm = if firms { *random.pick(&["m/", "m/", "m/", "b/", "b/", "b/", "", "m"]) } else { "" };
    firm.bytes().chain((0..len).map(|_| *random.pick(b"ab\xFF"))).collect()
}

fn value(random: &mut Random) -> Vec<u8> {
    let len = if random.once_in(60) { random.within(63, 66) } else { random.below(3) };
    (0..len).map(|_| *random.pick(b"01")).collect()
}

fn number(outcome: Result<(), u8>) -> u64 {
    outcome.err().map_or(0, u64::from)
}

/// The texts of record `place` in a node's bytes: where its value begins, and its key.
fn row(node: &[u8], place: usize) -> (usize, Vec<u8>) {
    let at = NODE_HEAD_BYTES + place * RECORD_BYTES;
    (at + 34, node[at + 1..at + 1 + usize::from(node[at])].to_vec())
}

struct Walk {
    random: Random,
    calls: u64,
    /// The bytes, and what they are.
    over: Vec<u8>,
    plain: Option<Overrides>,
    table: Vec<u8>,
    below: Option<Table>,
    /// Whether two firms share it.
    firms: bool,
}

/// So many turns; how many calls were made.
pub fn walk(seed: u64, index: u64, turns: u64) -> Result<u64, String> {
    let mut walk = Walk { random: Random::new(seed, index), calls: 0, over: vec![MARK; NODE_BYTES], plain: None, table: Vec::new(), below: None, firms: false };
    walk.table();
    for turn in 0..turns {
        let what = walk.turn().map_err(|what| format!("overrides, walk {index}, turn {turn}: {what}"))?;
        if walk.plain.as_ref().is_some_and(|plain| plain.to_bytes() != walk.over) {
            return Err(format!("overrides, walk {index}, turn {turn}: after {what} the bytes differ"));
        }
    }
    Ok(walk.calls)
}

impl Walk {
    /// Another table, with node 7 or without it; now and then one that is none.
    fn table(&mut self) {
        self.firms = self.random.once_in(2);
        let mut table = Table::made(PLAIN, if self.firms { SHARED } else { FREE });
        let _ = table.add(3);
        if !self.random.once_in(6) {
            let _ = table.add(7);
        }
        for _ in 0..self.random.below(80) {
            let (key, value) = (key(&mut self.random, self.firms), value(&mut self.random));
            let party = if key.starts_with(b"m") { METERING } else { BUILDING };
            let _ = table.write(party, 7, &key, &value, *self.random.pick(&[SET, TTL].map(u64::from)), 5);
            if self.random.once_in(3) {
                let _ = table.delete(party, 7, &key, 5, Scheduled::Delete);
            }
        }
        self.table = table.to_bytes();
        self.below = Some(table);
        if self.random.once_in(12) {
            let place = self.random.place(self.table.len());
            self.table[place] ^= 0x55;
            self.below = Table::from_bytes(&self.table);
        }
    }

    /// Who reads, nobody among them.
    fn party(&mut self) -> u64 {
        *self.random.pick(&[METERING, METERING, BUILDING, BUILDING, 0, 3])
    }

    fn turn(&mut self) -> Result<&'static str, String> {
        match self.random.below(24) {
            0 => self.table(),
            1 => return self.remake(),
            2..=8 => return self.write(),
            9..=11 => return self.delete(),
            12 => return self.gc(),
            13..=18 => return self.find(),
            _ => return self.list(),
        }
        Ok("another table")
    }

    fn remake(&mut self) -> Result<&'static str, String> {
        self.calls += 1;
        if self.random.once_in(4) {
            // bytes that are none, or that may be
            let place = self.random.place(self.over.len());
            self.over[place] ^= *self.random.pick(&[1, 2, 0x80, 0xFF]);
            if self.random.once_in(8) {
                self.over.pop();
            }
            self.plain = Overrides::from_bytes(&self.over);
            let told = ffi::check_overrides(&self.over);
            let want = if self.plain.is_some() { 0 } else { 14 };
            return if told == want { Ok("damage") } else { Err(format!("the check tells {told} of damaged overrides")) };
        }
        self.over.resize(NODE_BYTES, MARK);
        let node = self.random.next();
        let told = ffi::new_overrides(&mut self.over, node);
        self.plain = Some(Overrides::new(node));
        let mut shorter = vec![MARK; NODE_BYTES - 1];
        let refused = ffi::new_overrides(&mut shorter, node) == 14 && shorter.iter().all(|&byte| byte == MARK);
        if told == 0 && refused { Ok("new") } else { Err(format!("new overrides: {told}")) }
    }

    /// What a call told and left, beside what it should.
    fn told(&mut self, what: &'static str, before: &[u8], told: u64, want: u64) -> Result<&'static str, String> {
        self.calls += 1;
        if told != want {
            return Err(format!("{what}: plain {want}, library {told}"));
        }
        if told != 0 && before != self.over {
            return Err(format!("{what}: refused with {told}, and bytes changed"));
        }
        if told == 0 && ffi::check_overrides(&self.over) != 0 {
            return Err(format!("{what}: left no overrides"));
        }
        Ok(what)
    }

    fn write(&mut self) -> Result<&'static str, String> {
        let (key, value, before) = (key(&mut self.random, self.firms), value(&mut self.random), self.over.clone());
        let wanted = *self.random.pick(&[SET, SET, TTL, DELETE, 3].map(u64::from));
        let now = self.random.below(100);
        let want = self.plain.as_mut().map_or(14, |plain| number(plain.write(&key, &value, wanted, now)));
        let told = ffi::write_override(&mut self.over, &key, &value, wanted, now);
        self.told("write", &before, told, want)
    }

    fn delete(&mut self) -> Result<&'static str, String> {
        let (key, before, now) = (key(&mut self.random, self.firms), self.over.clone(), self.random.below(100));
        if self.random.once_in(3) {
            let want = self.plain.as_mut().map_or(14, |plain| number(plain.delete(&key, now, Scheduled::AfterTtl)));
            let told = ffi::delete_override_after_ttl(&mut self.over, &key, now);
            return self.told("delete after TTL", &before, told, want);
        }
        let want = self.plain.as_mut().map_or(14, |plain| number(plain.delete(&key, now, Scheduled::Delete)));
        let told = ffi::delete_override(&mut self.over, &key, now);
        self.told("delete", &before, told, want)
    }

    fn gc(&mut self) -> Result<&'static str, String> {
        let (before, now, grace) = (self.over.clone(), self.random.below(120), self.random.below(40));
        let want = self.plain.as_mut().map_or(14, |plain| {
            plain.gc(now, grace);
            0
        });
        let told = ffi::remove_overrides(&mut self.over, now, grace);
        self.told("removal", &before, told, want)
    }

    /// Both, where they are good, else the number and which of the two is not.
    fn good(&self) -> Result<(&Overrides, &Table), (u64, u64)> {
        let over = self.plain.as_ref().ok_or((14, 1))?;
        Ok((over, self.below.as_ref().ok_or((14, 2))?))
    }

    fn find(&mut self) -> Result<&'static str, String> {
        let (key, party) = (key(&mut self.random, self.firms), self.party());
        let node = *self.random.pick(&[7, 7, 7, 7, 8]);
        self.calls += 2;
        let want = self.good().and_then(|(over, table)| over.get(table, party, node, &key).map_err(|number| (u64::from(number), 0)));
        let told = ffi::find_over_any(&self.over, &self.table, party, node, &key);
        let bytes = if told.over.get() == 1 { &self.over[..] } else { &self.table[front(&&self.table[..], party, node)..] };
        let text = bytes[told.start.get()..told.start.get() + told.len.get()].to_vec();
        let got = match (told.number, told.found.get(), told.over.get()) {
            (0, 1, 1) => Ok(Over::Overrides(text)),
            (0, 1, 0) => Ok(Over::Node(text)),
            (0, 0, 0) if told.start.get() == 0 && told.len.get() == 0 => Ok(Over::None),
            (number, 0, 0) => Err((number, told.which)),
            _ => return Err("a lookup that is none".into()),
        };
        if want != got {
            return Err(format!("lookup: plain {want:?}, library {got:?}"));
        }
        if let (Ok(labels), Ok(kept)) = (Labels::checked(&self.over), Kept::checked(&self.table)) {
            let again = ffi::find_over(&labels, &kept, party, node, &key);
            let pair = |it: ffi::FoundOver| (it.number, it.found, it.over, it.start, it.len, it.which);
            if pair(again) != pair(told) {
                return Err("lookup: not the same without the checks".into());
            }
        }
        Ok("lookup")
    }

    fn list(&mut self) -> Result<&'static str, String> {
        let (prefix, party) = (key(&mut self.random, self.firms), self.party());
        let node = *self.random.pick(&[7, 7, 7, 7, 8]);
        let places = if self.random.once_in(3) { self.random.below(66) } else { 64 };
        self.calls += 3;
        let want = self.good().and_then(|(over, table)| over.list(table, party, node, &prefix, places).map_err(|number| (u64::from(number), 0)));
        let mut out = vec![MARK; places as usize];
        let told = ffi::list_over_any(&self.over, &self.table, party, node, &prefix, &mut out);
        let count = told.count.get();
        if !out[count..].iter().all(|&byte| byte == MARK) {
            return Err("listing: a place behind the hits was written".into());
        }
        let got = if told.number == 0 { Ok(out[..count].to_vec()) } else { Err((told.number, told.which)) };
        if want != got {
            return Err(format!("listing: plain {want:?}, library {got:?}"));
        }
        let Ok(hits) = got else { return Ok("listing") };
        let (labels, kept) = match (Labels::checked(&self.over), Kept::checked(&self.table)) {
            (Ok(labels), Ok(kept)) => (labels, kept),
            _ => return Err("listing: accepted of what the checks refuse".into()),
        };
        let mut again = vec![MARK; 64];
        let count = ffi::list_over(&labels, &kept, party, node, &prefix, &mut again).count.get();
        if again[..count] != hits[..] {
            return Err("listing: not the same without the checks".into());
        }
        // a key is listed where the lookup finds it, and the crate's iterator gives these very records
        let owned = Owned::from_bytes(&self.over).map_err(|why| why.to_string())?;
        let view = TableView::over(&self.table);
        let merged = view.party(party_of(party)).node_state(node).and_then(|state| state.iter_prefix_over(&owned, &prefix)).map_err(|why| why.to_string())?;
        let slot = 1 + self.table[1..].chunks(NODE_BYTES).position(|slot| slot[..8] == node.to_le_bytes()).unwrap_or_default() * NODE_BYTES;
        let (mut given, front) = (0, front(&&self.table[..], party, node));
        for (&hit, record) in hits.iter().zip(merged) {
            let over = hit >= 128;
            let (at, key) = if over { row(&self.over, usize::from(hit) - 128) } else { row(&self.table[slot + front..], hit.into()) };
            let start = if over { at } else { slot + at };
            let found = ffi::find_over_any(&self.over, &self.table, party, node, &key);
            self.calls += 1;
            if (found.found.get(), found.over.get(), found.start.get()) != (1, over.into(), start) || record.key != key {
                return Err(format!("listing: hit {hit} is not where the lookup finds its key"));
            }
            given += 1;
        }
        if given == hits.len() { Ok("listing") } else { Err("listing: the crate's iterator gives fewer".into()) }
    }
}
