//! A net of hubs in its ticks, and what is seen of it.

use std::borrow::Cow;
use std::time::Instant;

use kevdarosh::{DELTA, Mode};
use script::table::{DELETE, SET, TTL};

use crate::chance::{Chance, For};
use crate::claims::{self, Breaches, FALL, Given, History, OWNER, Seen};
use crate::plan::{LATEST, MOMENTS, NODES, Peers, Plan, TICK, Wrong};
use crate::side::{Change, Sent, Side};
use crate::view::{self, Pair};

/// Every node.
const ALL: u8 = u8::MAX;
/// Nothing is removed.
pub const NEVER: u64 = u64::MAX;
/// The byte that tells a digest from a delta.
const KIND: usize = 1;

enum Kind {
    Digest,
    Delta,
}

struct Datagram {
    from: u32,
    to: u32,
    kind: Kind,
    /// The exchange to which it belongs: who began it, and in which tick. And which copy of its digest it answers.
    began: (u32, u32),
    copy: u8,
    bytes: Box<[u8]>,
}

/// What the calls of a side took, in nanoseconds.
#[derive(Clone, Copy, Default, Debug)]
pub struct Spent {
    pub digest: u64,
    pub compute: u64,
    pub apply: u64,
    pub remove: u64,
}

impl Spent {
    pub fn all(self) -> u64 {
        self.digest + self.compute + self.apply + self.remove
    }
}

/// What was sent, and what came of it.
#[derive(Clone, Copy, Default, Debug)]
pub struct Counts {
    pub datagrams: u64,
    pub bytes: u64,
    pub lost: u64,
    pub doubled: u64,
    pub late: u64,
    pub resets: u64,
    pub fenced: u64,
    pub switched: u64,
    pub restored: u64,
    /// Records that removal took, at all hubs.
    pub removed: u64,
    /// Nodes of hubs looked at, and readings of hubs that fell to an older version.
    pub looked: u64,
    pub fell: u64,
}

/// The net at the end of a tick.
#[derive(Clone, Copy, Default, Debug)]
pub struct Sample {
    pub on: usize,
    pub agree: usize,
    /// Hubs that show a deleted reading: those that have not heard of the delete, those that have.
    pub late: usize,
    pub back: usize,
    /// Deleted readings that are back, at all hubs.
    pub readings: u64,
    pub datagrams: u64,
}

/// A hub that will be switched off, or is.
struct Off {
    at: u64,
    until: u64,
    /// The table with which it comes back. An owner comes back with the one that it had.
    kept: Option<Vec<u8>>,
}

pub struct Net<S> {
    pub plan: Plan,
    pub hubs: Vec<S>,
    pub tick: u64,
    pub counts: Counts,
    pub spent: Spent,
    pub breaches: Breaches,
    /// What is broken first, and when.
    pub first: [Option<u64>; claims::CLAIMS.len()],
    /// Ticks from a delete to its removal.
    pub grace: u64,
    history: History,
    off: Vec<Option<Off>>,
    phases: Vec<Vec<u32>>,
    peers: Vec<Vec<u32>>,
    skews: Vec<u64>,
    ways: Vec<Vec<Datagram>>,
    moment: u64,
    /// What was seen of each hub's nodes last, and which must be looked at again, a bit each.
    seen: Vec<[Seen; NODES]>,
    stale: Vec<u8>,
    pairs: Vec<[Pair; NODES]>,
    /// The highest version of each key that a hub has shown, or hidden. Of nothing where nobody asks.
    highest: Vec<Vec<u64>>,
    datagram: Box<[u8; DELTA]>,
}

impl<S: Side> Net<S> {
    pub fn new(plan: Plan) -> Net<S> {
        let hubs = plan.hubs;
        let mode = |hub: usize| match plan.wrong {
            Some(Wrong::AllPlain) => Mode::Plain,
            Some(Wrong::SomePlain) if hub % 10 == 9 => Mode::Plain,
            _ => plan.mode,
        };
        let mut phases = vec![Vec::new(); MOMENTS as usize];
        for hub in 0..hubs {
            phases[Chance::of(plan.seed, For::Phase, hub, 0).below(MOMENTS as usize)].push(hub as u32);
        }
        Net {
            plan,
            hubs: (0..hubs).map(|hub| S::new(mode(hub))).collect(),
            tick: 0,
            counts: Counts::default(),
            spent: Spent::default(),
            breaches: Breaches::default(),
            first: [None; claims::CLAIMS.len()],
            grace: NEVER,
            history: History::new(plan.records),
            off: (0..hubs).map(|_| None).collect(),
            phases,
            peers: peers(&plan),
            skews: (0..hubs).map(|hub| Chance::of(plan.seed, For::Skew, hub, 0).next() % 1_000_000).collect(),
            ways: (0..=LATEST).map(|_| Vec::new()).collect(),
            moment: 0,
            seen: vec![[Seen::default(); NODES]; hubs],
            stale: vec![ALL; hubs],
            pairs: vec![[Pair::default(); NODES]; hubs],
            highest: vec![vec![0; NODES * plan.records]; hubs],
            datagram: Box::new([0; DELTA]),
        }
    }

    fn chance(&self, purpose: For, who: usize) -> Chance {
        Chance::of(self.plan.seed, purpose, who, self.tick)
    }

    fn clock(&self, hub: usize) -> u64 {
        self.skews[hub] + self.moment * (TICK / MOMENTS)
    }

    pub fn is_on(&self, hub: usize) -> bool {
        self.off[hub].as_ref().is_none_or(|off| self.tick < off.at)
    }

    fn own(&self, hub: usize) -> Option<u64> {
        self.plan.owns(hub).then_some(hub as u64 + 1)
    }

    // ---- what owners do

    /// The owner of a node gives a key a new version.
    pub fn write(&mut self, node: usize, key: usize, status: u8) {
        let clock = self.clock(node);
        let next = view::node(&self.hubs[node].table(), node).pair().max + 1;
        let value = claims::value(node, key, next);
        let change = match status {
            SET => Change::Set(value.text()),
            TTL => Change::SetWithTtl(value.text()),
            _ => Change::Delete,
        };
        let held = self.history.given[node][key];
        if status == DELETE && (held.version == 0 || held.status == DELETE) {
            return;
        }
        if self.hubs[node].change(node as u64 + 1, &self.history.keys[node][key], change, clock) {
            self.history.given[node][key] = Given { version: next, status, value };
            self.owner_changed(node);
        }
    }

    /// Every key of every node, in no order of the keys.
    pub fn write_all(&mut self) {
        for node in 0..NODES {
            for turn in 0..self.plan.records {
                // 13 is prime to the records of a node.
                self.write(node, (turn * 13 + 5 + node) % self.plan.records, SET);
            }
        }
    }

    /// What goes on while hubs are switched off and on. Of each owner once in so many ticks: a write, a write with a TTL, or a delete.
    pub fn write_some(&mut self, once_in: usize) {
        for node in 0..NODES {
            let mut chance = self.chance(For::Write, node);
            if chance.below(once_in) > 0 || !self.is_on(node) {
                continue;
            }
            let key = chance.below(self.plan.records);
            match chance.below(7) {
                0..=2 => self.write(node, key, SET),
                3 => self.write(node, key, TTL),
                _ => self.write(node, key, DELETE),
            }
        }
    }

    /// Of each hub in each tick once in so many times: it will be switched off within five ticks, for up to sixty, and comes back with the table that it has now. An owner
    /// comes back with the one that it has when it is switched off: it stores before it sends.
    pub fn switch_some(&mut self, once_in: usize) {
        for hub in 0..self.plan.hubs {
            if self.off[hub].is_some() {
                continue;
            }
            let forgets = !self.plan.keeps && !self.plan.owns(hub) || self.plan.wrong == Some(Wrong::OwnerLost);
            // Owners are few: where they are to lose writes they are switched off more often.
            let once_in = if self.plan.owns(hub) && forgets { once_in / 10 } else { once_in };
            let mut chance = self.chance(For::Off, hub);
            if chance.below(once_in) > 0 {
                continue;
            }
            let at = self.tick + 1 + chance.below(5) as u64;
            let until = at + 1 + chance.below(60) as u64;
            let kept = forgets.then(|| self.hubs[hub].table().into_owned());
            self.off[hub] = Some(Off { at, until, kept });
            self.counts.switched += 1;
        }
    }

    fn switch_on(&mut self) {
        for hub in 0..self.plan.hubs {
            let due = self.off[hub].as_ref().is_some_and(|off| off.until == self.tick);
            if !due {
                continue;
            }
            let off = self.off[hub].take().expect("a hub that is off");
            if let Some(table) = off.kept {
                self.hubs[hub] = S::of(&table).expect("a table that was one");
                self.counts.restored += 1;
                self.restored(hub);
            }
        }
    }

    /// The hub's table is another one of its own.
    fn restored(&mut self, hub: usize) {
        if self.plan.wrong != Some(Wrong::Silent) {
            self.pairs[hub] = claims::pairs(&self.hubs[hub].table());
            self.highest[hub].fill(0);
        }
        self.stale[hub] = ALL;
        if self.plan.owns(hub) {
            self.owner_changed(hub);
        }
    }

    /// Every hub's claims speak of what the owner has.
    fn owner_changed(&mut self, node: usize) {
        for stale in &mut self.stale {
            *stale |= 1 << node;
        }
    }

    /// Everyone is on from now on; who would have been switched off later stays on.
    pub fn all_on(&mut self) {
        for off in &mut self.off {
            match off {
                Some(later) if self.tick < later.at => *off = None,
                Some(now) => now.until = self.tick,
                None => {}
            }
        }
    }

    // ---- a tick

    /// All moments of a tick; then every hub is looked at.
    pub fn step(&mut self) -> Sample {
        self.switch_on();
        let before = self.counts.datagrams;
        for part in 0..MOMENTS as usize {
            let way = (self.moment % self.ways.len() as u64) as usize;
            for datagram in std::mem::take(&mut self.ways[way]) {
                self.arrive(datagram);
            }
            for place in 0..self.phases[part].len() {
                let hub = self.phases[part][place] as usize;
                if self.is_on(hub) {
                    self.beat(hub);
                }
            }
            self.moment += 1;
        }
        self.harm();
        let sample = self.look(self.counts.datagrams - before);
        self.tick += 1;
        sample
    }

    /// A beat, a removal, and a digest to a peer.
    fn beat(&mut self, hub: usize) {
        if let Some(own) = self.own(hub) {
            self.hubs[hub].beat(own);
        }
        let clock = self.clock(hub);
        if self.grace != NEVER {
            let before = removable(&self.hubs[hub]);
            let start = Instant::now();
            self.hubs[hub].remove(clock, self.grace * TICK);
            self.spent.remove += elapsed(start);
            let after = removable(&self.hubs[hub]);
            for place in (0..NODES).filter(|&place| after[place] != before[place]) {
                self.counts.removed += (before[place].1 - after[place].1) as u64;
                self.stale[hub] |= 1 << place;
                if place == hub {
                    self.owner_changed(place);
                }
            }
        }
        let mut chance = self.chance(For::Peer, hub);
        let to = match &self.peers[hub][..] {
            [] => (hub + 1 + chance.below(self.plan.hubs - 1)) % self.plan.hubs,
            peers => peers[chance.below(peers.len())] as usize,
        };
        self.ask(hub, to, (hub as u32, self.tick as u32), 0);
    }

    fn ask(&mut self, hub: usize, to: usize, began: (u32, u32), copy: u8) {
        let start = Instant::now();
        let digest = self.hubs[hub].digest();
        self.spent.digest += elapsed(start);
        self.send(hub, to, Kind::Digest, began, copy, digest);
    }

    /// The datagram's fate hangs on its exchange alone.
    fn send(&mut self, from: usize, to: usize, kind: Kind, began: (u32, u32), copy: u8, sent: Sent) {
        self.counts.datagrams += 1;
        self.counts.bytes += (KIND + sent.len) as u64;
        let purpose = if matches!(kind, Kind::Digest) { For::Digest } else { For::Answer };
        let who = (began.0 as usize) << 8 | usize::from(copy) << 1 | usize::from(from as u32 != began.0);
        let mut chance = Chance::of(self.plan.seed, purpose, who, began.1.into());
        let link = self.plan.link;
        let (lost, doubled) = (chance.thousandth(link.lost), chance.thousandth(link.doubled));
        self.counts.lost += u64::from(lost);
        if lost {
            return;
        }
        self.counts.doubled += u64::from(doubled);
        for again in 0..=u8::from(doubled) {
            let late = chance.thousandth(link.late);
            self.counts.late += u64::from(late);
            let takes = if late {
                MOMENTS as usize + chance.below(LATEST - MOMENTS as usize)
            } else {
                1 + chance.below(MOMENTS as usize / 2)
            };
            let way = ((self.moment + takes as u64) % self.ways.len() as u64) as usize;
            let (kind, bytes) =
                (if matches!(kind, Kind::Digest) { Kind::Digest } else { Kind::Delta }, sent.bytes.clone());
            self.ways[way].push(Datagram {
                from: from as u32,
                to: to as u32,
                kind,
                began,
                copy: copy * 2 + again,
                bytes,
            });
        }
    }

    fn arrive(&mut self, datagram: Datagram) {
        let Datagram { from, to, kind, began, copy, bytes } = datagram;
        let (hub, from) = (to as usize, from as usize);
        if !self.is_on(hub) {
            return;
        }
        let own = self.own(hub);
        match kind {
            Kind::Digest => {
                self.hubs[hub].offer(&bytes, own);
                self.hubs[hub].tell(Plan::row(hub, from), &bytes);
                let mut chance =
                    Chance::of(self.plan.seed, For::Ties, (began.0 as usize) << 8 | usize::from(copy), began.1.into());
                let ties: [u64; NODES] = std::array::from_fn(|_| chance.below(NODES) as u64);
                S::set_ties(&ties);
                let start = Instant::now();
                let delta = self.hubs[hub].compute(&bytes, self.plan.mtu, &ties, &mut self.datagram[..]);
                self.spent.compute += elapsed(start);
                if let Some(delta) = delta {
                    self.spent.compute = self.spent.compute.saturating_sub(delta.extra);
                    self.send(hub, from, Kind::Delta, began, copy, delta);
                }
                // The other way: who was asked asks back. Who began answers, and asks no more.
                if self.plan.both && began.0 as usize != hub {
                    self.ask(hub, from, began, copy);
                }
            }
            Kind::Delta => {
                let clock = self.clock(hub);
                let start = Instant::now();
                let taken = self.hubs[hub].apply(&bytes, clock, own);
                self.spent.apply += elapsed(start);
                self.counts.resets += taken.resets;
                self.counts.fenced += taken.fenced;
                self.stale[hub] |= taken.changed;
                if taken.own_taken {
                    self.broken(OWNER, 1);
                    self.owner_changed(hub);
                }
            }
        }
    }

    // ---- what is seen

    fn broken(&mut self, claim: usize, times: u64) {
        self.breaches[claim] += times;
        if times > 0 && self.first[claim].is_none() {
            self.first[claim] = Some(self.tick);
        }
    }

    /// Every node of every hub, switched off or not. One that did not change, nor its owner's, is as it was seen last; in each sixteenth tick all are looked at anew,
    /// and must be as they were seen.
    fn look(&mut self, datagrams: u64) -> Sample {
        let all = self.tick % 16 == 15;
        let mut sample = Sample { datagrams, ..Sample::default() };
        let mut broken = Breaches::default();
        let owners: Vec<Cow<[u8]>> = self.hubs[..NODES].iter().map(S::table).collect();
        for hub in 0..self.plan.hubs {
            if self.stale[hub] != 0 || all {
                let table = self.hubs[hub].table();
                for place in 0..NODES {
                    let stale = self.stale[hub] & 1 << place != 0;
                    if !stale && !all {
                        continue;
                    }
                    let (own, owner) = (view::node(&table, place), view::node(&owners[place], place));
                    let (fell, highest) = (&mut self.counts.fell, &mut self.highest[hub][place * self.plan.records..]);
                    let seen = claims::look(place, own, owner, &self.history, |key, version| {
                        *fell += u64::from(version < highest[key]);
                        highest[key] = version;
                    });
                    assert!(
                        stale || (seen == self.seen[hub][place] && own.pair() == self.pairs[hub][place]),
                        "a node that did not change is another"
                    );
                    broken[FALL] += u64::from(self.pairs[hub][place] > own.pair());
                    self.pairs[hub][place] = own.pair();
                    self.seen[hub][place] = seen;
                    self.counts.looked += 1;
                }
                self.stale[hub] = 0;
            }
            let seen = &self.seen[hub];
            for (claim, times) in broken.iter_mut().enumerate() {
                *times += seen.iter().map(|seen| u64::from(seen.breaches[claim])).sum::<u64>();
            }
            if self.is_on(hub) {
                sample.on += 1;
                sample.agree += usize::from(seen.iter().all(|seen| seen.agrees));
                sample.late += usize::from(seen.iter().any(|seen| seen.late > 0));
                sample.back += usize::from(seen.iter().any(|seen| seen.back > 0));
                sample.readings += seen.iter().map(|seen| u64::from(seen.back)).sum::<u64>();
            }
        }
        drop(owners);
        for (claim, times) in broken.into_iter().enumerate() {
            self.broken(claim, times);
        }
        sample
    }

    /// What the plan's wrong hub does, in each fifth tick, at a follower.
    fn harm(&mut self) {
        let Some(wrong @ (Wrong::Version | Wrong::Value | Wrong::Record)) = self.plan.wrong else { return };
        if self.tick % 5 != 4 {
            return;
        }
        let mut chance = self.chance(For::Wrong, 0);
        let hub = NODES + chance.below(self.plan.hubs - NODES);
        let place = chance.below(NODES);
        let mut table = self.hubs[hub].table().into_owned();
        let len = view::node(&table, place).len();
        if len == 0 {
            return;
        }
        let at = view::record_at(place, chance.below(len));
        match wrong {
            Wrong::Version => table[at + view::VERSION_AT] ^= 1,
            Wrong::Value => table[at + view::VALUE_AT] ^= 1,
            _ => {
                let end = view::record_at(place, view::RECORDS_MOST);
                let width = view::record_at(place, 1) - view::record_at(place, 0);
                table.copy_within(at + width..end, at);
                table[end - width..end].fill(0);
                table[view::count_at(place)] -= 1;
            }
        }
        if let Some(other) = S::of(&table) {
            self.hubs[hub] = other;
            self.stale[hub] = ALL;
        }
    }
}

/// Since the start of a call. No call takes half a millisecond, unless another program had the processor: that is left out.
fn elapsed(start: Instant) -> u64 {
    let nanoseconds = start.elapsed().as_nanos() as u64;
    if nanoseconds < 500_000 { nanoseconds } else { 0 }
}

/// What removal changes: the pairs, and how many records there are.
fn removable<S: Side>(hub: &S) -> [(Pair, usize); NODES] {
    let table = hub.table();
    std::array::from_fn(|place| {
        let node = view::node(&table, place);
        (node.pair(), node.len())
    })
}

/// Whom each hub hears; nobody in the list means anyone.
fn peers(plan: &Plan) -> Vec<Vec<u32>> {
    let hubs = plan.hubs;
    let mut peers = vec![Vec::new(); hubs];
    let mut link = |one: usize, other: usize| {
        if one != other && !peers[one].contains(&(other as u32)) {
            peers[one].push(other as u32);
            peers[other].push(one as u32);
        }
    };
    match plan.peers {
        Peers::Any => {}
        Peers::Row => (1..hubs).for_each(|hub| link(hub - 1, hub)),
        Peers::Some(count) => {
            for hub in 0..hubs {
                let mut chance = Chance::of(plan.seed, For::Peers, hub, 0);
                for _ in 0..count {
                    link(hub, (hub + 1 + chance.below(hubs - 1)) % hubs);
                }
            }
        }
    }
    peers
}
