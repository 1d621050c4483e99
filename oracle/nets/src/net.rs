//! A net of hubs, what happens in it, and what is claimed of it.

use std::collections::BTreeMap;

use script::grid::PRESENT;
use script::table::{self, AREA_BYTES, BUILDING, FENCED, FREE, GUARDED, METER, METERING, PLAIN, SHARED, owns};

use crate::bytes::{self, Pair, Part};
use crate::port;
use crate::random::Random;

/// Which hubs there are, and what may happen.
#[derive(Clone, Copy, PartialEq, Eq, Debug)]
pub enum Kind {
    Fenced,
    Guarded,
    /// Fenced and guarded hubs side by side.
    Both,
    /// The same, but for the last hub. It is plain, and hears one other alone and at once, which is neither restored nor wiped.
    Leaf,
    /// All plain.
    Plain,
    /// As Leaf, but the plain hub hears everyone.
    Relay,
    /// Guarded; an owner may be restored with writes lost.
    Lost,
    /// Fenced and guarded hubs, each with one disk. They crash, and lose the disk too; a delta leaves only when all that its hub gave is on its disk, and an owner
    /// that forgot writes only when it has caught up with what it let out.
    Losing,
    /// Guarded; an exchange's digest, delta and applying are steps of their own, and cross those of others; of two hubs one exchange each way at a time.
    Overlapping,
    /// As Losing, but deltas leave at once.
    Unstored,
    /// As Losing, but an owner that forgot writes at once.
    Hasty,
    /// Four guarded hubs and two nodes of hub 0: see `locks`.
    Narrow,
    /// All plain. Every hub has a grid, which peers tell by digests that they wrote, old ones too; it removes only carefully and while every other hub is present.
    /// Nobody is restored, and no node is removed.
    Careful,
    /// The same in any modes.
    CarefulAny,
    /// As Careful, but a hub that owns no node removes by the clock alone.
    OwnerAlone,
    /// As Careful, but some never tell, and whoever is present is enough.
    Whoever,
    /// As Careful, but a peer that was present may be taken out, and is not waited for then.
    TakenOut,
    /// As Careful, but hubs are restored.
    Restored,
    /// As Careful, but nodes are removed and added again.
    Renewed,
    /// As Careful, but a row may be told by a digest that its peer did not write.
    Forged,
    /// As Losing, and a node may get another owner: a hub that has all that was given, in its table and on its disk. What the old owner saved is thrown away.
    Handed,
    /// As Handed, but the new owner need not have all, and writes at once.
    Lagging,
    /// As Handed, but what the old owner saved stays.
    Copied,
    /// Fenced and guarded hubs, up to five nodes. Each hub excludes from what it sends the nodes that it does not own, and no owner is restored: see `star`.
    Star,
    /// The same, but nobody excludes anything.
    Mingled,
}

pub const SAFE: [Kind; 8] =
    [Kind::Fenced, Kind::Guarded, Kind::Both, Kind::Leaf, Kind::Losing, Kind::Overlapping, Kind::Careful, Kind::CarefulAny];
pub const UNSAFE: [Kind; 11] = [
    Kind::Plain,
    Kind::Relay,
    Kind::Lost,
    Kind::Unstored,
    Kind::Hasty,
    Kind::OwnerAlone,
    Kind::Whoever,
    Kind::TakenOut,
    Kind::Restored,
    Kind::Renewed,
    Kind::Forged,
];

/// What keeps the claims where owners change, and what does not.
pub const HANDED: (Kind, [Kind; 2]) = (Kind::Handed, [Kind::Lagging, Kind::Copied]);

impl Kind {
    fn is_star(self) -> bool {
        matches!(self, Kind::Star | Kind::Mingled)
    }

    /// Every hub has a grid.
    pub fn has_grids(self) -> bool {
        self.is_careful() || matches!(self, Kind::OwnerAlone | Kind::Whoever | Kind::TakenOut | Kind::Restored | Kind::Renewed | Kind::Forged)
    }

    /// A careful net with all its conditions.
    fn is_careful(self) -> bool {
        matches!(self, Kind::Careful | Kind::CarefulAny)
    }
}

/// What an owner gave to a node: how many versions, and the one that each key was given last.
#[derive(Clone, Default)]
struct History {
    versions: u64,
    last: BTreeMap<Vec<u8>, u64>,
}

/// An exchange that is under way: the hub that asks, the one that is asked, the digest, and the delta when it was computed. For each node: whether the hub that is asked
/// had all when the digest was written, and whether the other was reset since.
struct Open {
    hub: usize,
    other: usize,
    digest: Vec<u8>,
    delta: Option<Vec<u8>>,
    from_fed: Vec<bool>,
    reset: Vec<bool>,
}

/// What is looked at: that an answer is Fenced exactly where the mode's rule says so; what is promised of nets.
#[derive(Clone, Copy)]
pub struct Look {
    pub rule: bool,
    pub claims: bool,
}

#[derive(Default)]
pub struct Counts {
    pub nets: u64,
    pub steps: u64,
    pub answers: [u64; 6],
    pub late: u64,
    pub restored: u64,
    pub wiped: u64,
    pub removals: u64,
    pub equal: u64,
    pub behind: u64,
    pub crashed: u64,
    pub undone: u64,
    pub forgot: u64,
    pub recalled: u64,
    pub handed: u64,
    pub pairs: u64,
    pub exchanges: u64,
    pub crossed: u64,
    pub resets_between: u64,
    pub told: u64,
    pub waited: u64,
    pub gone: u64,
    pub meters: u64,
    pub shared: u64,
    pub unformed: u64,
    pub smaller: u64,
    pub others: u64,
    pub refused: u64,
}

const KEYS: [&[u8]; 4] = [b"a", b"total", b"c", b"d"];
/// Where two firms share tables; and where free hubs are beside them.
const FIRMS: [&[u8]; 4] = [b"m/a", b"b/a", b"m/total", b"b/d"];
const NEITHER: [&[u8]; 4] = [b"m/a", b"b/a", b"d", b"b/d"];
const NOBODY: u64 = 0;
const UNFORMED: u64 = 17;
const SMALLER: u64 = 18;
const OTHERS: u64 = 19;
const RESET_CODE: u8 = 2;
const FENCED_CODE: u8 = 5;
const WHOLE: usize = 16_384;
const NARROW: usize = 135;

pub struct Net<'a> {
    random: Random,
    kind: Kind,
    look: Look,
    tables: Vec<Vec<u8>>,
    saved: Vec<Vec<Vec<u8>>>,
    clocks: Vec<u64>,
    /// Its keys, and how many of them are used.
    names: [&'static [u8]; 4],
    keys: usize,
    /// Whether free hubs and hubs of another profile are side by side. Then a delta may be refused, and hubs may stay behind.
    mixed: bool,
    /// The owner of each node. Node number n stands in slot n - 1 of every table.
    owners: Vec<usize>,
    /// What was given to each node and not lost; what of it is on its owner's disk; what of it was let out.
    given: Vec<History>,
    kept: Vec<History>,
    out: Vec<History>,
    disks: Vec<Vec<u8>>,
    open: Vec<Open>,
    /// Everything ever computed.
    deltas: Vec<Vec<u8>>,
    digests: Vec<Vec<u8>>,
    /// Each hub's grid, where another has the row of its number; who never tells it; who is out of it; and the digests that each hub wrote.
    grids: Vec<Vec<u8>>,
    mute: Vec<Vec<bool>>,
    /// Who hears, tells and removes for a while.
    awake: Vec<usize>,
    outs: Vec<Vec<bool>>,
    written: Vec<Vec<Vec<u8>>>,
    counts: &'a mut Counts,
}

type Claim = Result<(), String>;

/// The firm whose key it is.
fn owner_of(key: &[u8]) -> u64 {
    [METERING, BUILDING].into_iter().find(|&firm| owns(firm, key)).unwrap_or(NOBODY)
}

fn ensure(holds: bool, claim: impl Fn() -> String) -> Claim {
    if holds { Ok(()) } else { Err(claim()) }
}

impl<'a> Net<'a> {
    pub fn new(kind: Kind, look: Look, mut random: Random, counts: &'a mut Counts) -> Net<'a> {
        let narrow = kind == Kind::Narrow;
        let small = kind.has_grids() && !random.once_in(4);
        let hubs = if narrow || small { 4 } else { 3 + random.below(3) };
        let nodes = match kind {
            Kind::Narrow => 2,
            Kind::Star | Kind::Mingled => 2 + random.below(4),
            _ => 1 + if small { 0 } else { random.below(2) },
        };
        let keys = 2 + if small { 0 } else { random.below(KEYS.len() - 1) };
        let owners = (0..nodes).map(|_| if narrow { 0 } else { random.below(hubs) }).collect();
        let mut modes: Vec<u8> = (0..hubs)
            .map(|_| match kind {
                Kind::Plain => PLAIN,
                Kind::Fenced => FENCED,
                Kind::Guarded | Kind::Lost | Kind::Overlapping | Kind::Narrow => GUARDED,
                Kind::Both | Kind::Leaf | Kind::Relay => *random.pick(&[FENCED, GUARDED]),
                Kind::Losing | Kind::Unstored | Kind::Hasty => *random.pick(&[FENCED, GUARDED]),
                Kind::Handed | Kind::Lagging | Kind::Copied => *random.pick(&[FENCED, GUARDED]),
                Kind::Star | Kind::Mingled => *random.pick(&[FENCED, GUARDED]),
                Kind::CarefulAny => *random.pick(&[PLAIN, FENCED, GUARDED]),
                Kind::Careful | Kind::OwnerAlone | Kind::Whoever | Kind::TakenOut => PLAIN,
                Kind::Restored | Kind::Renewed | Kind::Forged => PLAIN,
            })
            .collect();
        if matches!(kind, Kind::Leaf | Kind::Relay) {
            modes[hubs - 1] = PLAIN;
        }
        let fresh = |number| table::Node { number, heartbeat: 0, max: 0, last_gc: 0, records: vec![] };
        let fresh: Vec<_> = (1..=nodes as u64).map(fresh).collect();
        counts.nets += 1;
        // Where a kind must be found out, and where grids are told, all hubs are of one profile.
        let profiles: Vec<u8> = match random.below(8) {
            _ if !SAFE.contains(&kind) && kind != Kind::Handed => vec![FREE; hubs],
            0 | 1 => vec![METER; hubs],
            2 if !kind.has_grids() => (0..hubs).map(|_| *random.pick(&[FREE, METER])).collect(),
            3 | 4 => vec![SHARED; hubs],
            5 if !kind.has_grids() => (0..hubs).map(|_| *random.pick(&[FREE, SHARED])).collect(),
            _ => vec![FREE; hubs],
        };
        counts.meters += u64::from(profiles.contains(&METER));
        counts.shared += u64::from(profiles.contains(&SHARED));
        let mixed = profiles.iter().any(|&profile| profile != profiles[0]);
        let names = match (profiles.contains(&SHARED), mixed) {
            (false, _) => KEYS,
            (true, false) => FIRMS,
            (true, true) => NEITHER,
        };
        let kinds = modes.iter().zip(&profiles);
        let tables: Vec<Vec<u8>> = kinds.map(|(&mode, &profile)| table::encode_as(&fresh, mode, profile, &[])).collect();
        let grids = tables.iter().map(|table| if kind.has_grids() { port::grid(table) } else { Vec::new() }).collect();
        let mute = (0..hubs).map(|_| (0..hubs).map(|_| kind == Kind::Whoever && random.once_in(2)).collect()).collect();
        Net {
            random,
            kind,
            look,
            disks: tables.clone(),
            tables,
            saved: vec![Vec::new(); hubs],
            clocks: vec![10; hubs],
            names,
            keys,
            mixed,
            owners,
            given: vec![History::default(); nodes],
            kept: vec![History::default(); nodes],
            out: vec![History::default(); nodes],
            open: Vec::new(),
            deltas: Vec::new(),
            digests: Vec::new(),
            grids,
            mute,
            awake: (0..hubs).collect(),
            outs: vec![vec![false; hubs]; hubs],
            written: vec![Vec::new(); hubs],
            counts,
        }
    }

    fn leaf(&self) -> usize {
        self.tables.len() - 1
    }

    fn is_leaf(&self, hub: usize) -> bool {
        self.kind == Kind::Leaf && hub == self.leaf()
    }

    /// Whom the leaf hears: hub 0. It is neither restored nor wiped.
    fn is_steady(&self, hub: usize) -> bool {
        self.kind == Kind::Leaf && hub == 0
    }

    fn pair(&self, hub: usize, place: usize) -> Pair {
        bytes::pair(&self.tables[hub], place)
    }

    fn owner_pair(&self, place: usize) -> Pair {
        self.pair(self.owners[place], place)
    }

    fn loses(&self) -> bool {
        matches!(self.kind, Kind::Losing | Kind::Unstored | Kind::Hasty) || self.hands()
    }

    fn hands(&self) -> bool {
        matches!(self.kind, Kind::Handed | Kind::Lagging | Kind::Copied)
    }

    fn owned(&self, hub: usize) -> Vec<usize> {
        (0..self.owners.len()).filter(|&place| self.owners[place] == hub).collect()
    }

    /// The owner has caught up with what it let out; else it must not write.
    fn may_write(&self, place: usize) -> bool {
        matches!(self.kind, Kind::Hasty | Kind::Lagging) || self.owner_pair(place).max >= self.out[place].versions
    }

    fn gave(&mut self, place: usize, key: &[u8]) {
        let versions = self.owner_pair(place).max;
        self.given[place].versions = versions;
        self.given[place].last.insert(key.to_vec(), versions);
    }

    fn clock(&mut self, hub: usize) -> u64 {
        let clock = &mut self.clocks[hub];
        *clock = (*clock + self.random.below(9) as u64).saturating_sub(self.random.below(4) as u64);
        *clock
    }

    // ---- events

    pub fn step(&mut self) -> Claim {
        self.counts.steps += 1;
        if self.kind.has_grids() {
            return self.watched_step().and_then(|()| self.claims());
        }
        let hub = self.random.below(self.tables.len());
        match self.random.below(24) {
            0..=3 => self.write(),
            4..=5 => self.clear(),
            6..=8 => self.remove(hub),
            9..=15 => self.hear_someone(hub),
            16 => self.compute(),
            17..=19 => self.arrive(hub),
            20 => self.save(hub),
            21 if self.hands() && self.random.once_in(3) => self.hand(hub),
            21 if self.loses() => self.lose(hub),
            21 => self.restore(hub),
            22 if self.random.once_in(2) => self.wipe(hub),
            _ => self.hear_someone(hub),
        }
        .and_then(|()| self.claims())
    }

    /// Where hubs have grids: some sleep for a while. What an owner writes is heard at once by those awake, or by nobody; more is told and removed.
    fn watched_step(&mut self) -> Claim {
        let hubs = self.tables.len();
        if self.random.once_in(4) || self.awake.len() < 2 {
            self.awake = (0..hubs).filter(|_| self.random.once_in(2)).collect();
            return Ok(());
        }
        let hub = *self.random.pick(&self.awake);
        match self.random.below(20) {
            0 | 1 => {
                self.write()?;
                if self.random.once_in(2) { self.all_hear() } else { Ok(()) }
            }
            2..=4 => self.spread(),
            5 | 6 => self.watch(hub),
            7 => {
                self.all_tell(hub);
                self.remove(hub)
            }
            8 if self.random.once_in(2) => self.compute(),
            8 | 9 => self.arrive(hub),
            _ => {
                let other = *self.random.pick(&self.awake);
                let (mtu, excluded) = (self.mtu(), self.excluded());
                if other == hub { Ok(()) } else { self.hear(hub, other, mtu, &excluded) }
            }
        }
    }

    /// Those awake hear an owner.
    fn all_hear(&mut self) -> Claim {
        let owner = *self.random.pick(&self.owners);
        for hub in self.awake.clone() {
            if hub != owner {
                self.hear(hub, owner, WHOLE, &[])?;
            }
        }
        Ok(())
    }

    /// An owner deletes a key; those awake hear it and tell, and one of them removes, mostly the owner. Where the kind lacks a condition, that is missed here.
    fn spread(&mut self) -> Claim {
        let place = self.random.below(self.owners.len());
        let owner = self.owners[place];
        self.lapse_before();
        let key = self.names[self.random.below(self.keys)];
        let (before, clock) = (self.pair(owner, place), self.clock(owner));
        port::delete(&mut self.tables[owner], owner_of(key), place as u64 + 1, key, clock);
        if self.pair(owner, place).max > before.max {
            self.gave(place, key);
        }
        for hub in self.awake.clone() {
            if hub != owner {
                self.hear(hub, owner, WHOLE, &[])?;
            }
        }
        let follower = self.kind == Kind::OwnerAlone || self.random.once_in(3);
        let hub = if follower { *self.random.pick(&self.awake) } else { owner };
        self.all_tell(hub);
        self.lapse_at(hub);
        self.remove(hub)?;
        self.lapse_after()
    }

    fn asleep(&self) -> Vec<usize> {
        (0..self.tables.len()).filter(|hub| !self.awake.contains(hub)).collect()
    }

    /// Hubs are saved.
    fn lapse_before(&mut self) {
        if self.kind == Kind::Restored {
            for hub in 0..self.tables.len() {
                if self.random.once_in(2) {
                    self.saved[hub].truncate(1);
                    self.saved[hub].insert(0, self.tables[hub].clone());
                }
            }
        }
    }

    /// Who sleeps is taken out of a hub's grid, or has its row told by another.
    fn lapse_at(&mut self, hub: usize) {
        for peer in self.asleep() {
            if peer == hub || self.random.once_in(3) {
                continue;
            }
            if self.kind == Kind::TakenOut && self.grids[hub][PRESENT + peer] == 1 {
                assert_eq!(port::take_out(&mut self.grids[hub], peer as u64), 0);
                self.outs[hub][peer] = true;
            }
            if self.kind == Kind::Forged {
                let digest = port::digest(&self.tables[hub], &[]);
                self.tell(hub, peer, &digest);
            }
        }
    }

    /// Hubs are restored, or have a node removed and added again.
    fn lapse_after(&mut self) -> Claim {
        for hub in 0..self.tables.len() {
            if self.kind == Kind::Restored && self.random.once_in(3) {
                self.restore(hub)?;
            }
            let place = self.random.below(self.owners.len());
            if self.kind == Kind::Renewed && self.random.once_in(3) && self.owners[place] != hub {
                assert_eq!(port::renew(&mut self.grids[hub], &mut self.tables[hub], place as u64 + 1), 0);
                self.counts.wiped += 1;
            }
        }
        Ok(())
    }

    /// Those awake tell a hub what they hold.
    fn all_tell(&mut self, hub: usize) {
        for peer in self.awake.clone() {
            if peer != hub {
                self.tell_now(hub, peer);
            }
        }
    }

    fn write(&mut self) -> Claim {
        let place = self.random.below(self.owners.len());
        if !self.may_write(place) {
            return Ok(());
        }
        let hub = self.owners[place];
        let before = self.pair(hub, place);
        let key = self.names[self.random.below(self.keys)];
        let long = if bytes::is_meter(&self.tables[hub]) && !self.random.once_in(6) { 10 } else { 40 };
        let value = [b"12345678"[self.random.below(8)]; 40];
        let value = if self.random.once_in(4) { &value[..long] } else { &value[..1] };
        let (number, clock) = (place as u64 + 1, self.clock(hub));
        // Where hubs have grids, `spread` deletes.
        let wanted = match if self.kind.has_grids() { self.random.below(4) } else { self.random.below(6) } {
            0..=2 => Some(table::SET),
            3 => Some(table::TTL),
            _ => None,
        };
        // In a shared table now and then who may not.
        let odd = bytes::profile(&self.tables[hub]) == SHARED && self.random.once_in(8);
        let party = if odd { *self.random.pick(&[NOBODY, METERING, BUILDING]) } else { owner_of(key) };
        match wanted {
            Some(status) => {
                let foreseen = self.judged(hub, place, party, key, value);
                let told = port::write(&mut self.tables[hub], party, number, key, value, status.into(), clock);
                self.counts.unformed += u64::from(told == UNFORMED);
                self.counts.smaller += u64::from(told == SMALLER);
                self.counts.others += u64::from(told == OTHERS);
                ensure(!self.look.rule || told == foreseen, || format!("a write is answered {told} and not {foreseen}"))?;
            }
            None => drop(port::delete(&mut self.tables[hub], party, number, key, clock)),
        }
        let max = self.pair(hub, place).max;
        if max > before.max {
            self.gave(place, key);
        }
        ensure(max <= before.max + 1, || "a write gives one version".into())
    }

    /// What the profile says to a party's write of digits: 17, 18, 19, or nothing.
    fn judged(&self, hub: usize, place: usize, party: u64, key: &[u8], value: &[u8]) -> u64 {
        let table = &self.tables[hub];
        if bytes::profile(table) == SHARED {
            return if owns(party, key) { 0 } else { OTHERS };
        }
        let number = |digits: &[u8]| digits.iter().fold(0u64, |number, digit| number * 10 + u64::from(digit - b'0'));
        let shown = bytes::records(table, place).find(|record| record.key == key && !record.hidden);
        match shown {
            _ if !bytes::is_meter(table) => 0,
            _ if value.len() > 10 => UNFORMED,
            Some(record) if key == b"total" && number(value) < number(record.value) => SMALLER,
            _ => 0,
        }
    }

    /// An owner deletes a key, and removes all that is scheduled: where that key was written last, its last_gc is its max.
    fn clear(&mut self) -> Claim {
        let place = self.random.below(self.owners.len());
        if !self.may_write(place) {
            return Ok(());
        }
        let hub = self.owners[place];
        let key = self.names[self.random.below(self.keys)];
        let before = self.pairs(hub);
        let clock = self.clock(hub);
        if port::delete(&mut self.tables[hub], owner_of(key), place as u64 + 1, key, clock) == 0
            && self.pair(hub, place).max > before[place].max
        {
            self.gave(place, key);
        }
        self.remove_at(hub, clock, 0);
        self.no_fall(hub, &before)
    }

    fn remove(&mut self, hub: usize) -> Claim {
        let before = self.pairs(hub);
        let (clock, grace) = (self.clock(hub), if self.kind.has_grids() { 0 } else { *self.random.pick(&[0, 0, 4, 12]) });
        self.remove_at(hub, clock, grace);
        self.no_fall(hub, &before)
    }

    fn remove_at(&mut self, hub: usize, clock: u64, grace: u64) {
        if !self.kind.has_grids() || self.kind == Kind::OwnerAlone && self.owned(hub).is_empty() {
            port::remove(&mut self.tables[hub], clock, grace);
            self.counts.removals += 1;
            return;
        }
        if !self.may_remove(hub) {
            self.counts.waited += 1;
            return;
        }
        let held = |table: &[u8]| (0..self.owners.len()).map(|place| bytes::records(table, place).count()).sum::<usize>();
        let before = held(&self.tables[hub]);
        if port::remove_carefully(&self.grids[hub], &mut self.tables[hub], clock, grace) == 0 {
            self.counts.removals += 1;
            self.counts.gone += (before - held(&self.tables[hub])) as u64;
        }
    }

    // ---- who has seen what

    /// Every other hub is present in this one's grid, or need not be.
    fn may_remove(&self, hub: usize) -> bool {
        let present = |peer: usize| self.grids[hub][PRESENT + peer] == 1;
        (0..self.tables.len()).all(|peer| peer == hub || present(peer) || self.kind == Kind::Whoever || self.outs[hub][peer])
    }

    /// A digest is told to a hub's grid as that of a peer.
    fn tell(&mut self, hub: usize, peer: usize, digest: &[u8]) {
        if self.mute[hub][peer] {
            return;
        }
        assert_eq!(port::tell(&mut self.grids[hub], peer as u64, digest), 0);
        self.outs[hub][peer] = false;
        self.counts.told += 1;
    }

    /// A peer tells what it holds.
    fn tell_now(&mut self, hub: usize, peer: usize) {
        let digest = port::digest(&self.tables[peer], &[]);
        self.written[peer].push(digest.clone());
        self.tell(hub, peer, &digest);
    }

    /// A peer tells a hub a digest that it wrote, now or before.
    fn watch(&mut self, hub: usize) -> Claim {
        let hubs = self.tables.len();
        let peer = (hub + 1 + self.random.below(hubs - 1)) % hubs;
        if !self.written[peer].is_empty() && self.random.once_in(4) {
            let digest = self.random.pick(&self.written[peer]).clone();
            self.tell(hub, peer, &digest);
        } else if self.awake.contains(&peer) || self.random.once_in(8) {
            self.tell_now(hub, peer);
        }
        Ok(())
    }

    fn mtu(&mut self) -> usize {
        let whole = if self.kind.has_grids() { !self.random.once_in(6) } else { self.random.once_in(2) };
        if whole { WHOLE } else { 100 + self.random.below(80) }
    }

    /// Seldom a node is left out.
    fn excluded(&mut self) -> Vec<u64> {
        if self.random.once_in(12) { vec![1 + self.random.below(self.owners.len()) as u64] } else { vec![] }
    }

    /// A delta of one hub for a digest. It is kept. What the hub gave is stored first, and let out by it.
    fn computed(&mut self, hub: usize, digest: &[u8], mtu: usize, excluded: &[u64]) -> Vec<u8> {
        if self.loses() {
            if self.kind != Kind::Unstored && self.owned(hub).iter().any(|&place| !self.is_stored(hub, place)) {
                self.store(hub);
            }
            for place in self.owned(hub) {
                self.out[place] = self.given[place].clone();
            }
        }
        let ties: Vec<u64> = (0..self.owners.len()).map(|_| self.random.below(3) as u64).collect();
        let mut excluded = excluded.to_vec();
        if self.kind == Kind::Star {
            excluded.extend((0..self.owners.len()).filter(|&place| self.owners[place] != hub).map(|place| place as u64 + 1));
        }
        let delta = port::compute(&self.tables[hub], digest, mtu, &excluded, &ties);
        self.deltas.push(delta.clone());
        delta
    }

    /// Another hub's digest, an old one, or one that is forged.
    fn digest(&mut self) -> Vec<u8> {
        if !self.digests.is_empty() && self.random.once_in(2) {
            return self.random.pick(&self.digests).clone();
        }
        let nodes = self.owners.len();
        let mut bytes = (nodes as u16).to_le_bytes().to_vec();
        for place in 0..nodes {
            let most = self.owner_pair(place).max as usize + 2;
            let (last_gc, max) = (self.random.below(most) as u64, self.random.below(most) as u64);
            for number in [place as u64 + 1, 0, last_gc, max] {
                bytes.extend(number.to_le_bytes());
            }
        }
        bytes
    }

    fn compute(&mut self) -> Claim {
        let hub = self.random.below(self.tables.len());
        let (digest, mtu, excluded) = (self.digest(), self.mtu(), self.excluded());
        self.computed(hub, &digest, mtu, &excluded);
        Ok(())
    }

    fn hear_someone(&mut self, hub: usize) -> Claim {
        if self.kind == Kind::Overlapping && !self.random.once_in(4) {
            return self.cross(hub);
        }
        let hubs = self.tables.len();
        let other = if self.is_leaf(hub) { 0 } else { (hub + 1 + self.random.below(hubs - 1)) % hubs };
        let (mtu, excluded) = (self.mtu(), self.excluded());
        self.hear(hub, other, mtu, &excluded)
    }

    /// One prompt exchange.
    fn hear(&mut self, hub: usize, other: usize, mtu: usize, excluded: &[u64]) -> Claim {
        let digest = port::digest(&self.tables[hub], &[]);
        self.digests.push(digest.clone());
        if self.kind.has_grids() {
            self.written[hub].push(digest.clone());
            self.tell(other, hub, &digest);
        }
        let delta = self.computed(other, &digest, mtu, excluded);
        self.apply(hub, &delta)
    }

    /// Any delta ever computed, at any hub that is not a plain leaf.
    fn arrive(&mut self, hub: usize) -> Claim {
        if self.deltas.is_empty() || self.is_leaf(hub) {
            return Ok(());
        }
        self.counts.late += 1;
        let delta = self.random.pick(&self.deltas).clone();
        self.apply(hub, &delta)
    }

    fn save(&mut self, hub: usize) -> Claim {
        if self.saved[hub].len() < 4 {
            let table = self.tables[hub].clone();
            self.saved[hub].push(table);
        }
        Ok(())
    }

    /// An own table of before, if no write of an own node is lost.
    fn restore(&mut self, hub: usize) -> Claim {
        let middle = self.kind.is_star() && !self.owned(hub).is_empty();
        if self.saved[hub].is_empty() || self.is_steady(hub) || self.is_leaf(hub) || middle {
            return Ok(());
        }
        let table = self.random.pick(&self.saved[hub]).clone();
        let same = |&place: &usize| bytes::pair(&table, place).max == self.pair(hub, place).max;
        let lost = (0..self.owners.len()).filter(|&place| self.owners[place] == hub).any(|place| !same(&place));
        if !lost || self.kind == Kind::Lost {
            self.tables[hub] = table;
            self.counts.restored += 1;
        }
        Ok(())
    }

    fn is_stored(&self, hub: usize, place: usize) -> bool {
        bytes::pair(&self.disks[hub], place).max == self.pair(hub, place).max
    }

    fn store(&mut self, hub: usize) {
        self.disks[hub] = self.tables[hub].clone();
        for place in self.owned(hub) {
            self.kept[place] = self.given[place].clone();
        }
    }

    /// A hub stores its table, crashes, forgets all, or has a followed node of a table that was saved.
    fn lose(&mut self, hub: usize) -> Claim {
        match self.random.below(8) {
            0..=2 => self.store(hub),
            3..=5 => {
                self.counts.crashed += 1;
                self.tables[hub] = self.disks[hub].clone();
                for place in self.owned(hub) {
                    self.counts.undone += self.given[place].versions - self.kept[place].versions;
                    self.given[place] = self.kept[place].clone();
                }
            }
            6 => {
                self.counts.forgot += 1;
                for place in 0..self.owners.len() {
                    bytes::freshen(&mut self.tables[hub], place);
                }
                self.disks[hub] = self.tables[hub].clone();
                for place in self.owned(hub) {
                    self.given[place] = self.out[place].clone();
                    self.kept[place] = self.out[place].clone();
                }
            }
            _ => self.recall(hub),
        }
        Ok(())
    }

    /// A node gets another owner.
    fn hand(&mut self, hub: usize) -> Claim {
        let place = self.random.below(self.owners.len());
        if self.random.once_in(2) {
            self.store(hub);
        }
        let (old, all) = (self.owners[place], self.given[place].versions);
        let has_all = [&self.tables[hub], &self.disks[hub]].iter().all(|table| bytes::pair(table, place).max >= all);
        if old == hub || !has_all && self.kind != Kind::Lagging {
            return Ok(());
        }
        self.counts.handed += 1;
        self.owners[place] = hub;
        if self.kind != Kind::Copied {
            self.saved[old].clear();
        }
        Ok(())
    }

    fn recall(&mut self, hub: usize) {
        let (saver, place) = (self.random.below(self.tables.len()), self.random.below(self.owners.len()));
        if self.saved[saver].is_empty() || [hub, saver].contains(&self.owners[place]) {
            return;
        }
        self.counts.recalled += 1;
        let table = self.random.pick(&self.saved[saver]).clone();
        if !bytes::records(&table, place).all(|record| record.fits(&self.tables[hub])) {
            return;
        }
        bytes::copy_node(&table, &mut self.tables[hub], place);
    }

    /// A node is removed and added again, not by its owner.
    fn wipe(&mut self, hub: usize) -> Claim {
        let place = self.random.below(self.owners.len());
        if self.owners[place] != hub && !self.is_steady(hub) {
            bytes::freshen(&mut self.tables[hub], place);
            self.counts.wiped += 1;
        }
        Ok(())
    }

    // ---- claims

    fn apply(&mut self, hub: usize, delta: &[u8]) -> Claim {
        let before = self.pairs(hub);
        let clock = self.clock(hub);
        let answers = port::apply(&mut self.tables[hub], delta, clock);
        let parts = bytes::parts(delta);
        let odd = !parts.iter().all(|part| part.fits(&self.tables[hub]));
        let unlike = if bytes::is_meter(&self.tables[hub]) { UNFORMED } else { OTHERS };
        ensure(self.mixed || !odd, || "between tables of one profile every delta is in form".into())?;
        let answers = match answers {
            Ok(answers) => answers,
            Err(number) => {
                self.counts.refused += 1;
                ensure(odd && number == unlike, || format!("a computed delta is refused with {number}"))?;
                return self.no_fall(hub, &before);
            }
        };
        ensure(!odd && answers.len() == parts.len(), || "a computed delta is taken".into())?;
        for (part, &answer) in parts.iter().zip(&answers) {
            self.counts.answers[usize::from(answer)] += 1;
            if answer == RESET_CODE {
                for exchange in self.open.iter_mut().filter(|exchange| exchange.hub == hub) {
                    exchange.reset[part.number as usize - 1] = true;
                }
            }
            self.answered(hub, part, &before, answer)?;
        }
        self.no_fall(hub, &before)
    }

    /// The mode's rule.
    fn fences(&self, hub: usize, part: &Part, own: Pair) -> bool {
        let older = own.last_gc > own.max && part.last_gc < own.last_gc && part.from <= own.max;
        match self.tables[hub][AREA_BYTES] {
            PLAIN => false,
            FENCED => older,
            _ => older && part.max < own.last_gc,
        }
    }

    fn answered(&self, hub: usize, part: &Part, before: &[Pair], answer: u8) -> Claim {
        let place = part.number as usize - 1;
        let fenced = self.fences(hub, part, before[place]);
        ensure(!self.look.rule || fenced == (answer == FENCED_CODE), || {
            "an answer is Fenced where the rule says so".into()
        })?;
        ensure(!self.look.claims || !self.kind.is_careful() || answer != RESET_CODE, || "no hub of a careful net is reset".into())?;
        let own = self.owners[place] == hub && before[place].max >= self.given[place].versions;
        ensure(!self.look.claims || !own || answer == 0, || "an owner rejects".into())
    }

    fn pairs(&self, hub: usize) -> Vec<Pair> {
        (0..self.owners.len()).map(|place| self.pair(hub, place)).collect()
    }

    fn no_fall(&self, hub: usize, before: &[Pair]) -> Claim {
        let stays = before.iter().zip(self.pairs(hub)).all(|(&before, after)| before <= after);
        ensure(!self.look.claims || stays, || "no pair falls".into())
    }

    fn claims(&mut self) -> Claim {
        if !self.look.claims {
            return Ok(());
        }
        for place in 0..self.owners.len() {
            let in_form = self.tables.iter().all(|table| bytes::records(table, place).all(|record| record.fits(table)));
            ensure(in_form, || "a meter table has readings alone, and a shared one the firms' records".into())?;
            if self.kind.is_careful() {
                let pairs: Vec<Pair> = (0..self.tables.len()).map(|hub| self.pair(hub, place)).collect();
                let least = pairs.iter().map(|pair| pair.max).min().unwrap_or(0);
                ensure(pairs.iter().all(|pair| pair.last_gc <= least), || "every last_gc is within every hub's max".into())?;
            }
            let owner = self.owners[place];
            let most = if self.loses() { self.given[place].versions } else { self.owner_pair(place).max };
            // An owner that forgot may be behind: then any hub that has all stands for it.
            let level = |hub: &usize| self.pair(*hub, place).max == most;
            let one = Some(owner).filter(level).or_else(|| (0..self.tables.len()).find(level)).unwrap_or(owner);
            for hub in (0..self.tables.len()).filter(|&hub| hub != one) {
                let max = self.pair(hub, place).max;
                ensure(max <= most, || "max never passes the owner's".into())?;
                if max == most && max > 0 {
                    self.counts.equal += 1;
                    self.same(hub, one, place)?;
                }
            }
        }
        Ok(())
    }

    /// Where max is the owner's: the same Set records, and any other record has the last version that its key was given.
    fn same(&self, hub: usize, one: usize, place: usize) -> Claim {
        let set = |hub: usize| bytes::records(&self.tables[hub], place).filter(|record| record.set);
        ensure(set(hub).eq(set(one)), || "where max is equal, both hold the same Set records".into())?;
        let last = |record: bytes::Record| self.given[place].last.get(record.key) == Some(&record.version);
        let others = bytes::records(&self.tables[hub], place).filter(|record| !record.set).all(last);
        ensure(others, || "any other record has the last version that its key was given".into())
    }

    // ---- exchanges that cross

    /// A digest is written, or an exchange that is under way goes on: its delta is computed, or applied.
    fn cross(&mut self, hub: usize) -> Claim {
        let hubs = self.tables.len();
        if self.open.is_empty() || self.open.len() < 6 && self.random.once_in(3) {
            let other = (hub + 1 + self.random.below(hubs - 1)) % hubs;
            self.ask(hub, other, vec![false; self.owners.len()]);
            return Ok(());
        }
        let (at, mtu, excluded) = (self.random.below(self.open.len()), self.mtu(), self.excluded());
        self.go_on(at, mtu, &excluded).map(|_| ())
    }

    /// A digest is written, unless an exchange with that hub is under way.
    fn ask(&mut self, hub: usize, other: usize, from_fed: Vec<bool>) {
        if self.open.iter().any(|exchange| (exchange.hub, exchange.other) == (hub, other)) {
            return;
        }
        let digest = port::digest(&self.tables[hub], &[]);
        self.digests.push(digest.clone());
        self.open.push(Open { hub, other, digest, delta: None, from_fed, reset: vec![false; self.owners.len()] });
    }

    /// The exchange, if it is over.
    fn go_on(&mut self, at: usize, mtu: usize, excluded: &[u64]) -> Result<Option<Open>, String> {
        let Some(delta) = self.open[at].delta.clone() else {
            let (other, digest) = (self.open[at].other, self.open[at].digest.clone());
            self.open[at].delta = Some(self.computed(other, &digest, mtu, excluded));
            return Ok(None);
        };
        let exchange = self.open.swap_remove(at);
        self.apply(exchange.hub, &delta)?;
        self.counts.crossed += 1;
        Ok(Some(exchange))
    }

    /// Whole deltas along a tree of hubs, nobody writes; exchanges cross, records are removed and old deltas come. A hub has all when it has had two exchanges with one that had all at their
    /// digest, in which it was not reset between its digest and the applying.
    fn end_crossing(&mut self) -> Claim {
        self.open.clear();
        let (hubs, nodes) = (self.tables.len(), self.owners.len());
        let edges: Vec<(usize, usize)> = (1..hubs).map(|hub| (hub, self.random.below(hub))).collect();
        let mut fed: Vec<Vec<bool>> =
            self.owners.iter().map(|&owner| (0..hubs).map(|hub| hub == owner).collect()).collect();
        let mut good = vec![vec![vec![0; hubs]; hubs]; nodes];
        for _ in 0..60 * hubs {
            match self.random.below(12) {
                0 => {
                    let hub = self.random.below(hubs);
                    self.remove(hub)?;
                }
                1 => {
                    let hub = self.random.below(hubs);
                    self.arrive(hub)?;
                }
                _ if self.open.is_empty() || self.open.len() < 6 && self.random.once_in(3) => {
                    let (one, two) = *self.random.pick(&edges);
                    let (hub, other) = if self.random.once_in(2) { (one, two) } else { (two, one) };
                    self.ask(hub, other, (0..nodes).map(|place| fed[place][other]).collect());
                }
                _ => {
                    let at = self.random.below(self.open.len());
                    if let Some(exchange) = self.go_on(at, WHOLE, &[])? {
                        for place in 0..nodes {
                            self.counts.resets_between += u64::from(exchange.reset[place]);
                            if exchange.from_fed[place] && !exchange.reset[place] {
                                good[place][exchange.hub][exchange.other] += 1;
                                fed[place][exchange.hub] |= good[place][exchange.hub][exchange.other] >= 2;
                            }
                        }
                    }
                }
            }
            self.claims()?;
            for (place, fed) in fed.iter().enumerate() {
                let all = (0..hubs).all(|hub| !fed[hub] || self.pair(hub, place).max == self.given[place].versions);
                ensure(!self.look.claims || self.mixed || all, || {
                    "two exchanges in which it was not reset between bring a hub up".into()
                })?;
            }
        }
        self.counts.behind += u64::from(!self.level());
        Ok(())
    }

    // ---- how it ends

    /// Whole deltas along a tree of hubs, nobody writes. A guarded net is closed after two rounds for each step of the way, a careful one after one; of others it is
    /// counted whether a round that changes nothing leaves a hub behind.
    pub fn end(&mut self) -> Claim {
        if self.kind == Kind::Overlapping {
            return self.end_crossing();
        }
        if !matches!(self.kind, Kind::Fenced | Kind::Guarded | Kind::Both) && !self.kind.is_careful() {
            return Ok(());
        }
        let hubs = self.tables.len();
        let edges: Vec<(usize, usize)> = (1..hubs).map(|hub| (hub, self.random.below(hub))).collect();
        for round in 1.. {
            let before = self.tables.clone();
            for &(one, other) in &edges {
                self.hear(one, other, WHOLE, &[])?;
                self.hear(other, one, WHOLE, &[])?;
            }
            self.claims()?;
            let quiet = self.tables == before;
            if self.kind == Kind::Guarded && (quiet || round == 2 * (hubs - 1)) {
                ensure(!self.look.claims || self.mixed || self.level(), || "a guarded net agrees after two rounds a step".into())?;
            }
            if self.kind.is_careful() && (quiet || round == hubs - 1) {
                ensure(!self.look.claims || self.level(), || "a careful net agrees after one round a step".into())?;
            }
            if quiet || round == 40 {
                break;
            }
        }
        self.counts.behind += u64::from(!self.level());
        Ok(())
    }

    /// Hub 0 writes both nodes. Hub 1 hears the first, removes what has a TTL, and hears the rest; hub 2 the second. Hub 3 hears the first from hub 1 and the second from hub 2. Then all hear each other
    /// under an MTU of 135 until a round changes nothing. None: the net agrees. Else whether it does when each hub tells a neighbour that sent it a node that was Fenced, in the next digest and
    /// no other, the largest number as that node's max.
    pub fn locks(&mut self) -> Result<Option<bool>, String> {
        let hubs = self.tables.len();
        for place in 0..2 {
            for _ in 0..2 + self.random.below(4) {
                let (key, value) = (KEYS[self.random.below(KEYS.len())], [b'1'; 64]);
                let status = if self.random.once_in(3) { table::TTL } else { table::SET };
                let length = 30 + self.random.below(35);
                port::write(&mut self.tables[0], NOBODY, place as u64 + 1, key, &value[..length], status.into(), 10);
                self.gave(place, key);
            }
        }
        for (hub, other) in [(1, 2), (2, 1)] {
            self.hear(hub, 0, WHOLE, &[other])?;
            port::remove(&mut self.tables[hub], 1_000_000, 0);
            self.hear(hub, 0, WHOLE, &[])?;
            self.hear(3, hub, NARROW, &[other])?;
        }
        let pairs: Vec<(usize, usize)> = (0..hubs)
            .flat_map(|hub| (0..hubs).map(move |other| (hub, other)))
            .filter(|(hub, other)| hub != other)
            .collect();
        let mut before = Vec::new();
        while before != self.tables {
            before = self.tables.clone();
            for &(hub, other) in &pairs {
                self.hear(hub, other, NARROW, &[])?;
            }
        }
        if self.level() {
            return Ok(None);
        }
        let mut fenced: BTreeMap<(usize, usize), Vec<u64>> = BTreeMap::new();
        for _ in 0..200 {
            for &(hub, other) in &pairs {
                let mut digest = port::digest(&self.tables[hub], &[]);
                for number in fenced.remove(&(hub, other)).unwrap_or_default() {
                    bytes::tell_most(&mut digest, number as usize - 1);
                }
                let delta = self.computed(other, &digest, NARROW, &[]);
                let before = self.pairs(hub);
                self.apply(hub, &delta)?;
                let parts = bytes::parts(&delta);
                let stopped = parts.iter().filter(|part| self.fences(hub, part, before[part.number as usize - 1]));
                fenced.insert((hub, other), stopped.map(|part| part.number).collect());
            }
            self.claims()?;
        }
        Ok(Some(self.level()))
    }

    /// Writes have ceased, and removals of owners. Each hub hears each owner under an MTU of 135 to 179, digest, delta and applying at three moments, amid those of others, late deltas and removals of hubs that own
    /// nothing, as often as that owner holds records and nodes of its own. Then it is at the owner's max of each of them.
    pub fn star(&mut self) -> Claim {
        let hubs = self.tables.len();
        let holds = |hub: usize| -> usize {
            self.owned(hub).iter().map(|&place| 1 + bytes::records(&self.tables[hub], place).count()).sum()
        };
        let most: Vec<usize> = (0..hubs).map(holds).collect();
        let pairs = (0..hubs).flat_map(|hub| (0..hubs).map(move |owner| (hub, owner)));
        let pairs: Vec<(usize, usize)> = pairs.filter(|&(hub, owner)| hub != owner && most[owner] > 0).collect();
        let level = |net: &Net, hub: usize, owner: usize| {
            net.owned(owner).iter().all(|&place| net.pair(hub, place).max == net.owner_pair(place).max)
        };
        self.counts.pairs += pairs.len() as u64;
        self.counts.behind += pairs.iter().filter(|&&(hub, owner)| !level(self, hub, owner)).count() as u64;
        let (mut asked, mut answered, mut count) = (vec![None; pairs.len()], vec![None; pairs.len()], vec![0; pairs.len()]);
        loop {
            let open: Vec<usize> = (0..pairs.len()).filter(|&at| count[at] < most[pairs[at].1]).collect();
            if open.is_empty() {
                return Ok(());
            }
            let at = *self.random.pick(&open);
            let ((hub, owner), anyone) = (pairs[at], self.random.below(hubs));
            match self.random.below(8) {
                0 => self.arrive(anyone)?,
                1 if most[anyone] == 0 => self.remove(anyone)?,
                _ => match (asked[at].take(), answered[at].take()) {
                    (_, Some(delta)) => {
                        let delta: Vec<u8> = delta;
                        self.apply(hub, &delta)?;
                        self.counts.exchanges += 1;
                        count[at] += 1;
                        let there = count[at] < most[owner] || level(self, hub, owner);
                        ensure(there, || format!("hub {hub} is not at hub {owner}'s max after {} whole exchanges", most[owner]))?;
                    }
                    (Some(digest), None) => {
                        let digest: Vec<u8> = digest;
                        let mtu = NARROW + self.random.below(45);
                        answered[at] = Some(self.computed(owner, &digest, mtu, &[]));
                    }
                    (None, None) => asked[at] = Some(port::digest(&self.tables[hub], &[])),
                },
            }
            self.claims()?;
        }
    }

    fn level(&self) -> bool {
        (0..self.owners.len())
            .all(|place| (0..self.tables.len()).all(|hub| self.pair(hub, place).max == self.owner_pair(place).max))
    }
}

impl Counts {
    pub fn say(&self, kind: Kind) {
        let [reject, apply, reset, _room, _unknown, fenced] = self.answers;
        println!(
            "{kind:?}: {} nets, {} steps; reject {reject}, apply {apply}, reset {reset}, fenced {fenced}; late {}, restored {}, wiped {}, removals {}; \
             equal {}; left behind {} nets",
            self.nets, self.steps, self.late, self.restored, self.wiped, self.removals, self.equal, self.behind
        );
        println!(
            "  nets with meter tables {}: writes out of form {}, of a smaller total {}; with shared tables {}: writes of another's key {}; deltas refused between unlike profiles {}",
            self.meters, self.unformed, self.smaller, self.shared, self.others, self.refused
        );
        if self.crashed > 0 {
            println!(
                "  crashed {}, versions undone {}, forgot {}, recalled {}",
                self.crashed, self.undone, self.forgot, self.recalled
            );
        }
        if self.handed > 0 {
            println!("  nodes that got another owner {}", self.handed);
        }
        if self.told > 0 {
            println!("  told {}, removals that waited {}, records removed {}", self.told, self.waited, self.gone);
        }
        if self.crossed > 0 {
            println!(
                "  exchanges that crossed {}, nodes reset between digest and applying {}",
                self.crossed, self.resets_between
            );
        }
    }
}
