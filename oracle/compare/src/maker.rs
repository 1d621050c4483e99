//! A script in the making. It remembers which nodes each hub holds, only to aim: so many tie numbers, a node that is
//! there, a node that is not.

use std::collections::BTreeSet;

use script::hex;
use script::table::{self, NODES, Node, RECORDS, Record};

use crate::damage;
use crate::pieces::{self, Op};
use crate::plans::{self, Plan};
use crate::random::Random;

/// A firm's records of a node in a shared table, at most.
pub const EACH: usize = 16;

pub struct Maker {
    pub random: Random,
    lines: Vec<String>,
    hub: usize,
    held: [BTreeSet<u64>; 2],
    /// Few, so that calls meet each other.
    pub nodes: Vec<u64>,
    pub keys: Vec<Vec<u8>>,
    pub values: Vec<Vec<u8>>,
    clock: u64,
    /// Of both hubs' tables.
    mode: u8,
    /// Of each hub's: free, meter, shared, or two of these.
    profiles: [u8; 2],
    /// The edition of the last digest.
    told: u64,
}

fn list(numbers: &[u64]) -> String {
    if numbers.is_empty() {
        return "-".into();
    }
    numbers.iter().map(u64::to_string).collect::<Vec<_>>().join(",")
}

impl Maker {
    pub fn new(mut random: Random, nodes: u64, keys: u64) -> Maker {
        let nodes = (0..nodes).map(|_| pieces::node(&mut random)).collect();
        let mode = *random.pick(&[table::PLAIN, table::PLAIN, table::FENCED, table::GUARDED]);
        let profiles = match random.below(16) {
            0 | 1 => [table::METER, table::METER],
            2 => [table::FREE, table::METER],
            3 => [table::METER, table::FREE],
            4 | 5 => [table::SHARED, table::SHARED],
            6 => [table::FREE, table::SHARED],
            7 => [table::SHARED, table::FREE],
            _ => [table::FREE, table::FREE],
        };
        let readings = profiles.contains(&table::METER);
        let (key, value): (fn(&mut Random) -> _, fn(&mut Random) -> _) =
            if readings {
                (pieces::meter_key, pieces::meter_value)
            } else if profiles.contains(&table::SHARED) {
                (pieces::firms_key, pieces::value)
            } else {
                (pieces::key, pieces::value)
            };
        let keys = (0..keys).map(|_| key(&mut random)).collect();
        let values = (0..4).map(|_| value(&mut random)).collect();
        let mut maker =
            Maker { random, lines: Vec::new(), hub: 0, held: Default::default(), nodes, keys, values, clock: 10, mode, profiles, told: 0 };
        for hub in [1, 0] {
            maker.hub(hub);
            maker.empty();
        }
        maker
    }

    /// The profile of the current hub's table.
    pub fn profile(&self) -> u8 {
        self.profiles[self.hub]
    }

    pub fn is_meter(&self) -> bool {
        self.profile() == table::METER
    }

    pub fn is_shared(&self) -> bool {
        self.profile() == table::SHARED
    }

    pub fn finish(self) -> Vec<String> {
        self.lines
    }

    /// Where a table is shared the parties take turns, with nobody among them.
    pub fn line(&mut self, line: impl Into<String>) {
        if self.profiles.contains(&table::SHARED) && self.random.once_in(3) {
            let party = *self.random.pick(&[1, 1, 2, 2, 0, 3, u64::MAX]);
            self.lines.push(format!("party {party}"));
        }
        self.lines.push(line.into());
    }

    pub fn node(&mut self) -> u64 {
        if self.random.once_in(25) { pieces::node(&mut self.random) } else { *self.random.pick(&self.nodes) }
    }

    /// A key of the pool; seldom one over the size.
    pub fn key(&mut self) -> Vec<u8> {
        if self.random.once_in(40) {
            return pieces::text(&mut self.random, 33);
        }
        self.random.pick(&self.keys).clone()
    }

    pub fn value(&mut self) -> Vec<u8> {
        if self.random.once_in(40) {
            return pieces::text(&mut self.random, 65);
        }
        self.random.pick(&self.values).clone()
    }

    /// A clock that goes on, stands, and runs back.
    pub fn now(&mut self) -> u64 {
        match self.random.below(8) {
            0 => self.clock = self.clock.saturating_sub(self.random.below(15)),
            1..=3 => self.clock = self.clock.saturating_add(self.random.below(10)),
            4 if self.random.once_in(4) => return pieces::moment(&mut self.random),
            _ => {}
        }
        self.clock
    }

    pub fn hub(&mut self, hub: usize) {
        self.hub = hub;
        self.line(format!("hub {hub}"));
    }

    pub fn other_hub(&mut self) {
        self.hub(1 - self.hub);
    }

    pub fn empty(&mut self) {
        self.held[self.hub].clear();
        let (mode, profile) = (self.mode, self.profile());
        self.line(if profile == table::FREE { format!("make {mode}") } else { format!("kind {mode} {profile}") });
    }

    pub fn add(&mut self, node: u64) {
        if self.held[self.hub].len() < NODES {
            self.held[self.hub].insert(node);
        }
        self.line(format!("add {node}"));
    }

    pub fn remove(&mut self, node: u64) {
        self.held[self.hub].remove(&node);
        self.line(format!("remove {node}"));
    }

    /// As `add`, through the grid.
    pub fn grid_add(&mut self, node: u64) {
        if self.held[self.hub].len() < NODES {
            self.held[self.hub].insert(node);
        }
        self.line(format!("gridadd {node}"));
    }

    /// As `remove`, through the grid.
    pub fn grid_remove(&mut self, node: u64) {
        self.held[self.hub].remove(&node);
        self.line(format!("gridremove {node}"));
    }

    pub fn removed(&mut self, node: u64) {
        self.line(format!("removed {node}"));
    }

    /// The wanted status of a write: seldom neither Set nor TTL, and then often one that has their byte in it.
    fn wanted(&mut self) -> u64 {
        const OTHERS: [u64; 10] = [1, 1, 3, 4, 255, 256, 258, 1 << 32, (1 << 63) + 2, u64::MAX];
        match self.random.below(8) {
            _ if self.random.once_in(30) => *self.random.pick(&OTHERS),
            0..=4 => table::SET.into(),
            _ => table::TTL.into(),
        }
    }

    /// Any call on one node: a write, a read, a heartbeat.
    pub fn local(&mut self) {
        let (node, key) = (self.node(), self.key());
        let key = hex(&key);
        let line = match self.random.below(20) {
            0..=7 => format!("write {node} {key} {} {} {}", hex(&self.value()), self.wanted(), self.now()),
            8..=10 => format!("delete {node} {key} {}", self.now()),
            11 | 12 => format!("deletettl {node} {key} {}", self.now()),
            13 => format!("offer {node} {}", pieces::version(&mut self.random)),
            14 => format!("beat {node}"),
            15 | 16 => format!("get {node} {key}"),
            17 | 18 => format!("list {node} {} {}", hex(&self.prefix()), self.places()),
            _ => return self.gc(),
        };
        self.line(line);
    }

    fn prefix(&mut self) -> Vec<u8> {
        let key = self.key();
        let mut len = self.random.place(key.len() + 1);
        while !self.random.beyond && std::str::from_utf8(&key[..len]).is_err() {
            len -= 1;
        }
        key[..len].to_vec()
    }

    /// Answer places: mostly enough.
    pub fn places(&mut self) -> u64 {
        match self.random.below(6) {
            0 => self.random.below(4),
            1 => u64::MAX,
            _ => 33,
        }
    }

    pub fn gc(&mut self) {
        let grace = if self.random.once_in(3) { self.random.below(4) } else { pieces::moment(&mut self.random) };
        let now = self.now();
        self.line(format!("gc {now} {grace}"));
    }

    fn excluded(&mut self) -> Vec<u64> {
        let count = if self.random.once_in(3) { self.random.below(5) } else { 0 };
        (0..count).map(|_| self.node()).collect()
    }

    /// A place and a length: mostly with room for `need` bytes, often for exactly so many.
    fn room(&mut self, need: u64) -> (u64, u64) {
        let place = *self.random.pick(&[0, 0, 0, 1, 7, 40]);
        match self.random.below(16) {
            0 => (place, (place + need).saturating_sub(1)),
            1 => (place + 1, place),
            2 => (u64::MAX - self.random.below(2), need),
            3 => (place, place),
            4..=8 => (place, place + need),
            _ => (place, place + need + self.random.below(20)),
        }
    }

    pub fn digest(&mut self) {
        let excluded = self.excluded();
        let written = self.held[self.hub].iter().filter(|node| !excluded.contains(node)).count();
        let edition = self.edition();
        let count = if edition == 0 { 2 } else { 0 };
        let (place, len) = self.room(count + 32 * written as u64);
        self.told = edition;
        self.line(format!("digest {} {place} {len} {edition}", list(&excluded)));
    }

    /// One of the two, now and then another number.
    pub fn edition(&mut self) -> u64 {
        if self.random.once_in(40) { *self.random.pick(&[2, 3, 256, u64::MAX]) } else { self.random.below(2) }
    }

    /// Mostly that of the last digest.
    pub fn told_edition(&mut self) -> u64 {
        if self.random.once_in(15) { self.edition() } else { self.told }
    }

    /// A digest that is surely written, all nodes in it.
    pub fn whole_digest(&mut self) {
        self.told = self.random.below(2);
        self.line(format!("digest - 0 258 {}", self.told));
    }

    fn ties(&mut self) -> Vec<u64> {
        let mut count = self.held[self.hub].len() as u64;
        if self.random.once_in(30) {
            count = if self.random.once_in(2) { count + 1 } else { count.saturating_sub(1) };
        }
        let wide = self.random.once_in(4);
        (0..count).map(|_| if wide { self.random.next() } else { self.random.below(3) }).collect()
    }

    pub fn compute(&mut self, digest: &str, mtu: u64) {
        let (excluded, ties) = (self.excluded(), self.ties());
        let (place, len) = self.room(mtu.min(20_000));
        let edition = self.told_edition();
        self.line(format!("compute {digest} {mtu} {} {} {place} {len} {edition}", list(&excluded), list(&ties)));
    }

    /// As `compute`, with nothing that could be refused but the digest.
    pub fn plain_compute(&mut self, digest: &str, mtu: u64) {
        let held = self.held[self.hub].len();
        let ties: Vec<u64> = (0..held).map(|_| self.random.below(3)).collect();
        self.line(format!("compute {digest} {mtu} - {} 0 {mtu} {}", list(&ties), self.told));
    }

    /// Both lines of a plan: what is at fault in it, and the delta.
    fn planned(&mut self, digest: &str, plan: &Plan, place: u64, len: u64, edition: u64) {
        let lists = format!("{} {} {}", list(&plan.excluded), list(&plan.nodes), list(&plan.counts));
        self.line(format!("planfault {digest} {} {lists} {edition}", plan.mtu));
        self.line(format!("plan {digest} {} {lists} {place} {len} {edition}", plan.mtu));
    }

    /// A plan of nodes that are mostly held, with small counts: what of them is stale is not known here.
    pub fn loose_plan(&mut self, digest: &str, mtu: u64) {
        let mut nodes: Vec<u64> = self.held[self.hub].iter().copied().filter(|_| !self.random.once_in(3)).collect();
        if !nodes.is_empty() {
            let first = self.random.place(nodes.len());
            nodes.rotate_left(first);
        }
        if !self.random.once_in(4) {
            nodes.truncate(self.random.within(0, 2) as usize);
        }
        if self.random.once_in(12) {
            nodes.push(self.node());
        }
        let counts = nodes.iter().map(|_| *self.random.pick(&[0, 1, 1, 1, 1, 2, 3])).collect();
        let excluded = if self.random.once_in(4) { self.excluded() } else { Vec::new() };
        let (place, len) = if self.random.once_in(4) { self.room(mtu.min(20_000)) } else { (0, mtu.min(20_000)) };
        let edition = self.told_edition();
        self.planned(digest, &Plan { mtu, excluded, nodes, counts }, place, len, edition);
    }

    /// A plan for a table of these nodes, and a digest by hand that tells of them.
    pub fn aimed_plan(&mut self, nodes: &[Node]) {
        let entries = plans::told(&mut self.random, nodes);
        let plan = plans::plan(&mut self.random, nodes, &entries);
        self.told = self.random.below(2);
        let mut bytes = pieces::digest(self.told, &entries);
        if self.random.once_in(25) {
            bytes = damage::digest(&mut self.random, &bytes);
        }
        let (place, len) = if self.random.once_in(8) { self.room(plan.mtu.min(20_000)) } else { (0, plan.mtu.min(20_000)) };
        let edition = self.told_edition();
        self.planned(&hex(&bytes), &plan, place, len, edition);
    }

    /// A digest of the nodes of the pool, by hand, in either edition: repeats, strangers, any order, now and then nine entries.
    pub fn hand_digest(&mut self) -> Vec<u8> {
        let count = if self.random.once_in(10) { self.random.within(7, 10) } else { self.random.below(6) };
        let entries: Vec<[u64; 4]> = (0..count)
            .map(|_| {
                let node = self.node();
                [
                    node,
                    pieces::version(&mut self.random),
                    pieces::version(&mut self.random),
                    pieces::version(&mut self.random),
                ]
            })
            .collect();
        self.told = self.random.below(2);
        let mut bytes = pieces::digest(self.told, &entries);
        if self.random.once_in(8) {
            bytes.extend(pieces::text(&mut self.random, 3));
        }
        bytes
    }

    /// Operations for some nodes, mostly such that they can be read.
    pub fn hand_ops(&mut self) -> Vec<Op> {
        let count = if self.random.once_in(15) { self.random.within(7, 10) } else { self.random.within(1, 4) };
        let mut ops = Vec::new();
        let mut used = BTreeSet::new();
        for _ in 0..count {
            let mut number = self.node();
            while used.contains(&number) && !self.random.once_in(30) {
                number = if count > 4 { self.random.below(20) } else { self.random.next() };
            }
            used.insert(number);
            self.node_ops(number, &mut ops);
        }
        if self.random.once_in(20) {
            ops.remove(0);
        }
        ops
    }

    fn node_ops(&mut self, number: u64, ops: &mut Vec<Op>) {
        let from = if self.random.once_in(2) { 0 } else { pieces::version(&mut self.random) };
        let last_gc = if self.random.once_in(2) { 0 } else { pieces::version(&mut self.random) };
        ops.push(Op::Node { number, last_gc, from });
        let mut running = if self.random.once_in(3) { 0 } else { from };
        for _ in 0..self.random.below(6) {
            match self.random.below(12) {
                0 => {
                    let max = running.wrapping_add(self.random.below(4)).wrapping_sub(self.random.below(2));
                    running = max;
                    ops.push(Op::SetMax { max });
                }
                _ => {
                    let step = if self.random.once_in(30) { 0 } else { self.random.within(1, 3) };
                    running = running.wrapping_add(step);
                    let status = if self.random.once_in(60) { 3 } else { self.random.below(3) as u8 };
                    // A tombstone mostly comes without a value, but a peer may send one.
                    let value = if status == 1 && !self.random.once_in(4) { Vec::new() } else { self.value() };
                    // A reading under Set mostly comes with one.
                    let bare = status == table::SET && value.is_empty() && self.is_meter() && !self.random.once_in(8);
                    let value = if bare { b"5".to_vec() } else { value };
                    ops.push(Op::KeyValue { key: self.key(), value, version: running, status });
                }
            }
        }
        if self.random.once_in(3) {
            let max = if self.random.once_in(4) { pieces::version(&mut self.random) } else { running };
            ops.push(Op::SetMax { max });
        }
    }

    /// A node delta with records above `version`, some of their keys new; seldom a whole new set after a reset.
    pub fn crowd(&mut self, number: u64, mut version: u64, ops: &mut Vec<Op>) {
        let reset = self.random.once_in(5);
        let last_gc = if reset { version + 3 } else { self.random.below(3) };
        ops.push(Op::Node { number, last_gc, from: 0 });
        let count = if reset { self.random.within(30, 38) } else { self.random.within(1, 5) };
        for place in 0..count {
            version += self.random.within(1, 2);
            let key = if reset { place } else { self.random.below(36) };
            let firm = if self.is_shared() { *self.random.pick(&["m/", "b/"]) } else { "" };
            let key = format!("{firm}k{key}").into_bytes();
            let status = self.random.below(3) as u8;
            let value = if status == table::SET && self.is_meter() { b"5".to_vec() } else { Vec::new() };
            ops.push(Op::KeyValue { key, value, version, status });
        }
    }

    pub fn apply(&mut self, delta: &str) {
        let (now, places) = (self.now(), self.places());
        if self.random.once_in(4) {
            let own = self.excluded();
            return self.line(format!("leave {delta} {now} {places} {}", list(&own)));
        }
        self.line(format!("apply {delta} {now} {places}"));
    }

    /// A delta whole, or cut at one of its Nodes, the first too: both parts at one time, in either order.
    pub fn apply_ops(&mut self, ops: &[Op]) {
        let starts: Vec<usize> = (0..ops.len()).filter(|&place| matches!(ops[place], Op::Node { .. })).collect();
        if starts.is_empty() || !self.random.once_in(3) {
            return self.apply(&hex(&pieces::delta(ops)));
        }
        let (first, second) = ops.split_at(*self.random.pick(&starts));
        let halves = if self.random.once_in(2) { [first, second] } else { [second, first] };
        let (now, places) = (self.now(), self.places());
        for half in halves {
            self.line(format!("apply {} {now} {places}", hex(&pieces::delta(half))));
        }
    }

    /// Nodes of a table that obeys the rules. `long`: with texts near their sizes.
    pub fn good_nodes(&mut self, nodes: u64, records: u64, long: bool) -> Vec<Node> {
        let mut numbers: BTreeSet<u64> = self.nodes.iter().copied().take(nodes as usize).collect();
        while (numbers.len() as u64) < nodes.min(NODES as u64) {
            numbers.insert(pieces::node(&mut self.random));
        }
        let numbers: Vec<u64> = numbers.into_iter().take(NODES).collect();
        numbers.into_iter().map(|number| self.good_node(number, records, long)).collect()
    }

    fn good_node(&mut self, number: u64, records: u64, long: bool) -> Node {
        let (meter, shared) = (self.is_meter(), self.is_shared());
        let fits = |key: &&Vec<u8>| key.len() <= table::KEY && (!meter || pieces::is_name(key)) && (!shared || pieces::is_firms(key));
        let mut keys: BTreeSet<Vec<u8>> = self.keys.iter().filter(fits).cloned().collect();
        while keys.len() < RECORDS {
            let len = self.random.within(if long { 24 } else { 1 }, 32) as usize;
            keys.insert(match (meter, shared) {
                (true, _) => pieces::name(&mut self.random, len),
                (_, true) => pieces::firms_name(&mut self.random, len.max(2)),
                _ => pieces::text(&mut self.random, len),
            });
        }
        let mut keys: Vec<Vec<u8>> = keys.into_iter().collect();
        while keys.len() > records as usize {
            let out = self.random.place(keys.len());
            keys.remove(out);
        }
        for firm in [&b"m/"[..], b"b/"] {
            while shared && keys.iter().filter(|key| key.starts_with(firm)).count() > EACH {
                let out = keys.iter().position(|key| key.starts_with(firm)).expect("there are some");
                keys.remove(out);
            }
        }
        let floor = if self.random.once_in(8) { u64::MAX - 40 } else { self.random.below(4) };
        let mut versions: Vec<u64> = (1..=keys.len() as u64).map(|step| floor + step).collect();
        for place in (1..versions.len()).rev() {
            versions.swap(place, self.random.place(place + 1));
        }
        let top = floor + keys.len() as u64;
        let max = if self.random.once_in(4) { top.saturating_add(self.random.below(9)) } else { top };
        let records = keys.into_iter().zip(versions).map(|(key, version)| {
            let status = self.random.below(3) as u8;
            let start = if status == table::SET && !self.random.beyond { 0 } else { pieces::moment(&mut self.random) };
            let len = match status {
                _ if long && meter => 10,
                _ if long => self.random.within(48, 64),
                table::DELETE if !self.random.once_in(5) => 0,
                table::SET if meter => self.random.within(1, 10),
                _ if meter => self.random.below(11),
                _ => self.random.below(65),
            };
            let value = if meter { pieces::digits(&mut self.random, len as usize) } else { pieces::text(&mut self.random, len as usize) };
            Record { key, value, version, status, start }
        });
        let records = records.collect();
        let last_gc = if self.random.once_in(2) { 0 } else { pieces::version(&mut self.random) };
        Node { number, heartbeat: pieces::version(&mut self.random), max, last_gc, records }
    }

    pub fn give(&mut self, nodes: &[Node]) {
        self.held[self.hub] = nodes.iter().map(|node| node.number).collect();
        let removed = if self.random.once_in(2) { damage::removed(&mut self.random, nodes) } else { Vec::new() };
        let bytes = table::encode_as(nodes, self.mode, self.profile(), &removed);
        self.line(format!("table {}", hex(&bytes)));
    }

    pub fn give_broken(&mut self, bytes: &[u8]) {
        self.held[self.hub].clear();
        self.line(format!("table {}", hex(bytes)));
    }
}
