//! Plans for the air time, mostly such that they are accepted or have one fault. What may be sent is worked out here once more, only to aim.

use script::table::Node;

use crate::pieces;
use crate::random::Random;

/// A Node operation's bytes, a SetMaxVersion's, and those of a record beside its key and value.
const NODE: u64 = 25;
const MAX: u64 = 9;
const RECORD: u64 = 14;

pub struct Plan {
    pub mtu: u64,
    pub excluded: Vec<u64>,
    pub nodes: Vec<u64>,
    pub counts: Vec<u64>,
}

/// A stale node and the bytes of each of its stale records, by rising version.
struct Stale {
    number: u64,
    records: Vec<u64>,
}

impl Stale {
    fn bytes(&self, count: u64) -> u64 {
        let body = if self.records.is_empty() { MAX } else { self.records.iter().take(count as usize).sum() };
        NODE + body
    }
}

/// What a follower tells of some of the nodes: nothing, all, or up to some record.
pub fn told(random: &mut Random, nodes: &[Node]) -> Vec<[u64; 4]> {
    let mut entries = Vec::new();
    for node in nodes {
        let up_to = match node.records.len() {
            0 => 0,
            all => node.records[random.place(all)].version,
        };
        let max = match random.below(8) {
            0 => continue,
            1 => node.max,
            2 => node.max.saturating_sub(1),
            3 => 0,
            4 => pieces::version(random),
            5 => up_to.saturating_sub(1),
            _ => up_to,
        };
        let last_gc = if random.once_in(3) { pieces::version(random) } else { node.last_gc };
        entries.push([node.number, 0, last_gc, max]);
    }
    entries
}

fn stale(nodes: &[Node], entries: &[[u64; 4]]) -> Vec<Stale> {
    let mut found = Vec::new();
    for node in nodes {
        let (last_gc, max) = entries.iter().find(|entry| entry[0] == node.number).map_or((0, 0), |entry| (entry[2], entry[3]));
        if node.max <= max {
            continue;
        }
        let from = if node.last_gc > last_gc && node.last_gc > max { 0 } else { max };
        let mut records: Vec<_> = node.records.iter().filter(|record| record.version > from).collect();
        records.sort_by_key(|record| record.version);
        let bytes = |record: &&script::table::Record| RECORD + (record.key.len() + record.value.len()) as u64;
        found.push(Stale { number: node.number, records: records.iter().map(bytes).collect() });
    }
    found
}

/// A plan for a table of these nodes and a digest of these entries.
pub fn plan(random: &mut Random, nodes: &[Node], entries: &[[u64; 4]]) -> Plan {
    let stale = stale(nodes, entries);
    let mut lines: Vec<(&Stale, u64)> = Vec::new();
    for stale in &stale {
        let all = stale.records.len() as u64;
        let count = if all == 0 || random.once_in(3) { all } else { random.within(1, all) };
        if !random.once_in(4) {
            lines.insert(random.place(lines.len() + 1), (stale, count));
        }
    }
    let bytes: u64 = lines.iter().map(|(stale, count)| stale.bytes(*count)).sum();
    let fits = bytes.clamp(100, 16_384);
    let mtu = match random.below(8) {
        0 => pieces::mtu(random),
        1 => 16_384,
        2 | 3 => (fits + random.below(30)).min(16_384),
        _ => fits,
    };
    let mut plan = Plan {
        mtu,
        excluded: Vec::new(),
        nodes: lines.iter().map(|(stale, _)| stale.number).collect(),
        counts: lines.iter().map(|(_, count)| *count).collect(),
    };
    let up_to_date: Vec<u64> =
        nodes.iter().map(|node| node.number).filter(|number| stale.iter().all(|stale| stale.number != *number)).collect();
    let faults = *random.pick(&[0, 0, 0, 1, 1, 1, 1, 2]);
    for _ in 0..faults {
        spoil(random, &mut plan, &up_to_date);
    }
    plan
}

/// Puts one fault into the plan; in an empty one, a line or a count without a node.
fn spoil(random: &mut Random, plan: &mut Plan, up_to_date: &[u64]) {
    let (nodes, counts) = (&mut plan.nodes, &mut plan.counts);
    let lines = nodes.len().min(counts.len());
    let at = random.place(lines + 1);
    match random.below(10) {
        0 => {
            nodes.insert(at, pieces::node(random));
            counts.insert(at, random.below(3));
        }
        1 if !up_to_date.is_empty() => {
            nodes.insert(at, *random.pick(up_to_date));
            counts.insert(at, random.below(2));
        }
        2 => counts.push(random.below(3)),
        3 if lines > 0 => drop(counts.pop()),
        4 if lines > 0 => {
            let twice = random.place(lines);
            let (number, count) = (nodes[twice], counts[twice]);
            nodes.insert(at, number);
            counts.insert(at, count);
        }
        5 if lines > 0 => {
            let number = *random.pick(nodes);
            plan.excluded = vec![pieces::node(random), number];
        }
        6 if lines > 0 => counts[random.place(lines)] = 0,
        7 if lines > 0 => {
            let count = &mut counts[random.place(lines)];
            *count = count.saturating_add(1);
        }
        8 if lines > 0 => counts[random.place(lines)] = *random.pick(&[33, 1 << 32, u64::MAX]),
        9 => {
            while nodes.len() < 9 {
                nodes.push(pieces::node(random));
                counts.push(random.below(2));
            }
        }
        _ => plan.mtu = plan.mtu.saturating_sub(1),
    }
}
