//! Random scripts, each from its seed and its index alone.

use script::hex;

use crate::maker::Maker;
use crate::random::Random;
use crate::{damage, grids, pieces};

pub fn random(seed: u64, index: u64) -> Vec<String> {
    any(Random::new(seed, index))
}

/// As `random`, with what the original cannot be asked: texts that are no UTF-8, a start under Set.
pub fn beyond(seed: u64, index: u64) -> Vec<String> {
    let mut random = Random::new(seed, index);
    random.beyond = true;
    any(random)
}

fn any(mut random: Random) -> Vec<String> {
    match random.below(26) {
        0..=2 => local(random),
        3 => sizes(random),
        4 => full_node(random),
        5 => crowded(random),
        6..=10 => exchange(random),
        11..=13 => hand_deltas(random),
        14 | 15 => hand_digests(random),
        16 | 17 => given(random),
        18 => broken(random),
        19 => coming(random),
        20 | 21 => planned(random),
        22 | 23 => grids::watched(random),
        24 => grids::given(random),
        _ => brim(random),
    }
}

/// How many MTUs a script of `peers` goes over.
const CUTS: u64 = 64;

/// Computing and applying alone: a table given whole, and a follower that is behind with some of it, is made fresh in a node now and then,
/// and takes deltas by hand between the others. The MTUs are one after the other and go on in the next script, so that 255
/// scripts have every MTU from 100 to 16,384, each on other tables.
pub fn peers(seed: u64, index: u64) -> Vec<String> {
    let mut random = Random::new(seed, index);
    let (nodes, records, long) = (random.within(1, 8), *random.pick(&[1, 3, 8, 20, 32]), random.once_in(2));
    let mut m = Maker::new(random, nodes, 6);
    let good = m.good_nodes(nodes, records, long);
    m.give(&good);
    m.hub(1);
    for node in &good {
        if !m.random.once_in(12) {
            m.add(node.number);
        }
    }
    for step in 0..CUTS {
        if m.random.once_in(3) {
            let node = m.random.pick(&good).number;
            m.remove(node);
            m.add(node);
        }
        if m.random.once_in(4) {
            let bytes = hand_delta(&mut m);
            m.apply(&hex(&bytes));
        }
        if !m.random.once_in(6) {
            m.whole_digest();
        }
        m.hub(0);
        if m.random.once_in(4) {
            m.local();
        }
        let mtu = 100 + (CUTS * index + step) % (16_384 - 100 + 1);
        if m.random.once_in(6) {
            let digest = hex(&m.hand_digest());
            m.compute(&digest, mtu);
        }
        if m.random.once_in(3) {
            m.loose_plan("@digest", mtu);
        } else {
            m.plain_compute("@digest", mtu);
        }
        m.hub(1);
        m.apply("@delta");
    }
    m.finish()
}

/// A delta by hand, often damaged.
fn hand_delta(m: &mut Maker) -> Vec<u8> {
    let bytes = pieces::delta(&m.hand_ops());
    if m.random.once_in(3) { damage::delta(&mut m.random, &bytes) } else { bytes }
}

/// Local calls on few nodes and keys.
fn local(mut random: Random) -> Vec<String> {
    let (nodes, keys) = (random.within(1, 3), random.within(1, 6));
    let mut m = Maker::new(random, nodes, keys);
    for node in m.nodes.clone() {
        m.add(node);
    }
    for _ in 0..m.random.within(5, 60) {
        anything_local(&mut m);
    }
    m.finish()
}

fn anything_local(m: &mut Maker) {
    match m.random.below(40) {
        0 => {
            let node = m.node();
            m.add(node);
        }
        1 => {
            let node = m.node();
            m.remove(node);
        }
        2 => m.digest(),
        6 | 7 => {
            let node = m.node();
            m.removed(node);
        }
        3 => {
            let mtu = pieces::mtu(&mut m.random);
            m.compute("x0000", mtu);
        }
        4 if m.random.once_in(10) => m.empty(),
        5 if m.random.once_in(10) => m.line("dump"),
        _ => m.local(),
    }
}

/// Nodes that come and go, often more than sixteen, and are asked for once they are gone.
fn coming(mut random: Random) -> Vec<String> {
    let nodes = random.within(4, 28);
    let mut m = Maker::new(random, nodes, 2);
    for _ in 0..m.random.within(30, 120) {
        let node = m.node();
        match m.random.below(8) {
            0..=2 => m.add(node),
            3 | 4 => m.remove(node),
            5 => m.removed(node),
            6 if m.random.once_in(12) => m.line("dump"),
            _ => m.local(),
        }
    }
    for node in m.nodes.clone() {
        m.removed(node);
    }
    m.finish()
}

/// Keys and values around their sizes, nodes around eight.
fn sizes(mut random: Random) -> Vec<String> {
    let nodes = random.within(7, 11);
    let mut m = Maker::new(random, nodes, 2);
    for len in [0, 1, 31, 32, 33] {
        let key = pieces::text(&mut m.random, len);
        m.keys.push(key);
    }
    for len in [0, 1, 63, 64, 65] {
        let value = pieces::text(&mut m.random, len);
        m.values.push(value);
    }
    for number in 20..20 + m.random.below(4) {
        m.nodes.push(number);
    }
    for node in m.nodes.clone() {
        m.add(node);
    }
    for _ in 0..30 {
        anything_local(&mut m);
    }
    m.finish()
}

/// A node with some 32 records.
fn full_node(random: Random) -> Vec<String> {
    let mut m = Maker::new(random, 1, 3);
    let node = m.nodes[0];
    m.add(node);
    let count = m.random.within(29, 33);
    for number in 0..count {
        let key = format!("k{number}").into_bytes();
        let value = hex(&m.value());
        m.line(format!("write {node} {} {value} 0 9", hex(&key)));
        if m.random.once_in(3) {
            m.keys.push(key);
        }
    }
    if m.random.once_in(3) {
        near_the_end(&mut m, node);
    }
    for _ in 0..30 {
        if m.random.once_in(6) {
            let ops = m.hand_ops();
            m.apply_ops(&ops);
        } else {
            anything_local(&mut m);
        }
    }
    m.finish()
}

/// Brings the node's max near 2^64-1.
fn near_the_end(m: &mut Maker, number: u64) {
    let max = u64::MAX - m.random.below(3);
    let ops = [pieces::Op::Node { number, last_gc: 0, from: 0 }, pieces::Op::SetMax { max }];
    m.line(format!("apply {} 0 1", hex(&pieces::delta(&ops))));
}

/// Deltas with new keys for nodes that have hardly room for them, beside nodes that have.
fn crowded(random: Random) -> Vec<String> {
    let mut m = Maker::new(random, 3, 3);
    let nodes = m.nodes.clone();
    for &node in &nodes {
        m.add(node);
    }
    let held = m.random.within(28, 32);
    for number in 0..held {
        let line = match m.random.below(3) {
            0 => format!("write {} {} x 2 {}", nodes[0], hex(format!("k{number}").as_bytes()), m.now()),
            _ => format!("write {} {} x31 0 9", nodes[0], hex(format!("k{number}").as_bytes())),
        };
        m.line(line);
    }
    for round in 1..m.random.within(3, 8) {
        let mut ops = Vec::new();
        for &number in &nodes {
            let version = 40 * round + m.random.below(9);
            m.crowd(number, version, &mut ops);
        }
        m.apply_ops(&ops);
        anything_local(&mut m);
    }
    m.finish()
}

/// Two hubs that send each other digests and deltas while both go on working.
fn exchange(mut random: Random) -> Vec<String> {
    let (nodes, keys) = (random.within(1, 8), random.within(2, 12));
    let mut m = Maker::new(random, nodes, keys);
    for hub in [0, 1] {
        m.hub(hub);
        for node in m.nodes.clone() {
            if hub == 0 || !m.random.once_in(6) {
                m.add(node);
            }
        }
        if m.random.once_in(6) {
            let node = m.nodes[0];
            near_the_end(&mut m, node);
        }
    }
    m.hub(0);
    let wide = m.random.once_in(2);
    for _ in 0..m.random.within(2, 10) {
        for _ in 0..m.random.within(0, 15) {
            m.local();
        }
        if m.random.once_in(3) {
            m.gc();
        }
        one_exchange(&mut m, wide);
        if m.random.once_in(3) {
            m.other_hub();
        }
    }
    m.finish()
}

/// The current hub sends, the other takes.
fn one_exchange(m: &mut Maker, wide: bool) {
    m.other_hub();
    if !m.random.once_in(8) {
        m.whole_digest();
    }
    m.other_hub();
    let mtu = if wide { m.random.within(100, 16_384) } else { m.random.within(100, 300) };
    if m.random.once_in(6) {
        m.loose_plan("@digest", mtu);
    } else if m.random.once_in(3) {
        m.compute("@digest", mtu);
    } else {
        m.plain_compute("@digest", mtu);
    }
    if m.random.once_in(4) {
        m.gc();
        m.local();
    }
    m.other_hub();
    if m.random.once_in(6) {
        m.local();
        m.gc();
    }
    m.apply("@delta");
    if m.random.once_in(6) {
        m.line("readdelta @delta");
        m.apply("@delta");
    }
    m.other_hub();
}

/// Deltas by hand, whole and damaged, read and applied.
fn hand_deltas(mut random: Random) -> Vec<String> {
    let (nodes, keys) = (random.within(1, 4), random.within(1, 6));
    let mut m = Maker::new(random, nodes, keys);
    for node in m.nodes.clone() {
        m.add(node);
    }
    for _ in 0..m.random.within(3, 20) {
        let mut bytes = hand_delta(&mut m);
        if m.random.once_in(40) {
            let mut padded = bytes.clone();
            pad(&mut m, &mut padded);
            // Behind a damaged end the padding may be read as a text.
            if m.random.beyond || damage::texts_are_utf8(&padded) {
                bytes = padded;
            }
        }
        let word = hex(&bytes);
        if m.random.once_in(4) {
            m.line(format!("readdelta {word}"));
        } else {
            m.apply(&word);
        }
        if m.random.once_in(2) {
            anything_local(&mut m);
        }
    }
    m.finish()
}

/// Makes a delta some 16,384 bytes long, by a node that is only told its max again and again.
fn pad(m: &mut Maker, bytes: &mut Vec<u8>) {
    let len = *m.random.pick(&[16_383, 16_384, 16_385]);
    pieces::Op::Node { number: 77, last_gc: 0, from: 0 }.write(bytes);
    while bytes.len() + 9 <= len {
        pieces::Op::SetMax { max: 5 }.write(bytes);
    }
    bytes.resize(len, 2);
}

/// Digests by hand, whole and damaged, read and computed from.
fn hand_digests(mut random: Random) -> Vec<String> {
    let (nodes, keys) = (random.within(1, 9), random.within(1, 6));
    let mut m = Maker::new(random, nodes, keys);
    for node in m.nodes.clone() {
        m.add(node);
    }
    for _ in 0..m.random.within(5, 25) {
        m.local();
    }
    for _ in 0..m.random.within(3, 12) {
        let mut bytes = m.hand_digest();
        if m.random.once_in(4) {
            bytes = damage::digest(&mut m.random, &bytes);
        }
        let word = hex(&bytes);
        if m.random.once_in(4) {
            let edition = m.told_edition();
            m.line(format!("readdigest {word} {edition}"));
        } else {
            let mtu = pieces::mtu(&mut m.random);
            m.compute(&word, mtu);
        }
        if m.random.once_in(3) {
            m.local();
        }
    }
    m.finish()
}

/// A table given whole, with versions near the end, last_gc above max, and records in any order of versions.
fn given(mut random: Random) -> Vec<String> {
    let (nodes, keys) = (random.within(1, 4), random.within(1, 6));
    let mut m = Maker::new(random, nodes, keys);
    let nodes = m.good_nodes(nodes, 6, false);
    m.give(&nodes);
    for _ in 0..m.random.within(5, 25) {
        match m.random.below(5) {
            0 => {
                let digest = hex(&m.hand_digest());
                let mtu = pieces::mtu(&mut m.random);
                m.compute(&digest, mtu);
            }
            1 => {
                let ops = m.hand_ops();
                m.apply_ops(&ops);
            }
            _ => anything_local(&mut m),
        }
    }
    m.finish()
}

/// Plans for a table given whole, each for a digest of its own; a follower takes what they send.
fn planned(mut random: Random) -> Vec<String> {
    let (nodes, records, long) = (random.within(1, 8), *random.pick(&[0, 1, 2, 3, 8, 32]), random.once_in(4));
    let mut m = Maker::new(random, nodes, 6);
    let good = m.good_nodes(nodes, records, long);
    m.give(&good);
    m.hub(1);
    for node in &good {
        m.add(node.number);
    }
    for _ in 0..m.random.within(4, 16) {
        m.hub(0);
        m.aimed_plan(&good);
        m.hub(1);
        m.apply("@delta");
    }
    m.finish()
}

/// A table that breaks a rule: each call is refused and the bytes stay.
fn broken(mut random: Random) -> Vec<String> {
    let nodes = random.within(1, 8);
    let mut m = Maker::new(random, nodes, 3);
    let records = *m.random.pick(&[1, 3, 32]);
    let good = m.good_nodes(nodes, records, false);
    for _ in 0..3 {
        let profile = m.profile();
        let bytes = damage::table(&mut m.random, &good, profile);
        m.give_broken(&bytes);
        for _ in 0..m.random.within(1, 6) {
            anything_local(&mut m);
        }
        let bytes = pieces::delta(&m.hand_ops());
        m.apply(&hex(&bytes));
        m.line(format!("readdelta {}", hex(&bytes)));
        m.aimed_plan(&good);
    }
    m.give(&good);
    for _ in 0..5 {
        anything_local(&mut m);
    }
    m.finish()
}

/// A table with nearly everything full, and deltas around the largest MTU.
fn brim(random: Random) -> Vec<String> {
    let mut m = Maker::new(random, 8, 6);
    let good = m.good_nodes(8, 32, true);
    m.give(&good);
    m.hub(1);
    for node in &good {
        if !m.random.once_in(10) {
            m.add(node.number);
        }
    }
    for _ in 0..4 {
        m.whole_digest();
        m.hub(0);
        let mtu = match m.random.below(3) {
            0 => *m.random.pick(&[16_383, 16_384]),
            1 => m.random.within(16_200, 16_384),
            _ => m.random.within(100, 16_384),
        };
        m.plain_compute("@digest", mtu);
        m.hub(1);
        m.apply("@delta");
        if m.random.once_in(2) {
            m.local();
        }
    }
    m.finish()
}
