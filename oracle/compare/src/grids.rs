//! Grids beside tables: who has seen what (document 02, ticket 12). Two hubs, each with a grid, in random scripts.

use script::grid::{self, GCS, GRID_BYTES, MAXES, NUMBERS, PEERS, PRESENT, Pair, ROW_BYTES};
use script::hex;
use script::table::{NODES, Node};

use crate::damage;
use crate::maker::Maker;
use crate::pieces;
use crate::random::Random;

/// A peer's number: few, so that rows are replaced; seldom one that is none.
fn peer(m: &mut Maker) -> u64 {
    match m.random.below(20) {
        0 => *m.random.pick(&[8, 9, 255, 256, 1 << 32, u64::MAX]),
        1..=4 => 7,
        5 | 6 => m.random.below(8),
        _ => m.random.below(3),
    }
}

fn careful(m: &mut Maker) {
    let grace = if m.random.once_in(6) { pieces::moment(&mut m.random) } else { m.random.below(4) };
    let now = m.now();
    m.line(format!("careful {now} {grace}"));
}

/// A call on the grid that changes no table but by careful removal.
fn on_grid(m: &mut Maker) {
    match m.random.below(16) {
        0..=2 => {
            let mut bytes = m.hand_digest();
            if m.random.once_in(5) {
                bytes = damage::digest(&mut m.random, &bytes);
            }
            let (peer, edition) = (peer(m), m.told_edition());
            m.line(format!("tell {peer} {} {edition}", hex(&bytes)));
        }
        3 => {
            let (peer, edition) = (peer(m), m.told_edition());
            m.line(format!("tell {peer} @digest {edition}"));
        }
        4 | 5 => {
            let peer = peer(m);
            m.line(format!("takeout {peer}"));
        }
        6..=8 => {
            let node = m.node();
            m.line(format!("least {node}"));
        }
        9..=11 => {
            let (peer, node) = (peer(m), m.node());
            m.line(format!("told {peer} {node}"));
        }
        _ => careful(m),
    }
}

/// The other hub's digest, told to the grid of the current one.
fn tell_the_other(m: &mut Maker) {
    m.other_hub();
    m.whole_digest();
    m.other_hub();
    let (peer, edition) = (m.random.below(3), m.told_edition());
    m.line(format!("tell {peer} @digest {edition}"));
}

fn one_exchange(m: &mut Maker) {
    m.other_hub();
    m.whole_digest();
    m.other_hub();
    m.plain_compute("@digest", 16_384);
    m.other_hub();
    m.apply("@delta");
    m.other_hub();
}

/// Nodes that come and go through the grid, digests that peers tell, exchanges, careful removal; now and then the table changes past its grid, or the grid's bytes do.
pub fn watched(mut random: Random) -> Vec<String> {
    let (nodes, keys) = (random.within(1, 9), random.within(1, 5));
    let mut m = Maker::new(random, nodes, keys);
    for hub in [1, 0] {
        m.hub(hub);
        for node in m.nodes.clone() {
            m.grid_add(node);
        }
    }
    for _ in 0..m.random.within(20, 80) {
        let node = m.node();
        match m.random.below(32) {
            0 | 1 => m.grid_add(node),
            2 => m.grid_remove(node),
            3..=5 => tell_the_other(&mut m),
            6..=8 => one_exchange(&mut m),
            9 if m.random.once_in(3) => m.other_hub(),
            10 if m.random.once_in(6) => m.add(node),
            11 if m.random.once_in(6) => m.remove(node),
            12 if m.random.once_in(3) => m.line("newgrid"),
            13 if m.random.once_in(6) => m.line("dumpgrid"),
            14 if m.random.once_in(12) => m.empty(),
            15..=22 => on_grid(&mut m),
            _ => m.local(),
        }
    }
    m.finish()
}

/// What some peers told of these nodes: around the versions of their records.
fn rows(random: &mut Random, nodes: &[Node]) -> [Option<Vec<Pair>>; PEERS] {
    let max = |random: &mut Random, node: &Node| match random.below(6) {
        0 => node.max,
        1 => pieces::version(random),
        2 => 0,
        _ if node.records.is_empty() => node.max,
        _ => {
            let version = node.records[random.place(node.records.len())].version;
            *random.pick(&[version, version - 1, version.saturating_add(1)])
        }
    };
    let none = random.once_in(12);
    let few = random.within(2, 8);
    std::array::from_fn(|_| {
        let present = !none && random.once_in(few);
        present.then(|| nodes.iter().map(|node| (pieces::version(random), max(random, node))).collect())
    })
}

/// A table and its grid, both given whole, then calls on both; now and then a grid that breaks a rule, or one of other nodes.
pub fn given(mut random: Random) -> Vec<String> {
    let (nodes, keys) = (random.within(1, 8), random.within(1, 6));
    let mut m = Maker::new(random, nodes, keys);
    let records = *m.random.pick(&[1, 3, 8, 32]);
    let mut good = m.good_nodes(nodes, records, false);
    m.give(&good);
    for _ in 0..m.random.within(2, 8) {
        if m.random.once_in(4) {
            m.give(&good);
        }
        let rows = rows(&mut m.random, &good);
        let numbers: Vec<u64> = good.iter().map(|node| node.number).collect();
        let mut bytes = grid::encode(&numbers, &rows);
        match m.random.below(8) {
            0 | 1 => bytes = broken(&mut m.random, &numbers, rows),
            2 if m.random.once_in(3) => {
                good.pop();
            }
            _ => {}
        }
        m.line(format!("grid {}", hex(&bytes)));
        if m.random.once_in(12) {
            m.line("newgrid");
        }
        for _ in 0..m.random.within(2, 8) {
            let node = m.node();
            match m.random.below(12) {
                0 => m.grid_add(node),
                1 => m.grid_remove(node),
                2 => m.local(),
                _ => on_grid(&mut m),
            }
        }
    }
    m.finish()
}

/// Grid bytes that break a rule of grids or of their layout.
fn broken(random: &mut Random, numbers: &[u64], rows: [Option<Vec<Pair>>; PEERS]) -> Vec<u8> {
    loop {
        let good = grid::encode(numbers, &rows);
        let mut bytes = good.clone();
        let dirt = random.within(1, 255) as u8;
        let (peer, array) = (random.place(PEERS), *random.pick(&[GCS, MAXES]));
        let count = numbers.len();
        match random.below(9) {
            0 => bytes[0] = random.within(count as u64 + 1, 255) as u8,
            1 => bytes[0] = random.below(count as u64 + 1) as u8,
            2 if count > 1 => bytes[NUMBERS..NUMBERS + 16].rotate_left(8),
            3 if count > 1 => bytes.copy_within(NUMBERS..NUMBERS + 8, NUMBERS + 8),
            4 => bytes[PRESENT + peer] = random.within(2, 255) as u8,
            5 => bytes[PRESENT + peer] = 0,
            // Behind the columns, in the numbers and in a row.
            6 if count < NODES => bytes[NUMBERS + 8 * count + random.place(8 * (NODES - count))] = dirt,
            7 => {
                let told = if rows[peer].is_some() { count } else { 0 };
                if told < NODES {
                    bytes[array + ROW_BYTES * peer + 8 * told + random.place(8 * (NODES - told))] = dirt;
                }
            }
            _ => bytes.resize(*random.pick(&[0, 1, GRID_BYTES - 1, GRID_BYTES + 1]), 0),
        }
        if bytes != good {
            return bytes;
        }
    }
}
