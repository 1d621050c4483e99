//! The port and the original Rust side by side, in one process and on the same inputs. Prints the tables of
//! docs/SPEED.md: the calls of an owned table, nodes that come and go there, then all others, and those on a grid, which the original has not.
//!
//! A row has two sides. Each runs a batch of calls between two looks at the clock, so that the clock's cost does not
//! count, and the two take turns, so that load on the machine hits both; the row shows the medians. Before a row is timed both sides do
//! the same once, and what they did must be equal; where they change their table it must be equal afterwards too.
//!
//! A call that changes its table is repeated so that each call finds the same work. A set that changes goes over all
//! keys with values of two turns. For a new key, a delete and applying, the tables are made anew before each batch, outside
//! the time.

mod grid;
mod inputs;
mod local;
mod meter;
mod port;
mod shared;
mod stack;

use std::hint::black_box;
use std::time::Instant;

use judge::timed::{self, Timed};
use kevdarosh::{Answer, LentTable, Mode};
use script::table::{AREA_BYTES, FENCED, GUARDED};

use crate::inputs::{NODES, RECORDS};
use crate::port::Port;

const ROUNDS: usize = 400;

/// The sides of a row, but for those of a grid.
const BOTH: &str = "Rust ns | port ns";

const OWNED: Aim = Aim::Owned;
/// What a call of an owned table may take, in times of the original's.
const OWNED_MOST: f64 = 0.75;

const NOW: u64 = 1_000;
const GRACE: u64 = 50;
const TIES: [u64; NODES as usize] = [0; NODES as usize];

/// What the port may take at most.
enum Aim {
    /// So many times the other side's time.
    Times(f64),
    /// `OWNED_MOST` times the original's: a row of the owned table.
    Owned,
    /// Nodes that come and go in an owned table: the same aim, in a table of their own (DECISIONS 130).
    Nodes,
    /// A call on a grid, beside one of the port without it: no aim, in a table of its own.
    Grid,
    /// No aim: shown beside the others.
    None,
}

struct Row {
    name: &'static str,
    aim: Aim,
    /// What the port stands beside, where that is not the same call of the Rust.
    beside: &'static str,
    rust: f64,
    port: f64,
}

fn median(times: &mut [f64]) -> f64 {
    times.sort_by(f64::total_cmp);
    times[times.len() / 2]
}

/// Nanoseconds a call, of so many calls.
fn time(calls: usize, batch: impl FnOnce()) -> f64 {
    let start = Instant::now();
    batch();
    start.elapsed().as_nanos() as f64 / calls as f64
}

/// Nanoseconds a call, of the same call so many times.
fn repeat(calls: usize, mut call: impl FnMut()) -> f64 {
    time(calls, || (0..calls).for_each(|_| call()))
}

/// Nanoseconds a call, of one for each key.
fn over(keys: &[Asked], call: impl FnMut(&Asked)) -> f64 {
    time(keys.len(), || keys.iter().for_each(call))
}

/// The medians of batches that take turns, each round in the other direction.
fn by_turns<const SIDES: usize>(batches: [&mut dyn FnMut() -> f64; SIDES]) -> [f64; SIDES] {
    let mut times: [Vec<f64>; SIDES] = std::array::from_fn(|_| Vec::new());
    for round in 0..ROUNDS {
        for step in 0..SIDES {
            let side = if round % 2 == 0 { step } else { SIDES - 1 - step };
            times[side].push((batches[side])());
        }
    }
    times.map(|mut times| median(&mut times))
}

#[derive(Default)]
struct Rows(Vec<Row>);

impl Rows {
    fn measure(
        &mut self,
        name: &'static str,
        beside: &'static str,
        aim: Aim,
        mut rust: impl FnMut() -> f64,
        mut port: impl FnMut() -> f64,
    ) {
        let [rust, port] = by_turns([&mut rust, &mut port]);
        self.0.push(Row { name, aim, beside, rust, port });
    }

    /// A call of an owned table where the Rust's batch does more than the call: `more` is a batch of that alone, and its time is taken off.
    fn measure_less(
        &mut self,
        name: &'static str,
        aim: Aim,
        mut rust: impl FnMut() -> f64,
        mut more: impl FnMut() -> f64,
        mut port: impl FnMut() -> f64,
    ) {
        let [rust, more, port] = by_turns([&mut rust, &mut more, &mut port]);
        self.0.push(Row { name, aim, beside: "", rust: rust - more, port });
    }

    /// The rows of one of the tables.
    fn print(&self, sides: &str, shown: fn(&Aim) -> bool) {
        println!("| call | {sides} | ratio | aim | |");
        println!("|---|---|---|---|---|---|");
        for Row { name, aim, beside, rust, port } in self.0.iter().filter(|row| shown(&row.aim)) {
            let ratio = port / rust;
            let verdict = |most: f64| (format!("{most}"), if ratio <= most { "met" } else { "MISSED" });
            let (aim, verdict) = match aim {
                Aim::Times(most) => verdict(*most),
                Aim::Owned | Aim::Nodes => verdict(OWNED_MOST),
                Aim::Grid | Aim::None => (String::new(), ""),
            };
            let digits = if ratio < 1.0 { 3 } else { 2 };
            println!("| {name}{beside} | {rust:.0} | {port:.0} | {ratio:.digits$} | {aim} | {verdict} |");
        }
    }
}

/// A key with its node on both sides, and values of two turns.
struct Asked {
    name: timed::Name,
    number: u64,
    key: String,
    values: [String; 2],
}

fn asked(records: &[usize]) -> Vec<Asked> {
    let ask = |(node, record)| Asked {
        name: timed::name(node),
        number: node,
        key: inputs::key(node, record),
        values: [0, 1].map(|turn| inputs::value(node, record, turn)),
    };
    inputs::each(records).into_iter().map(ask).collect()
}

/// Gets of all keys.
fn gets(original: &Timed, keys: &[Asked]) -> f64 {
    over(keys, |asked| {
        black_box(original.get(&asked.name, black_box(&asked.key)));
    })
}

fn check(rows: &mut Rows) {
    const CALLS: usize = 8;
    let keys = asked(&inputs::all());
    let original = Timed::of(&inputs::full());
    let tables = [
        ("the check, full table", inputs::full(), Aim::Times(40.0)),
        ("the check, half full", inputs::table(&inputs::half(), inputs::in_order), Aim::None),
        ("the check, empty table", inputs::empty(), Aim::Times(20.0)),
    ];
    for (name, table, aim) in tables {
        assert!(port::check(&table));
        rows.measure(
            name,
            " (beside the Rust's get)",
            aim,
            || gets(&original, &keys),
            || {
                repeat(CALLS, || {
                    black_box(port::check(black_box(&table)));
                })
            },
        );
    }
}

fn lookup(rows: &mut Rows) {
    let keys = asked(&inputs::all());
    let table = inputs::full();
    let original = Timed::of(&table);
    for asked in &keys {
        let value = original.get(&asked.name, &asked.key).expect("a key that is held").as_bytes();
        for owned in [false, true] {
            assert!(Port::of(&table, owned).holds(asked.number, &asked.key, value));
        }
    }
    for (name, owned, aim) in [("lookup", false, Aim::None), ("lookup, owned table", true, OWNED)] {
        let port = Port::of(&table, owned);
        rows.measure(
            name,
            "",
            aim,
            || gets(&original, &keys),
            || {
                over(&keys, |asked| {
                    black_box(black_box(&port).get(asked.number, black_box(&asked.key)));
                })
            },
        );
    }
}

/// Sets of all keys, with values of the turn.
fn sets(rows: &mut Rows, name: &'static str, owned: bool, aim: Aim, turns: usize) {
    let keys = asked(&inputs::all());
    let mut original = Timed::of(&inputs::full());
    let mut port = Port::of(&inputs::full(), owned);
    let (mut turn, mut other) = (0, 0);
    rows.measure(
        name,
        "",
        aim,
        || {
            turn = (turn + 1) % turns;
            over(&keys, |asked| {
                original.set(&asked.name, black_box(&asked.key), black_box(&asked.values[turn]));
            })
        },
        || {
            other = (other + 1) % turns;
            over(&keys, |asked| {
                let value = black_box(&asked.values[other]);
                black_box(port.set(asked.number, black_box(&asked.key), value));
            })
        },
    );
    assert_eq!(original.table(), port.bytes(), "{name}: the tables differ");
    assert_eq!(port.bytes() != inputs::full(), turns > 1, "{name}: whether anything changed");
}

/// Sets of keys that a half full table lacks, up to a full one.
fn new_keys(rows: &mut Rows, name: &'static str, owned: bool, aim: Aim) {
    let keys = asked(&inputs::others());
    let before = inputs::table(&inputs::half(), inputs::in_order);
    let (mut original, mut port) = (Timed::of(&before), Port::of(&before, owned));
    rows.measure(
        name,
        "",
        aim,
        || {
            original = Timed::of(&before);
            over(&keys, |asked| {
                original.set(&asked.name, black_box(&asked.key), black_box(&asked.values[0]));
            })
        },
        || {
            port = Port::of(&before, owned);
            over(&keys, |asked| {
                let value = black_box(&asked.values[0]);
                black_box(port.set(asked.number, black_box(&asked.key), value));
            })
        },
    );
    assert_eq!(original.table(), port.bytes(), "{name}: the tables differ");
    assert_eq!(usize::from(port.bytes()[1 + 32]), RECORDS, "{name}: all keys are held");
}

/// Deletes of all keys.
fn deletes(rows: &mut Rows, name: &'static str, owned: bool, aim: Aim) {
    let keys = asked(&inputs::all());
    let before = inputs::full();
    let (mut original, mut port) = (Timed::of(&before), Port::of(&before, owned));
    timed::clock(NOW);
    rows.measure(
        name,
        "",
        aim,
        || {
            original = Timed::of(&before);
            over(&keys, |asked| {
                original.delete(&asked.name, black_box(&asked.key));
            })
        },
        || {
            port = Port::of(&before, owned);
            over(&keys, |asked| {
                black_box(port.delete(asked.number, black_box(&asked.key), NOW));
            })
        },
    );
    assert_eq!(original.table(), port.bytes(), "{name}: the tables differ");
}

/// A removal that finds nothing to remove.
fn removal(rows: &mut Rows, name: &'static str, owned: bool, aim: Aim) {
    const CALLS: usize = 16;
    let mut original = Timed::of(&inputs::full());
    let mut port = Port::of(&inputs::full(), owned);
    timed::clock(NOW);
    rows.measure(
        name,
        "",
        aim,
        || {
            repeat(CALLS, || {
                original.remove(black_box(GRACE));
            })
        },
        || {
            repeat(CALLS, || {
                black_box(port.remove(NOW, black_box(GRACE)));
            })
        },
    );
    assert_eq!(original.table(), port.bytes(), "{name}: the tables differ");
    assert_eq!(port.bytes(), inputs::full(), "{name}: something was removed");
}

fn digests(rows: &mut Rows) {
    const CALLS: usize = 16;
    let table = inputs::full();
    let original = Timed::of(&table);
    let mut datagram = vec![0; 1_024];
    let size = Port::of(&table, false).write_digest(&mut datagram);
    let digest = datagram[..size].to_vec();
    let mut written = Vec::new();
    original.write_digest(&mut written);
    assert_eq!(timed::digest_01(&written), digest);
    for (name, owned, aim) in
        [("digest made and written", false, Aim::None), ("digest made and written, owned table", true, OWNED)]
    {
        let port = Port::of(&table, owned);
        rows.measure(
            name,
            "",
            aim,
            || {
                repeat(CALLS, || {
                    written.clear();
                    original.write_digest(black_box(&mut written));
                })
            },
            || {
                repeat(CALLS, || {
                    black_box(black_box(&port).write_digest(black_box(&mut datagram)));
                })
            },
        );
    }
    let bytes = timed::digest_bytes(&digest);
    assert_eq!(timed::read_digest(&bytes), port::read_digest(&digest));
    rows.measure(
        "digest read",
        "",
        Aim::Times(0.2),
        || {
            repeat(CALLS, || {
                black_box(timed::read_digest(black_box(&bytes)));
            })
        },
        || {
            repeat(CALLS, || {
                black_box(port::read_digest(black_box(&digest)));
            })
        },
    );
    // The original's reading makes a map of the entries; the port's gives them one by one, so that they are asked for here.
    assert_eq!(port::sum_digest(&digest), (0..NODES).map(|node| node + (1 + node) + RECORDS as u64).sum::<u64>());
    rows.measure(
        "digest read, its entries gone through, owned table",
        " (the Rust reads alone)",
        OWNED,
        || {
            repeat(CALLS, || {
                black_box(timed::read_digest(black_box(&bytes)));
            })
        },
        || {
            repeat(CALLS, || {
                black_box(port::sum_digest(black_box(&digest)));
            })
        },
    );
}

const NO_DIGEST: [u8; 2] = [0, 0];

/// The delta of a table for an empty digest, by the port. The original must make the same.
fn delta_of(table: &[u8]) -> (Vec<u8>, usize) {
    let mut datagram = vec![0; 16_384];
    let size = Port::of(table, false).compute(&NO_DIGEST, &TIES, &mut datagram);
    datagram.truncate(size);
    let nodes = timed::read_delta(&timed::delta_bytes(&datagram));
    let mut stream = Vec::new();
    Timed::of(table).compute(&timed::digest_held(&NO_DIGEST), timed::mtu(nodes), &mut stream);
    assert_eq!(timed::delta_01(&stream), datagram);
    (datagram, nodes)
}

fn delta_read(rows: &mut Rows) {
    const CALLS: usize = 4;
    let (delta, _) = delta_of(&inputs::full());
    let stream = timed::delta_bytes(&delta);
    assert_eq!(timed::operations(&stream), port::read_delta(&delta));
    rows.measure(
        "delta of 16,384 bytes read",
        "",
        Aim::Times(0.1),
        || {
            repeat(CALLS, || {
                black_box(timed::read_delta(black_box(&stream)));
            })
        },
        || {
            repeat(CALLS, || {
                black_box(port::read_delta(black_box(&delta)));
            })
        },
    );
}

/// Computes and writes under an MTU of 16,384 bytes.
fn computing(rows: &mut Rows, name: &'static str, table: &[u8], owned: bool, aim: Aim) {
    const CALLS: usize = 4;
    let (delta, nodes) = delta_of(table);
    assert!(delta.len() > 16_384 - 111, "{name}: the delta is full");
    let original = Timed::of(table);
    let digest = timed::digest_held(&NO_DIGEST);
    let mtu = timed::mtu(nodes);
    let mut stream = Vec::new();
    let mut datagram = vec![0; 16_384];
    let port = Port::of(table, owned);
    rows.measure(
        name,
        "",
        aim,
        || {
            repeat(CALLS, || {
                stream.clear();
                original.compute(black_box(&digest), mtu, black_box(&mut stream));
            })
        },
        || {
            repeat(CALLS, || {
                let datagram = black_box(&mut datagram);
                black_box(black_box(&port).compute(&NO_DIGEST, &TIES, datagram));
            })
        },
    );
    assert_eq!(&datagram[..delta.len()], delta);
}

/// The plan that names what a delta sends: each node with how many records. A Node that stands alone at the end, since its first record did not fit, is left out.
fn plan_of(delta: &[u8]) -> (Vec<u64>, Vec<u64>) {
    const NODE: usize = 25;
    let (mut nodes, mut counts, mut at) = (Vec::new(), Vec::new(), 0);
    while at < delta.len() {
        match delta[at] {
            0 => {
                nodes.push(u64::from_le_bytes(delta[at + 1..at + 9].try_into().unwrap()));
                counts.push(0);
                at += NODE;
            }
            1 => {
                let size = |at: usize| usize::from(u16::from_le_bytes([delta[at], delta[at + 1]]));
                *counts.last_mut().unwrap() += 1;
                let key = size(at + 1);
                at += 1 + 2 + key + 2 + size(at + 3 + key) + 9;
            }
            _ => at += 9,
        }
    }
    if delta.len() >= NODE && counts.last() == Some(&0) && delta[delta.len() - NODE] == 0 {
        nodes.pop();
        counts.pop();
    }
    (nodes, counts)
}

/// A plan that names what document 01 would send, beside computing it.
fn planning(rows: &mut Rows, name: &'static str, table: &[u8]) {
    const CALLS: usize = 4;
    let (delta, _) = delta_of(table);
    let (nodes, counts) = plan_of(&delta);
    let port = Port::of(table, true);
    let (mut computed, mut planned) = (vec![0; 16_384], vec![0; 16_384]);
    let size = port.plan(&NO_DIGEST, &nodes, &counts, &mut planned);
    assert!(size > 16_384 - 136 && planned[..size] == delta[..size], "{name}: the plan sends what is computed");
    rows.measure(
        name,
        " (beside computing it)",
        Aim::Times(1.0),
        || {
            repeat(CALLS, || {
                black_box(black_box(&port).compute(&NO_DIGEST, &TIES, black_box(&mut computed)));
            })
        },
        || {
            repeat(CALLS, || {
                black_box(black_box(&port).plan(&NO_DIGEST, black_box(&nodes), black_box(&counts), black_box(&mut planned)));
            })
        },
    );
}

/// Computes for a peer that has all. The port reads the digest's bytes, the original has read them before.
fn nothing_stale(rows: &mut Rows) {
    const CALLS: usize = 16;
    let table = inputs::full();
    let mut datagram = vec![0; 16_384];
    let ports = [false, true].map(|owned| Port::of(&table, owned));
    let size = ports[0].write_digest(&mut datagram);
    let bytes = datagram[..size].to_vec();
    let original = Timed::of(&table);
    let digest = timed::digest_held(&bytes);
    let mut stream = Vec::new();
    original.compute(&digest, timed::mtu(0), &mut stream);
    assert_eq!(timed::read_delta(&stream), 0);
    let mut compute = |owned: bool| {
        let port = &ports[usize::from(owned)];
        repeat(CALLS, || {
            black_box(black_box(port).compute(black_box(&bytes), &TIES, black_box(&mut datagram)));
        })
    };
    let rust = || {
        repeat(CALLS, || {
            stream.clear();
            original.compute(black_box(&digest), timed::mtu(0), black_box(&mut stream));
        })
    };
    let check = || {
        repeat(CALLS, || {
            black_box(port::check(black_box(&table)));
        })
    };
    rows.measure("compute, nothing stale", " (beside the port's check)", Aim::Times(1.1), check, || compute(false));
    rows.measure("compute, nothing stale, owned table", "", OWNED, rust, || compute(true));
    assert_eq!(ports[0].compute(&bytes, &TIES, &mut datagram), 0);
}

/// Reads a delta of 16,384 bytes and applies it to a table, which is made anew for each batch.
fn applying(rows: &mut Rows, name: &'static str, before: &[u8], delta: &[u8], answer: Answer, owned: bool, aim: Aim) {
    const CALLS: usize = 4;
    let stream = timed::delta_bytes(delta);
    timed::clock(NOW);
    let mut originals: Vec<Timed> = Vec::new();
    let mut ports: Vec<Port> = Vec::new();
    let mut same = true;
    rows.measure(
        name,
        "",
        aim,
        || {
            originals = (0..CALLS).map(|_| Timed::of(before)).collect();
            time(CALLS, || {
                for original in &mut originals {
                    black_box(original.apply(black_box(&stream)));
                }
            })
        },
        || {
            ports = (0..CALLS).map(|_| Port::of(before, owned)).collect();
            time(CALLS, || {
                for port in &mut ports {
                    same &= port.apply(black_box(delta), NOW, answer);
                }
            })
        },
    );
    for (original, port) in originals.iter().zip(&ports) {
        assert_eq!(original.table(), port.bytes(), "{name}: the tables differ");
    }
    assert!(same, "{name}: other answers");
}

const REJECT: Answer = Answer::Reject;
const APPLY: Answer = Answer::Apply;

fn deepest_compute(table: &[u8]) -> usize {
    let mut datagram = vec![0; 16_384];
    let port = Port::of(table, false);
    stack::deepest(|| {
        black_box(port.compute(&NO_DIGEST, &TIES, &mut datagram));
    })
}

fn deepest_apply(before: &[u8], delta: &[u8]) -> usize {
    let mut port = Port::of(before, false);
    let deepest = stack::deepest(|| {
        black_box(port.apply(delta, NOW, APPLY));
    });
    assert_ne!(port.bytes(), before, "the delta was not applied");
    deepest
}

/// An empty table is made in memory that is there.
fn made(rows: &mut Rows) {
    let mut bytes = inputs::full();
    rows.measure(
        "an empty table made",
        "",
        Aim::None,
        || repeat(64, || assert_eq!(black_box(timed::make()), 0)),
        || repeat(64, || assert!(black_box(LentTable::new_in(black_box(&mut bytes), Mode::Plain).is_ok()))),
    );
}

fn main() {
    let full = inputs::full();
    let scattered = inputs::table(&inputs::all(), inputs::scattered);
    let fresh = inputs::table(&[], inputs::in_order);
    let mut rows = Rows::default();
    made(&mut rows);
    check(&mut rows);
    lookup(&mut rows);
    sets(&mut rows, "set, changed", false, Aim::None, 2);
    sets(&mut rows, "set, changed, owned table", true, OWNED, 2);
    sets(&mut rows, "set, same", false, Aim::None, 1);
    sets(&mut rows, "set, same, owned table", true, OWNED, 1);
    new_keys(&mut rows, "set, new key", false, Aim::None);
    new_keys(&mut rows, "set, new key, owned table", true, OWNED);
    deletes(&mut rows, "delete", false, Aim::None);
    deletes(&mut rows, "delete, owned table", true, OWNED);
    removal(&mut rows, "removal, nothing to remove", false, Aim::None);
    removal(&mut rows, "removal, nothing to remove, owned table", true, OWNED);
    local::removing(&mut rows);
    local::rows(&mut rows);
    digests(&mut rows);
    delta_read(&mut rows);
    computing(&mut rows, "compute 16,384 bytes", &full, false, Aim::Times(0.2));
    computing(&mut rows, "compute 16,384 bytes, owned table", &full, true, OWNED);
    computing(&mut rows, "compute 16,384 bytes, versions scattered", &scattered, false, Aim::None);
    computing(&mut rows, "compute 16,384 bytes, versions scattered, owned table", &scattered, true, OWNED);
    planning(&mut rows, "a plan of 16,384 bytes, owned table", &full);
    planning(&mut rows, "a plan of 16,384 bytes, versions scattered, owned table", &scattered);
    nothing_stale(&mut rows);
    let (delta, _) = delta_of(&full);
    applying(&mut rows, "apply 16,384 bytes to a fresh table", &fresh, &delta, APPLY, false, Aim::Times(0.2));
    applying(&mut rows, "apply 16,384 bytes to a fresh table, owned table", &fresh, &delta, APPLY, true, OWNED);
    let [fenced, guarded] = [FENCED, GUARDED].map(|mode| {
        let mut table = fresh.clone();
        table[AREA_BYTES] = mode;
        table
    });
    applying(&mut rows, "apply 16,384 bytes to a fresh table, fenced", &fenced, &delta, APPLY, false, Aim::Times(0.2));
    applying(
        &mut rows,
        "apply 16,384 bytes to a fresh table, guarded, owned table",
        &guarded,
        &delta,
        APPLY,
        true,
        OWNED,
    );
    applying(&mut rows, "apply 16,384 bytes, all rejected", &full, &delta, REJECT, false, Aim::Times(0.2));
    applying(&mut rows, "apply 16,384 bytes, all rejected, owned table", &full, &delta, REJECT, true, OWNED);
    let (mixed, _) = delta_of(&scattered);
    applying(
        &mut rows,
        "apply 16,384 bytes to a fresh table, versions scattered",
        &fresh,
        &mixed,
        APPLY,
        false,
        Aim::None,
    );
    applying(
        &mut rows,
        "apply 16,384 bytes to a fresh table, versions scattered, owned table",
        &fresh,
        &mixed,
        APPLY,
        true,
        OWNED,
    );
    let half = inputs::table(&inputs::half(), inputs::in_order);
    let (newer, _) = delta_of(&inputs::table(&inputs::all(), |record| 100 + inputs::in_order(record)));
    applying(&mut rows, "apply 16,384 bytes to a half full table", &half, &newer, APPLY, false, Aim::None);
    applying(&mut rows, "apply 16,384 bytes to a half full table, owned table", &half, &newer, APPLY, true, OWNED);
    grid::rows(&mut rows);
    meter::rows(&mut rows);
    shared::rows(&mut rows);
    println!("An owned table:\n");
    rows.print(BOTH, |aim| matches!(aim, Aim::Owned));
    println!("\nNodes that come and go in an owned table:\n");
    rows.print(BOTH, |aim| matches!(aim, Aim::Nodes));
    println!("\nA lent table, and calls without a table:\n");
    rows.print(BOTH, |aim| matches!(aim, Aim::Times(_) | Aim::None));
    println!("\nCalls on a grid, beside the port's own without it:\n");
    rows.print("without, ns | with a grid, ns", |aim| matches!(aim, Aim::Grid));

    let (reset, _) = delta_of(&inputs::with_last_gc(&full, 200));
    let computing = [&full, &scattered].map(|table| deepest_compute(table));
    let applying = [(&fresh, &delta), (&fresh, &mixed), (&half, &newer), (&half, &reset)]
        .map(|(before, delta)| deepest_apply(before, delta));
    println!();
    println!(
        "Deepest stack: compute {} bytes, apply {} bytes (aim: 8,192).",
        computing.iter().max().unwrap(),
        applying.iter().max().unwrap()
    );
}
