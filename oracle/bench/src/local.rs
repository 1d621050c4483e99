//! The calls of an owned table that make, change or read one node, and the removal that removes something.
//!
//! For those that change a node `Timed` has no call of the original, but `Raw` has. It makes the node's name in each call, which a caller of the original has
//! anyway: so a third side makes names and does no more, by turns with the other two, and its time is taken off the Rust's. `Raw` changes node 1 alone.

use std::hint::black_box;

use judge::raw::Raw;
use judge::timed::{self, Timed};
use kevdarosh::{Mode, OwnedTable, Record, Status, TableView, Wanted};
use script::table::AREA_BYTES;

use crate::inputs::{self, NODES, RECORDS};
use crate::port::Port;
use crate::{Aim, Asked, GRACE, NOW, OWNED, Rows, asked, over, repeat, time};

const NODE: u64 = 1;
const CALLS: usize = 256;
/// How often a batch goes over the node's 32 keys, or 16 removed nodes.
const PASSES: usize = 8;

pub(crate) fn rows(rows: &mut Rows) {
    set_with_ttl(rows);
    delete_after_ttl(rows);
    heartbeats(rows);
    come_and_go(rows, "fresh node removed and added, the last of eight", NODES - 1, both());
    come_and_go(rows, "fresh node removed and added, the first of eight, the second full", 0, both());
    come_and_go_in_turn(rows);
    remove_full(rows);
    among_full(rows);
    remembered(rows);
    versioned(rows);
    readings(rows);
}

/// The original and an owned table, with 8 nodes, of which node 1 has 32 records.
fn both() -> (Raw, Box<OwnedTable>) {
    timed::clock(NOW);
    let mut raw = Raw::new();
    let mut table = Box::new(OwnedTable::new(Mode::Plain));
    for node in 0..NODES {
        raw.add(node);
        table.add_node(node).expect("room for a node");
    }
    for record in inputs::all() {
        let (key, value) = (inputs::key(NODE, record), inputs::value(NODE, record, 0));
        raw.set(&key, &value);
        table.write(NODE, key.as_bytes(), value.as_bytes(), Wanted::Set).expect("room for a record");
    }
    (raw, table)
}

/// Node 1 must be the same on both sides: its numbers, and key, value, version and status of each record. What is scheduled began at `NOW`.
fn same(name: &str, raw: &mut Raw, table: &OwnedTable) {
    let node = table.node_state(NODE).expect("node 1");
    assert_eq!(raw.numbers(), (node.heartbeat(), node.last_gc_version(), node.max_version()), "{name}");
    let text = |bytes: &[u8]| String::from_utf8(bytes.to_vec()).expect("digits and letters");
    let told = |record: Record<'_>| {
        let (status, start) = match record.status {
            Status::Set => (0, 0),
            Status::Deleted => (1, NOW),
            Status::DeleteAfterTtl => (2, NOW),
        };
        assert_eq!(record.start, start, "{name}");
        (text(record.key), text(record.value), record.version, status)
    };
    let records: Vec<(String, String, u64, u8)> = node.key_values_including_deleted().map(told).collect();
    assert_eq!(raw.records(), records, "{name}");
}

/// The keys of node 1, in an order without a pattern.
fn keys() -> Vec<Asked> {
    asked(&inputs::all()).into_iter().filter(|asked| asked.number == NODE).collect()
}

/// Nanoseconds a name, made as `Raw` does.
fn name_made() -> f64 {
    repeat(CALLS, || {
        black_box(timed::name(black_box(NODE)));
    })
}

/// Sets with TTL of all keys, with values of two turns.
fn set_with_ttl(rows: &mut Rows) {
    const NAME: &str = "set with TTL, changed, owned table";
    let keys = keys();
    let (mut raw, mut table) = both();
    rows.measure_less(
        NAME,
        OWNED,
        || {
            time(PASSES * keys.len(), || {
                for pass in 0..PASSES {
                    for asked in &keys {
                        raw.set_with_ttl(black_box(&asked.key), black_box(&asked.values[pass % 2]));
                    }
                }
            })
        },
        name_made,
        || {
            time(PASSES * keys.len(), || {
                for pass in 0..PASSES {
                    for asked in &keys {
                        let (key, value) =
                            (black_box(asked.key.as_bytes()), black_box(asked.values[pass % 2].as_bytes()));
                        black_box(table.write(NODE, key, value, Wanted::Ttl(NOW)).is_ok());
                    }
                }
            })
        },
    );
    same(NAME, &mut raw, &table);
}

/// Deletes after TTL of all keys. One that is scheduled already takes a new version each time, as the first did.
fn delete_after_ttl(rows: &mut Rows) {
    const NAME: &str = "delete after TTL, owned table";
    let keys = keys();
    let (mut raw, mut table) = both();
    rows.measure_less(
        NAME,
        OWNED,
        || {
            time(PASSES * keys.len(), || {
                for asked in (0..PASSES).flat_map(|_| &keys) {
                    raw.delete_after_ttl(black_box(&asked.key));
                }
            })
        },
        name_made,
        || {
            time(PASSES * keys.len(), || {
                for asked in (0..PASSES).flat_map(|_| &keys) {
                    black_box(table.delete_after_ttl(NODE, black_box(asked.key.as_bytes()), NOW).is_ok());
                }
            })
        },
    );
    same(NAME, &mut raw, &table);
}

/// Local heartbeats, then offered ones: each greater than the one before, and one that is no news.
fn heartbeats(rows: &mut Rows) {
    let (mut raw, mut table) = both();
    rows.measure_less(
        "local heartbeat, owned table",
        OWNED,
        || repeat(CALLS, || black_box(&mut raw).beat()),
        name_made,
        || {
            repeat(CALLS, || {
                black_box(black_box(&mut table).inc_heartbeat(black_box(NODE)).is_ok());
            })
        },
    );
    same("local heartbeat", &mut raw, &table);

    let (first, _, _) = raw.numbers();
    let (mut told, mut heard) = (first, first);
    let mut all_news = true;
    let mut all_heard = true;
    rows.measure_less(
        "offered heartbeat, news, owned table",
        OWNED,
        || {
            repeat(CALLS, || {
                told += 1;
                all_news &= raw.offer(black_box(told));
            })
        },
        name_made,
        || {
            repeat(CALLS, || {
                heard += 1;
                all_heard &= table.try_set_heartbeat(black_box(NODE), black_box(heard)) == Ok(true);
            })
        },
    );
    assert!(all_news && all_heard, "an offered heartbeat was no news");
    same("offered heartbeat, news", &mut raw, &table);

    let (mut any_news, mut any_heard) = (false, false);
    rows.measure_less(
        "offered heartbeat, no news, owned table",
        OWNED,
        || repeat(CALLS, || any_news |= raw.offer(black_box(first))),
        name_made,
        || repeat(CALLS, || any_heard |= table.try_set_heartbeat(black_box(NODE), black_box(first)) != Ok(false)),
    );
    assert!(!any_news && !any_heard, "an old heartbeat was news");
    same("offered heartbeat, no news", &mut raw, &table);
}

/// The nodes, and what is remembered of this one, must be the same on both sides.
fn same_nodes(name: &str, raw: &Raw, table: &OwnedTable, node: u64) {
    assert_eq!(raw.nodes(), table.nodes().map_or(0, Iterator::count), "{name}");
    assert_eq!(Ok(raw.remembered(node)), table.last_heartbeat_if_deleted(node), "{name}");
}

/// A fresh node is removed and added again; the time is that of both calls.
fn come_and_go(rows: &mut Rows, name: &'static str, node: u64, (mut raw, mut table): (Raw, Box<OwnedTable>)) {
    const PAIRS: usize = 64;
    raw.remove(node);
    table.remove_node(node).expect("a node that is held");
    same_nodes(name, &raw, &table, node);
    raw.add(node);
    table.add_node(node).expect("room for a node");
    rows.measure_less(
        name,
        Aim::Nodes,
        || {
            repeat(PAIRS, || {
                raw.remove(black_box(node));
                raw.add(black_box(node));
            })
        },
        || 2.0 * name_made(),
        || {
            repeat(PAIRS, || {
                black_box(table.remove_node(black_box(node)).is_ok());
                black_box(table.add_node(black_box(node)).is_ok());
            })
        },
    );
    same(name, &mut raw, &table);
    same_nodes(name, &raw, &table, node);
}

/// The eight nodes, in an order without a pattern.
const IN_TURN: [u64; NODES as usize] = [3, 0, 6, 1, 5, 7, 2, 4];

/// Each of the seven fresh nodes is removed and added again; the time is that of both calls.
fn come_and_go_in_turn(rows: &mut Rows) {
    const NAME: &str = "fresh node removed and added, each of seven in turn, the second of eight full";
    let nodes: Vec<u64> = IN_TURN.into_iter().filter(|&node| node != NODE).collect();
    let (mut raw, mut table) = both();
    rows.measure_less(
        NAME,
        Aim::Nodes,
        || {
            time(PASSES * nodes.len(), || {
                for &node in (0..PASSES).flat_map(|_| &nodes) {
                    raw.remove(black_box(node));
                    raw.add(black_box(node));
                }
            })
        },
        || 2.0 * name_made(),
        || {
            time(PASSES * nodes.len(), || {
                for &node in (0..PASSES).flat_map(|_| &nodes) {
                    black_box(table.remove_node(black_box(node)).is_ok());
                    black_box(table.add_node(black_box(node)).is_ok());
                }
            })
        },
    );
    same(NAME, &mut raw, &table);
    same_nodes(NAME, &raw, &table, 0);
}

/// A table of eight full nodes for each of its nodes, and that node: the original's, and owned ones.
fn rusts_full() -> Vec<(Timed, timed::Name)> {
    let full = inputs::full();
    IN_TURN.iter().map(|&node| (Timed::of(&full), timed::name(node))).collect()
}

fn ports_full() -> Vec<(Box<OwnedTable>, u64)> {
    let full = inputs::full();
    IN_TURN.iter().map(|&node| (Box::new(OwnedTable::from_bytes(&full).expect("a good table")), node)).collect()
}

/// Each node of a full table is removed, a fresh one is added among seven that are full, and both. The tables are made anew for each batch.
fn among_full(rows: &mut Rows) {
    for (name, timed_from, timed_to) in [
        ("node with 32 records removed, all eight full, each in turn", 0, 1),
        ("node with 32 records removed and a fresh one added, all eight full, each in turn", 0, 2),
        ("fresh node added among seven full ones, each place in turn", 1, 2),
    ] {
        let (mut rusts, mut ports) = (Vec::new(), Vec::new());
        rows.measure_less(
            name,
            Aim::Nodes,
            || {
                rusts = rusts_full();
                let mut step = |step| {
                    for (rust, node) in &mut rusts {
                        if step == 0 { rust.remove_node(black_box(node)) } else { rust.add_node(black_box(node)) }
                    }
                };
                (0..timed_from).for_each(&mut step);
                time(IN_TURN.len(), || (timed_from..timed_to).for_each(&mut step))
            },
            || 0.0,
            || {
                ports = ports_full();
                let mut step = |step| {
                    for (port, node) in &mut ports {
                        let node = black_box(*node);
                        black_box(if step == 0 { port.remove_node(node) } else { port.add_node(node) }.is_ok());
                    }
                };
                (0..timed_from).for_each(&mut step);
                time(IN_TURN.len(), || (timed_from..timed_to).for_each(&mut step))
            },
        );
        for ((rust, named), (port, node)) in rusts.iter().zip(&ports) {
            assert!(rust.table()[..AREA_BYTES] == port.as_bytes()[..AREA_BYTES], "{name}");
            if timed_to == 1 {
                assert_eq!(Ok(rust.last_heartbeat(named)), port.last_heartbeat_if_deleted(*node), "{name}");
            }
        }
    }
}

/// Node 1 with its 32 records is removed; the tables are made anew for each batch.
fn remove_full(rows: &mut Rows) {
    const NAME: &str = "node with 32 records removed, the second of eight";
    const TABLES: usize = 4;
    let mut raws: Vec<Raw> = Vec::new();
    let mut tables: Vec<Box<OwnedTable>> = Vec::new();
    rows.measure_less(
        NAME,
        Aim::Nodes,
        || {
            raws = (0..TABLES).map(|_| both().0).collect();
            time(TABLES, || raws.iter_mut().for_each(|raw| raw.remove(black_box(NODE))))
        },
        name_made,
        || {
            tables = (0..TABLES).map(|_| both().1).collect();
            time(TABLES, || {
                for table in &mut tables {
                    black_box(table.remove_node(black_box(NODE)).is_ok());
                }
            })
        },
    );
    for (raw, table) in raws.iter().zip(&tables) {
        assert_eq!(raw.nodes(), NODES as usize - 1, "{NAME}");
        same_nodes(NAME, raw, table, NODE);
    }
}

/// The last heartbeats of 16 removed nodes, the most that a table remembers.
fn remembered(rows: &mut Rows) {
    const NAME: &str = "last heartbeat of a removed node, owned table";
    let (_, mut table) = both();
    let numbers: Vec<u64> = (0..16).map(|i| if i == 0 { NODES - 1 } else { 100 + i * 7 % 16 }).collect();
    for &node in &numbers {
        table.add_node(node).expect("room for a node");
        table.try_set_heartbeat(node, 1_000 + node).expect("a node that is held");
        table.remove_node(node).expect("a node that is held");
    }
    let original = Timed::of(table.as_bytes());
    let asked: Vec<(u64, timed::Name)> = numbers.iter().map(|&node| (node, timed::name(node))).collect();
    for (node, name) in &asked {
        let told = original.last_heartbeat(name);
        assert!(told.is_some() && table.last_heartbeat_if_deleted(*node) == Ok(told), "{NAME}");
    }
    rows.measure(
        NAME,
        "",
        OWNED,
        || {
            time(PASSES * asked.len(), || {
                for (_, name) in (0..PASSES).flat_map(|_| &asked) {
                    black_box(black_box(&original).last_heartbeat(black_box(name)));
                }
            })
        },
        || {
            time(PASSES * asked.len(), || {
                for (node, _) in (0..PASSES).flat_map(|_| &asked) {
                    black_box(black_box(&table).last_heartbeat_if_deleted(black_box(*node)).ok());
                }
            })
        },
    );
}

/// Removal of every second record of all nodes, tombstones whose grace is over. The tables are made anew for each batch.
pub(crate) fn removing(rows: &mut Rows) {
    const NAME: &str = "removal of every second record, owned table";
    const TABLES: usize = 4;
    let mut before = Port::of(&inputs::full(), true);
    for asked in &asked(&inputs::others()) {
        assert!(before.delete(asked.number, &asked.key, NOW - GRACE));
    }
    timed::clock(NOW);
    let mut originals: Vec<Timed> = Vec::new();
    let mut ports: Vec<Port> = Vec::new();
    rows.measure(
        NAME,
        "",
        OWNED,
        || {
            originals = (0..TABLES).map(|_| Timed::of(before.bytes())).collect();
            time(TABLES, || originals.iter_mut().for_each(|original| original.remove(black_box(GRACE))))
        },
        || {
            ports = (0..TABLES).map(|_| Port::of(before.bytes(), true)).collect();
            time(TABLES, || {
                for port in &mut ports {
                    black_box(port.remove(NOW, black_box(GRACE)));
                }
            })
        },
    );
    for (original, port) in originals.iter().zip(&ports) {
        assert_eq!(original.table(), port.bytes(), "{NAME}: the tables differ");
        assert_eq!(usize::from(port.bytes()[1 + 32]), RECORDS / 2, "{NAME}: what is left");
    }
}

/// The record of a key with its version, whether it is deleted or not.
fn record<'a>(table: &'a OwnedTable, node: u64, key: &[u8]) -> Option<Record<'a>> {
    table.node_state(node).ok()?.get_versioned(key).ok()?
}

/// `get_versioned` of all keys.
fn versioned(rows: &mut Rows) {
    let keys = asked(&inputs::all());
    let original = Timed::of(&inputs::full());
    let table = Box::new(OwnedTable::from_bytes(&inputs::full()).expect("a good table"));
    for asked in &keys {
        let told = original.get_versioned(&asked.name, &asked.key).map(|held| (held.value.as_bytes(), held.version));
        let record = record(&table, asked.number, asked.key.as_bytes());
        assert!(told.is_some() && record.map(|record| (record.value, record.version)) == told, "{}", asked.key);
    }
    rows.measure(
        "record of a key, owned table",
        "",
        OWNED,
        || {
            over(&keys, |asked| {
                black_box(black_box(&original).get_versioned(&asked.name, black_box(&asked.key)));
            })
        },
        || {
            over(&keys, |asked| {
                black_box(record(black_box(&table), asked.number, black_box(asked.key.as_bytes())));
            })
        },
    );
}

type Texts<'a> = (&'a [u8], &'a [u8]);

/// How many records, and the bytes of their keys and values.
fn sum<'a>(records: impl Iterator<Item = Texts<'a>>) -> (usize, usize) {
    records.fold((0, 0), |(count, bytes), (key, value)| (count + 1, bytes + key.len() + value.len()))
}

/// The keys and values of a node, on either side.
fn all_original<'a>(original: &'a Timed, name: &'a timed::Name) -> impl Iterator<Item = Texts<'a>> {
    original.key_values(name).into_iter().flatten().map(|(key, value)| (key.as_bytes(), value.as_bytes()))
}

fn all_port(table: &OwnedTable) -> (usize, usize) {
    table.node_state(NODE).map_or((0, 0), |node| sum(node.key_values()))
}

fn all_lent(table: &TableView<'_>) -> (usize, usize) {
    table.node_state(NODE).map_or((0, 0), |node| sum(node.key_values()))
}

/// Those with a prefix.
fn prefixed_original<'a>(
    original: &'a Timed,
    name: &'a timed::Name,
    prefix: &'a str,
) -> impl Iterator<Item = Texts<'a>> {
    let hits = original.iter_prefix(name, prefix).into_iter().flatten();
    hits.map(|(key, held)| (key.as_bytes(), held.value.as_bytes()))
}

fn prefixed_port(table: &OwnedTable, prefix: &[u8]) -> (usize, usize) {
    let Ok(node) = table.node_state(NODE) else { return (0, 0) };
    node.iter_prefix(prefix).map_or((0, 0), |hits| sum(hits.map(|record| (record.key, record.value))))
}

/// All records of a node, and those of a prefix, with their keys and values.
/// What a call told is looked at, and no more.
fn drop_told<T>(told: T) {
    black_box(told);
}

/// Heartbeat, max and last_gc of a node, how many keys it has, and the nodes that are held.
fn small_readings(rows: &mut Rows, original: &Timed, table: &OwnedTable) {
    const TIMES: usize = 64;
    let names: Vec<(u64, timed::Name)> = IN_TURN.iter().map(|&node| (node, timed::name(node))).collect();
    let header = |node: u64| {
        let node = table.node_state(node).ok()?;
        Some((node.heartbeat(), node.max_version(), node.last_gc_version()))
    };
    let count = |node: u64| Some(table.node_state(node).ok()?.num_key_values());
    let nodes = || table.nodes().map_or(0, Iterator::sum::<u64>);
    for (node, name) in &names {
        assert!(header(*node).is_some() && header(*node) == original.header(name), "a node's header");
        assert_eq!(count(*node), original.num_key_values(name), "how many keys");
    }
    assert_eq!(nodes(), original.nodes(), "the nodes");
    let asked = asked(&inputs::all());
    let contains =
        |it: &Asked| table.node_state(it.number).and_then(|node| node.contains_key(it.key.as_bytes())) == Ok(true);
    assert!(asked.iter().all(|it| contains(it) && original.contains_key(&it.name, &it.key)), "a key of a node");
    rows.measure(
        "whether a node has a key, owned table",
        "",
        OWNED,
        || over(&asked, |it| drop_told(original.contains_key(black_box(&it.name), black_box(&it.key)))),
        || over(&asked, |it| drop_told(contains(black_box(it)))),
    );
    rows.measure(
        "heartbeat, max and last_gc of a node, owned table",
        "",
        OWNED,
        || {
            time(TIMES * names.len(), || {
                (0..TIMES).flat_map(|_| &names).for_each(|(_, name)| drop_told(original.header(black_box(name))))
            })
        },
        || {
            time(TIMES * names.len(), || {
                (0..TIMES).flat_map(|_| &names).for_each(|(node, _)| drop_told(header(black_box(*node))))
            })
        },
    );
    rows.measure(
        "how many keys a node has, owned table",
        "",
        OWNED,
        || {
            time(TIMES * names.len(), || {
                (0..TIMES)
                    .flat_map(|_| &names)
                    .for_each(|(_, name)| drop_told(original.num_key_values(black_box(name))))
            })
        },
        || {
            time(TIMES * names.len(), || {
                (0..TIMES).flat_map(|_| &names).for_each(|(node, _)| drop_told(count(black_box(*node))))
            })
        },
    );
    rows.measure(
        "the 8 nodes gone through, owned table",
        "",
        OWNED,
        || repeat(TIMES, || drop_told(black_box(original).nodes())),
        || repeat(TIMES, || drop_told(nodes())),
    );
}

fn readings(rows: &mut Rows) {
    const TIMES: usize = 16;
    let original = Timed::of(&inputs::full());
    let name = timed::name(NODE);
    let table = Box::new(OwnedTable::from_bytes(&inputs::full()).expect("a good table"));
    let node = table.node_state(NODE).expect("node 1");
    assert!(node.key_values().eq(all_original(&original, &name)), "what a node holds");
    assert_eq!(all_port(&table).0, RECORDS);
    rows.measure(
        "32 records of a node gone through, owned table",
        "",
        OWNED,
        || {
            repeat(TIMES, || {
                black_box(sum(all_original(black_box(&original), black_box(&name))));
            })
        },
        || {
            repeat(TIMES, || {
                black_box(all_port(black_box(&table)));
            })
        },
    );
    let lent = TableView::over(table.as_bytes());
    assert_eq!(all_lent(&lent), all_port(&table));
    rows.measure(
        "32 records of a node gone through",
        "",
        Aim::None,
        || {
            repeat(TIMES, || {
                black_box(sum(all_original(black_box(&original), black_box(&name))));
            })
        },
        || {
            repeat(TIMES, || {
                black_box(all_lent(black_box(&lent)));
            })
        },
    );
    small_readings(rows, &original, &table);
    let prefixes = [
        ("prefix listing, 32 hits gone through, owned table", "key-01-", RECORDS),
        ("prefix listing, 2 hits gone through, owned table", "key-01-3", 2),
    ];
    for (name_of_row, prefix, count) in prefixes {
        let hits =
            node.iter_prefix(prefix.as_bytes()).expect("a short prefix").map(|record| (record.key, record.value));
        assert!(hits.eq(prefixed_original(&original, &name, prefix)), "{name_of_row}");
        assert_eq!(prefixed_port(&table, prefix.as_bytes()).0, count, "{name_of_row}");
        rows.measure(
            name_of_row,
            "",
            OWNED,
            || {
                repeat(TIMES, || {
                    black_box(sum(prefixed_original(black_box(&original), black_box(&name), black_box(prefix))));
                })
            },
            || {
                repeat(TIMES, || {
                    black_box(prefixed_port(black_box(&table), black_box(prefix.as_bytes())));
                })
            },
        );
    }
}
