//! Short scripts, all of a kind.

use script::grid;
use script::hex;
use script::table::{self, Node, RECORDS, Record, SET};

use crate::damage::texts_are_utf8;
use crate::pieces::{Op, delta, digest};
use crate::readings;

const SWEEPS: [(&str, fn() -> Vec<String>); 31] = [
    ("bench", bench),
    ("writes", writes),
    ("wanted", wanted),
    ("verdicts", verdicts),
    ("fence", fence),
    ("taking", taking),
    ("room", room),
    ("from", from),
    ("late", late),
    ("cuts", cuts),
    ("brim", brim),
    ("plans", plans),
    ("plan-numbers", plan_numbers),
    ("plan-cuts", plan_cuts),
    ("plan-brim", plan_brim),
    ("grid-columns", grid_columns),
    ("grid-numbers", grid_numbers),
    ("grid-bytes", grid_bytes),
    ("careful", careful),
    ("exchanges", exchanges),
    ("damaged-delta", damaged_delta),
    ("damaged-digest", damaged_digest),
    ("two-faults", two_faults),
    ("many-nodes", many_nodes),
    ("meter-kinds", readings::kinds),
    ("meter-keys", readings::keys),
    ("meter-values", readings::values),
    ("meter-totals", readings::totals),
    ("meter-writes", readings::writes),
    ("meter-streams", readings::streams),
    ("meter-exchanges", readings::exchanges),
];

pub fn names() -> Vec<String> {
    SWEEPS.iter().map(|(name, _)| name.to_string()).collect()
}

pub fn named(name: &str) -> Option<Vec<String>> {
    SWEEPS.iter().find(|(known, _)| *known == name).map(|(_, make)| make())
}

fn apply(ops: &[Op]) -> String {
    format!("apply {} 5 8", hex(&delta(ops)))
}

fn node(last_gc: u64, from: u64) -> Op {
    Op::Node { number: 1, last_gc, from }
}

fn record(key: &str, version: u64, status: u8) -> Op {
    Op::KeyValue { key: key.into(), value: "v".into(), version, status }
}

/// Node 1 fresh, then brought to last_gc and max by one delta from 0.
fn node_at(last_gc: u64, max: u64) -> [String; 3] {
    ["new".into(), "add 1".into(), apply(&[node(last_gc, 0), Op::SetMax { max }])]
}

/// Document 01's bench cases.
fn bench() -> Vec<String> {
    let mut lines = Vec::new();
    for (last_gc, from, max) in [(0, 6, 9), (0, 5, 5), (0, 5, 6), (5, 0, 6), (6, 0, 6), (6, 1, 9), (6, 0, 0)] {
        lines.extend(node_at(0, 5));
        lines.push(apply(&[node(last_gc, from), Op::SetMax { max }]));
    }
    let more = [
        "new",
        "add 1",
        "write 1 x61 x31 0 9",
        "delete 1 x61 100",
        "gc 149 50",
        "gc 150 50",
        "new",
        "add 1",
        "offer 1 5",
        "offer 1 5",
        "offer 1 6",
    ];
    lines.extend(more.map(String::from));
    lines.extend(node_at(4, 9));
    for (last_gc, max) in [(0, 3), (0, 4), (4, 3)] {
        lines.push(format!("compute {} 100 - 0 0 100 0", hex(&digest(0, &[[1, 0, last_gc, max]]))));
    }
    lines.extend(["new".to_string(), "add 1".to_string()]);
    lines.push(format!("write 1 {} {} 0 9", hex(&[b'k'; 32]), hex(&[b'v'; 64])));
    for mtu in [134, 135] {
        lines.push(format!("compute x0000 {mtu} - 0 0 {mtu} 0"));
    }
    lines.extend(priorities());
    lines
}

/// From-0 nodes with max 9 and 4, others with 3 and 5 stale.
fn priorities() -> Vec<String> {
    let mut lines = vec!["new".to_string()];
    for (number, writes) in [(1, 9), (2, 4), (3, 3 + 1), (4, 5 + 1)] {
        lines.push(format!("add {number}"));
        for write in 0..writes {
            lines.push(format!("write {number} {} x 0 9", hex(&[b'a' + write])));
        }
    }
    let digest = hex(&digest(0, &[[3, 0, 0, 1], [4, 0, 0, 1]]));
    lines.push(format!("compute {digest} 16384 - 0,0,0,0 0 16384 0"));
    lines
}

/// All runs of four local calls on one key, with a look after each.
fn writes() -> Vec<String> {
    const CALLS: [&str; 8] = [
        "write 1 x61 x31 0 9",
        "write 1 x61 x 0 9",
        "write 1 x61 x31 2 3",
        "write 1 x61 x 2 4",
        "delete 1 x61 2",
        "deletettl 1 x61 6",
        "gc 5 1",
        "gc 6 2",
    ];
    let mut calls = CALLS.map(String::from).to_vec();
    // A peer's tombstone with a value.
    calls.push(apply(&[node(0, 0), record("a", 9, 1)]));
    let mut lines = Vec::new();
    for run in 0..calls.len().pow(4) {
        lines.extend(["new".to_string(), "add 1".to_string()]);
        let mut rest = run;
        for _ in 0..4 {
            lines.push(calls[rest % calls.len()].clone());
            rest /= calls.len();
        }
        lines.push("get 1 x61".to_string());
    }
    lines
}

/// Each wanted status, and numbers that have its byte in them, at each thing that a write can meet: a table that breaks a rule, no node, a key or a value
/// that is too long, a record of each status with this value and with another, a 33rd key, the last version. The time is small, and large.
fn wanted() -> Vec<String> {
    let mut statuses: Vec<u64> = (0..=258).collect();
    statuses.extend((9..64).flat_map(|bit| [0, 1, 2].map(|low| (1u64 << bit) + low)));
    statuses.push(u64::MAX);
    let long = |len| hex(&vec![b'k'; len]);
    let full: Vec<Op> = (1..=RECORDS as u64).map(|version| record(&format!("k{version}"), version, (version % 3) as u8)).collect();
    let fill = |max: u64| apply(&[&[node(0, 0)][..], &full, &[Op::SetMax { max }]].concat());
    let mut lines = Vec::new();
    for status in statuses {
        let write = |key: &str, value: &str, now: u64| format!("write 1 {key} {value} {status} {now}");
        lines.extend(["table x".to_string(), write("x61", "x31", 7), "new".into(), write(&long(33), &long(65), 7)]);
        lines.extend(["add 1".into(), write(&long(33), "x", 7), write("x61", &long(65), 7)]);
        lines.extend([write("x61", "x31", u64::MAX), write("x61", "x31", 0), fill(40), write("x61", "x", 7), fill(u64::MAX - 1)]);
        for key in ["k1", "k2", "k3"] {
            lines.extend(["x76", "x77", "x76"].map(|value| write(&hex(key.as_bytes()), value, 7)));
        }
        lines.push(write("x62", "x31", 7));
    }
    lines
}

/// All small own pairs against all small deltas without records.
fn verdicts() -> Vec<String> {
    let mut lines = Vec::new();
    for own in 0..16 {
        for case in 0..64 {
            lines.extend(node_at(own / 4, own % 4));
            lines.push(apply(&[node(case / 16, case / 4 % 4), Op::SetMax { max: case % 4 }]));
        }
    }
    lines
}

/// The same in a fenced table and in a guarded one, with a record before the max.
fn fence() -> Vec<String> {
    [table::FENCED, table::GUARDED].into_iter().flat_map(fence_of).collect()
}

fn fence_of(mode: u8) -> Vec<String> {
    let mut lines = Vec::new();
    for own in 0..16 {
        for case in 0..64 {
            let (last_gc, max) = (own / 4, own % 4);
            let held = Node { number: 1, heartbeat: 7, max, last_gc, records: vec![] };
            lines.push(format!("table {}", hex(&table::encode(&[held], mode))));
            let (last_gc, from, max) = (case / 16, case / 4 % 4, case % 4);
            lines.push(apply(&[node(last_gc, from), record("a", max, SET), Op::SetMax { max }]));
            lines.push(apply(&[node(last_gc, from), Op::SetMax { max }]));
        }
    }
    lines
}

/// Records of each status around max and last_gc, after a reset and without.
fn taking() -> Vec<String> {
    let mut lines = Vec::new();
    for own in 0..16 {
        for case in 0..48 {
            let (last_gc, from, status) = (case / 12, case / 3 % 4, (case % 3) as u8);
            lines.extend(node_at(own / 4, own % 4));
            let ops = [
                node(last_gc, from),
                record("a", 1, status),
                record("b", 2, status),
                record("a", 3, status),
                record("c", 4, 0),
            ];
            lines.push(apply(&ops));
        }
    }
    lines
}

/// All runs of three records on a node of 31 or 32 keys, with a second node behind it.
fn room() -> Vec<String> {
    // Key, status, whether its version is at or below the node's last_gc. k1 is held, n and m are new.
    const RECORDS: [(&str, u8, bool); 6] =
        [("n", 0, false), ("m", 1, false), ("n", 1, true), ("m", 0, true), ("k1", 2, false), ("n", 2, false)];
    let mut lines = Vec::new();
    for held in [30, 31, 32] {
        let mut ops = vec![node(100, 0)];
        ops.extend((1..=held).map(|version| record(&format!("k{version}"), version, 0)));
        let fill = apply(&ops);
        for run in 0..RECORDS.len().pow(3) {
            lines.extend(["new".to_string(), "add 1".to_string(), "add 2".to_string(), fill.clone()]);
            let (mut ops, mut rest, mut version) = (vec![node(0, 0)], run, 60);
            for _ in 0..3 {
                let (key, status, old) = RECORDS[rest % RECORDS.len()];
                version = if old { version + 1 } else { version.max(100) + 1 };
                ops.push(record(key, version, status));
                rest /= RECORDS.len();
            }
            ops.extend([Op::Node { number: 2, last_gc: 0, from: 0 }, record("z", 1, 0)]);
            lines.push(apply(&ops));
        }
    }
    lines
}

/// All small own pairs against all small digest pairs.
fn from() -> Vec<String> {
    let mut lines = Vec::new();
    for own in 0..16 {
        lines.extend(node_at(own / 4, own % 4));
        lines.push("write 1 x61 x31 0 9".to_string());
        for pair in 0..36 {
            let edition = (own + pair) % 2;
            let digest = hex(&digest(edition, &[[1, 0, pair / 6, pair % 6]]));
            lines.push(format!("compute {digest} 100 - 0 0 100 {edition}"));
        }
    }
    lines
}

/// Records whose start has one bit, gone at the very moment: no byte of them may stay behind.
fn late() -> Vec<String> {
    let mut lines = Vec::new();
    for start in (0..64).map(|bit| 1u64 << bit) {
        lines.extend(["new".into(), "add 1".into(), "write 1 x61 x76 0 9".into(), "write 1 x62 x77 0 9".into()]);
        lines.extend([format!("write 1 x63 x78 2 {start}"), format!("delete 1 x62 {start}")]);
        lines.extend([format!("gc {} 0", start - 1), format!("gc {start} 0")]);
    }
    lines
}

/// A digest of nodes, last_gcs and maxes, told by a peer.
fn tell(peer: u64, edition: u64, entries: &[[u64; 3]]) -> String {
    let entries: Vec<[u64; 4]> = entries.iter().map(|&[number, last_gc, max]| [number, 9, last_gc, max]).collect();
    format!("tell {peer} {} {edition}", hex(&digest(edition, &entries)))
}

/// Four columns in every order of coming; what is told of them; then every two of them go.
fn grid_columns() -> Vec<String> {
    const NUMBERS: [u64; 4] = [1, 2, 256, u64::MAX];
    let mut lines = Vec::new();
    for order in 0..256usize {
        let order = [0, 2, 4, 6].map(|shift| NUMBERS[order >> shift & 3]);
        for first in 0..4 {
            lines.push("new".to_string());
            for (step, number) in (0..).zip(order) {
                lines.push(format!("gridadd {number}"));
                lines.push(tell(step, step % 2, &NUMBERS.map(|told| [told, told / 2 + step, told - 1 + step / 3])));
            }
            lines.extend([format!("gridremove {}", order[first]), format!("gridremove {}", order[(first + 1) % 4]), format!("gridadd {}", order[first])]);
            lines.extend([1, 256].into_iter().flat_map(|number| [format!("least {number}"), format!("told 1 {number}"), format!("told 3 {number}")]));
        }
    }
    lines
}

/// Every choice of the things that a call on a grid can be refused for: which one is told?
fn grid_numbers() -> Vec<String> {
    const PEERS: [u64; 9] = [0, 1, 6, 7, 8, 9, 255, 1 << 32, u64::MAX];
    let mut lines = Vec::new();
    for spoilt in ["least 1", "table x", "grid x", "add 3"] {
        for present in [false, true] {
            lines.extend(["new", "gridadd 1", "gridadd 2"].map(String::from));
            lines.push(if present { tell(1, 0, &[[1, 2, 3]]) } else { "takeout 1".into() });
            lines.push(spoilt.to_string());
            for peer in PEERS {
                lines.extend([format!("takeout {peer}"), format!("told {peer} 1"), format!("told {peer} 4")]);
                for edition in [0, 1, 2, 3, u64::MAX] {
                    for bytes in [digest(edition, &[]), digest(edition, &[[1, 0, 0, 1]])[..31].to_vec(), digest(edition, &[[1, 0, 0, 0]; 9]), vec![1; 64]] {
                        lines.push(format!("tell {peer} {} {edition}", hex(&bytes)));
                    }
                }
                lines.extend(["least 1", "least 4", "careful 9 1", "gridadd 1", "gridremove 4", "told 7 1"].map(String::from));
            }
            lines.push("newgrid".into());
            lines.extend((10..18).map(|number| format!("gridadd {number}")));
            lines.push("dumpgrid".into());
        }
    }
    lines
}

/// Each byte of a grid changed, by one bit and to 1: is it a grid still, and what does it say?
fn grid_bytes() -> Vec<String> {
    let mut rows: [Option<Vec<grid::Pair>>; grid::PEERS] = Default::default();
    rows[1] = Some(vec![(1, 5), (0, 3), (9, 9)]);
    rows[7] = Some(vec![(0, 4), (2, 7), (1, 1)]);
    let good = grid::encode(&[3, 256, u64::MAX - 1], &rows);
    let mut lines: Vec<String> = ["new", "add 3", "add 256", "add 18446744073709551614"].map(String::from).into();
    for place in 0..good.len() {
        for byte in [good[place] ^ 1 << (place % 8), 1] {
            let mut bytes = good.clone();
            bytes[place] = byte;
            lines.extend([format!("grid {}", hex(&bytes)), "takeout 0".into(), "careful 9 1".into(), "least 256".into(), "told 7 3".into()]);
        }
    }
    lines
}

/// Two peers who are absent or told a small max, three records of every status, the last of them not over before the second moment.
fn careful() -> Vec<String> {
    let mut lines = Vec::new();
    for told in 0..36u64 {
        for statuses in 0..27u64 {
            let [one, two, three] = [1, 3, 9].map(|by| (statuses / by % 3) as u8);
            lines.extend(["new".to_string(), "gridadd 1".to_string()]);
            lines.push(apply(&[node(0, 0), record("a", 1, one), record("c", 2, two)]));
            lines.push(format!("apply {} 6 8", hex(&delta(&[node(0, 2), record("b", 3, three)]))));
            for (peer, max) in [(0, told / 6), (7, told % 6)] {
                if max > 0 {
                    lines.push(tell(peer, peer % 2, &[[1, 5 - max, max - 1]]));
                }
            }
            lines.extend(["careful 4 0", "careful 7 2", "careful 8 2", "gc 8 2"].map(String::from));
        }
    }
    lines
}

/// A plan in both its lines, with a datagram of exactly an MTU.
fn plan(digest: &str, mtu: u64, excluded: &str, nodes: &str, counts: &str, edition: u64) -> [String; 2] {
    let asked = format!("{digest} {mtu} {excluded} {nodes} {counts}");
    [format!("planfault {asked} {edition}"), format!("plan {asked} 0 {mtu} {edition}")]
}

/// All small own pairs against all small digest pairs, with none, one and two records and each count around the stale ones; and the node excluded, and
/// named twice.
fn plans() -> Vec<String> {
    let mut lines = Vec::new();
    for own in 0..16 {
        lines.extend(node_at(own / 4, own % 4));
        for written in 0..=own % 3 {
            if written > 0 {
                lines.push(format!("write 1 {} x31 0 9", hex(&[b'a' + written as u8])));
            }
            for pair in 0..36 {
                let edition = (own + pair) % 2;
                let digest = hex(&digest(edition, &[[1, 0, pair / 6, pair % 6]]));
                for count in 0..=written + 1 {
                    lines.extend(plan(&digest, 100, "-", "1", &count.to_string(), edition));
                }
                lines.extend(plan(&digest, 100, "1", "1", "1", edition));
                lines.extend(plan(&digest, 100, "-", "1,1", if written > 0 { "1,1" } else { "0,0" }, edition));
            }
        }
    }
    lines.extend(plans_of_eight());
    lines
}

/// A line for each of eight nodes, and one or two behind them in either list; and one line, with its node excluded, held or not.
fn plans_of_eight() -> Vec<String> {
    let mut lines = vec!["new".to_string()];
    for number in 1..=8 {
        lines.extend([format!("add {number}"), format!("write {number} x61 x31 0 9")]);
    }
    for nodes in ["", ",8", ",9", ",1,2"] {
        for counts in ["", ",0", ",1", ",1,1"] {
            lines.extend(plan("x0000", 328, "-", &format!("1,2,3,4,5,6,7,8{nodes}"), &format!("1,1,1,1,1,1,1,1{counts}"), 0));
        }
    }
    lines.extend(["8", "9"].into_iter().flat_map(|number| plan("x0000", 100, "9,8", number, "1", 0)));
    lines
}

/// Every choice of the things that a plan can be refused for: which one is told?
fn plan_numbers() -> Vec<String> {
    let mut lines = Vec::new();
    for table in ["new", "table x"] {
        lines.extend(["new", "add 1", "write 1 x61 x31 0 9"].map(String::from));
        if table != "new" {
            lines.push(table.to_string());
        }
        for (edition, mtu, len) in [0, 1, 2].into_iter().flat_map(|edition| [99, 100, 16_385].map(|mtu| (edition, mtu, mtu))) {
            for digest in [digest(edition, &[]), digest(edition, &[[1, 0, 0, 1]])[..31].to_vec(), digest(edition, &[[1, 0, 0, 0]; 9])] {
                for (counts, short) in ["1", "2", "-"].into_iter().flat_map(|counts| [0, 1].map(|short| (counts, short))) {
                    let asked = format!("{} {mtu} - 1 {counts}", hex(&digest));
                    lines.push(format!("planfault {asked} {edition}"));
                    lines.push(format!("plan {asked} 0 {} {edition}", len - short));
                }
            }
        }
    }
    lines
}

/// Several nodes, some of which have nothing but a max.
fn some_nodes() -> Vec<String> {
    let mut lines = vec!["new".to_string()];
    for number in 1..=6u64 {
        lines.push(format!("add {number}"));
        for write in 0..number - 1 {
            lines.push(format!("write {number} {} {} 0 9", hex(&[b'a' + write as u8]), hex(&vec![b'v'; 7 * write as usize])));
        }
    }
    for number in [1, 3, 5] {
        lines.push(format!(
            "apply {} 5 1",
            hex(&delta(&[Op::Node { number, last_gc: 0, from: 0 }, Op::SetMax { max: 20 + number }]))
        ));
    }
    lines.push("delete 4 x61 1".to_string());
    lines
}

/// A digest that is behind with some of them.
fn partly_told() -> String {
    hex(&digest(1, &[[3, 0, 0, 2], [5, 0, 0, 22], [4, 0, 0, 1], [6, 0, 0, 1]]))
}

/// Each MTU over a table of several nodes, with nodes that have nothing but a max.
fn cuts() -> Vec<String> {
    let mut lines = some_nodes();
    let partly = partly_told();
    for mtu in 100..=620 {
        lines.push(format!("compute x0000 {mtu} - 0,0,0,0,0,0 0 {mtu} 0"));
        lines.push(format!("compute {partly} {mtu} - 1,0,1,0,1,0 0 {mtu} 1"));
    }
    lines
}

/// The same by plans: which line is the first that does not fit?
fn plan_cuts() -> Vec<String> {
    let mut lines = some_nodes();
    let partly = partly_told();
    for mtu in 100..=620 {
        lines.extend(plan("x0000", mtu, "-", "6,5,4,3,2,1", "5,4,3,2,1,0", 0));
        lines.extend(plan("x0000", mtu, "-", "1,6,2,5", "0,3,1,2", 0));
        lines.extend(plan(&partly, mtu, "2", "6,1,3,5", "4,0,0,0", 1));
    }
    lines
}

/// Each MTU from 16,270 on, where five full nodes end, a sixth begins, and the original needs a second block. The sixth has
/// records, or nothing but a max.
fn brim() -> Vec<String> {
    brims(|mtu| vec![format!("compute x0000 {mtu} - 0,0,0,0,0,0 0 {mtu} 0")])
}

/// The same by plans: the five full nodes; one record fewer; the sixth node first, with its max alone.
fn plan_brim() -> Vec<String> {
    brims(|mtu| {
        let five = plan("x0000", mtu, "-", "1,2,3,4,5", "32,32,32,32,32", 0);
        let fewer = plan("x0000", mtu, "6", "5,4,3,2,1", "32,32,32,32,31", 0);
        let first = plan("x0000", mtu, "-", "6,5,4,3,2,1", "0,32,32,32,32,32", 0);
        [five, fewer, first].concat()
    })
}

fn brims(ask: impl Fn(u64) -> Vec<String>) -> Vec<String> {
    const VALUE: usize = 55;
    let record = |place: usize, value: usize| Record {
        key: format!("{place:032}").into_bytes(),
        value: vec![b'v'; value],
        version: 1 + place as u64,
        status: SET,
        start: 0,
    };
    let mut lines = Vec::new();
    for (longer, sixth) in [(0, RECORDS), (7, RECORDS), (0, 0), (7, 0)] {
        let nodes: Vec<Node> = (1..=6)
            .map(|number| {
                let count = if number == 6 { sixth } else { RECORDS };
                let value = |place| if number == 1 && place < longer { table::VALUE } else { VALUE };
                let records = (0..count).map(|place| record(place, value(place))).collect();
                Node { number, heartbeat: 0, max: 32 + number, last_gc: 0, records }
            })
            .collect();
        lines.push(format!("table {}", hex(&table::encode(&nodes, table::PLAIN))));
        lines.extend((16_270..=16_384).flat_map(&ask));
    }
    lines
}

/// All runs of four steps of a publisher and a follower with one node.
fn exchanges() -> Vec<String> {
    const STEPS: [&[&str]; 6] = [
        &["write 1 x61 x31 0 9"],
        &["write 1 x62 x32 2 3"],
        &["delete 1 x61 4"],
        &["gc 5 1"],
        &["hub 1", "digest - 0 34 0", "hub 0", "compute @digest 100 - 0 0 100 0", "hub 1", "apply @delta 4 1", "hub 0"],
        &["hub 1", "gc 5 1", "write 1 x63 x 0 9", "hub 0"],
    ];
    let mut lines = Vec::new();
    for run in 0..STEPS.len().pow(4) {
        lines.extend(["hub 1", "new", "add 1", "hub 0", "new", "add 1"].map(String::from));
        let mut rest = run;
        for _ in 0..4 {
            lines.extend(STEPS[rest % STEPS.len()].iter().map(|line| line.to_string()));
            rest /= STEPS.len();
        }
        // Two more exchanges: does the follower arrive?
        lines.extend([STEPS[4], STEPS[4]].concat().iter().map(|line| line.to_string()));
    }
    lines
}

/// A good delta cut at each place, and with each byte changed to each of some values.
fn damaged_delta() -> Vec<String> {
    let good = delta(&[
        node(0, 0),
        record("aé", 1, 0),
        record("", 3, 1),
        Op::SetMax { max: 3 },
        Op::Node { number: 2, last_gc: 1, from: 0 },
        record("z", 2, 2),
        Op::SetMax { max: 9 },
    ]);
    let mut lines = Vec::new();
    for len in 0..=good.len() {
        lines.push(format!("readdelta {}", hex(&good[..len])));
    }
    for place in 0..good.len() {
        for byte in [0, 1, 2, 3, 4, 32, 33, 64, 65, 127, 128, 255] {
            let mut damaged = good.clone();
            damaged[place] = byte;
            if texts_are_utf8(&damaged) {
                lines.extend(["new".to_string(), "add 1".to_string()]);
                lines.push(format!("apply {} 5 8", hex(&damaged)));
            }
        }
    }
    lines
}

/// A digest of either edition, cut at each place and damaged at each byte, read in both.
fn damaged_digest() -> Vec<String> {
    let mut lines = Vec::new();
    for edition in [0, 1] {
        let good = digest(edition, &[[2, 1, 2, 3], [1, 4, 5, 6], [2, 7, 8, 9]]);
        for len in 0..=good.len() {
            lines.extend([0, 1, 2].map(|read| format!("readdigest {} {read}", hex(&good[..len]))));
        }
        for place in 0..good.len() {
            for byte in [0, 1, 2, 3, 4, 8, 9, 255] {
                let mut damaged = good.clone();
                damaged[place] = byte;
                lines.extend([0, 1].map(|read| format!("readdigest {} {read}", hex(&damaged))));
            }
        }
    }
    lines
}

/// A record with every choice of faults at once, cut at each place: which one is told?
fn two_faults() -> Vec<String> {
    let mut lines = Vec::new();
    for choice in 0..32 {
        let wrong = |bit: usize| choice >> bit & 1 == 1;
        let mut ops = if wrong(0) { vec![] } else { vec![node(0, 0), record("a", 2, 0)] };
        let before = delta(&ops).len();
        ops.push(Op::KeyValue {
            key: vec![b'k'; if wrong(1) { 33 } else { 2 }],
            value: vec![b'v'; if wrong(2) { 65 } else { 2 }],
            version: if wrong(3) { 2 } else { 3 },
            status: if wrong(4) { 3 } else { 1 },
        });
        let bytes = delta(&ops);
        lines.extend((before..=bytes.len()).map(|len| format!("readdelta {}", hex(&bytes[..len]))));
    }
    lines
}

/// Seven to ten Nodes, the last one new or a repetition of each of the others, whole and cut by one byte.
fn many_nodes() -> Vec<String> {
    let mut lines = Vec::new();
    for count in 7..=10 {
        for last in 1..=count {
            let numbers = (1..count).chain([last]);
            let ops: Vec<Op> = numbers.map(|number| Op::Node { number, last_gc: 0, from: 0 }).collect();
            let bytes = delta(&ops);
            lines.push(format!("readdelta {}", hex(&bytes)));
            lines.push(format!("apply {} 0 8", hex(&bytes[..bytes.len() - 1])));
        }
    }
    lines
}
