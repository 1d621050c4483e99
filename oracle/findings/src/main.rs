//! Runs each finding of FINDINGS.md on the original and checks that it is still so.
//!
//! Built twice by findings/run: with overflow checks, and without.

use std::hint::black_box;
use std::panic::{AssertUnwindSafe, catch_unwind};
use std::time::{Duration, Instant};

use judge::raw::{self, Op, Raw};
use judge_listener::raw::{Op as ListenerOp, Raw as WithListener};

const LAST: u64 = u64::MAX;

/// The words of the panic, or none if there was none.
fn panics<T>(what: impl FnOnce() -> T) -> Option<String> {
    let panic = catch_unwind(AssertUnwindSafe(what)).err()?;
    Some(match panic.downcast::<String>() {
        Ok(words) => *words,
        Err(panic) => panic.downcast::<&str>().map_or(String::new(), |words| words.to_string()),
    })
}

#[track_caller]
fn panics_with<T>(words: &str, what: impl FnOnce() -> T) {
    let panic = panics(what);
    assert!(panic.as_ref().is_some_and(|panic| panic.contains(words)), "expected {words:?}, seen {panic:?}");
}

fn node(last_gc: u64, from: u64) -> Op<'static> {
    Op::Node { number: 1, last_gc, from }
}

fn record(key: &str, version: u64) -> Op<'_> {
    Op::KeyValue { key: key.as_bytes(), value: b"v", version, status: 0 }
}

fn key_and_version(raw: &mut Raw) -> Vec<(String, u64)> {
    raw.records().into_iter().map(|(key, _, version, _)| (key, version)).collect()
}

fn listener_set() {
    let mut raw = WithListener::new();
    panics_with("byte index 1 is not a char boundary", || raw.set("é", "x"));
    assert_eq!(raw.records(), [("é".into(), "x".into(), 1, 0)]);
    panics_with("byte index 1 is not a char boundary", || raw.set_with_ttl("日", "x"));
    // A tombstone tells nobody.
    raw.delete("é");
}

fn listener_apply() {
    let kv = |key: &'static str, version| ListenerOp::KeyValue { key: key.as_bytes(), value: b"v", version, status: 0 };
    let ops = [
        ListenerOp::Node { number: 1, last_gc: 0, from: 0 },
        kv("a", 1),
        kv("é", 2),
        kv("b", 3),
        ListenerOp::Node { number: 2, last_gc: 0, from: 0 },
        kv("c", 1),
    ];
    let mut raw = WithListener::new();
    panics_with("byte index 1 is not a char boundary", || raw.apply(&ops));
    let keys: Vec<String> = raw.records().into_iter().map(|(key, ..)| key).collect();
    assert_eq!(keys, ["a", "é"]);
    assert_eq!(raw.numbers(), (0, 0, 2));
    let tombstone = ListenerOp::KeyValue { key: "é".as_bytes(), value: b"", version: 1, status: 1 };
    let mut raw = WithListener::new();
    assert_eq!(raw.apply(&[ListenerOp::Node { number: 1, last_gc: 0, from: 0 }, tombstone]), Ok(false));
    assert_eq!(raw.records(), [("é".into(), "".into(), 1, 1)]);
}

fn max_below_running_asserts() {
    let mut raw = Raw::new();
    panics_with("node_delta.max_version >= self.max_version", || {
        raw.apply(&[node(0, 0), record("k", 2), Op::SetMax { max: 1 }])
    });
    assert_eq!(key_and_version(&mut raw), [("k".into(), 2)]);
}

fn max_below_running_in_silence() {
    let mut raw = Raw::new();
    assert_eq!(raw.apply(&[node(0, 0), record("k", 1), Op::SetMax { max: 0 }, record("l", 1)]), Ok(false));
    assert_eq!(key_and_version(&mut raw), [("k".into(), 1), ("l".into(), 1)]);
    // And from now on no delta with this node can be computed.
    panics_with("apply_op(delta_op).is_ok()", || raw.operations(1_000));
}

fn overflow(checked: bool) {
    let fresh = || {
        let mut raw = Raw::new();
        raw.set("k", "v");
        raw.set_max(LAST);
        raw
    };
    let changes: [fn(&mut Raw); 4] = [
        |raw| raw.set("l", ""),
        |raw| raw.set_with_ttl("k", ""),
        |raw| raw.delete("k"),
        |raw| raw.delete_after_ttl("k"),
    ];
    for change in changes {
        let mut raw = fresh();
        let before = (raw.numbers(), raw.records());
        if checked {
            panics_with("attempt to add with overflow", || change(&mut raw));
            assert_eq!((raw.numbers(), raw.records()), before);
        }
    }
    if !checked {
        let mut raw = fresh();
        raw.delete("k");
        assert_eq!((raw.numbers(), raw.records()), ((0, 0, 0), vec![("k".into(), "".into(), 0, 1)]));
        let mut raw = fresh();
        raw.delete_after_ttl("k");
        assert_eq!((raw.numbers(), raw.records()), ((0, 0, 0), vec![("k".into(), "v".into(), 0, 2)]));
        let mut raw = fresh();
        raw.set_with_ttl("k", "");
        assert_eq!((raw.numbers(), raw.records()), ((0, 0, LAST), vec![("k".into(), "v".into(), 1, 0)]));
        let mut raw = fresh();
        panics_with("version > self.max_version", || raw.set("l", ""));
        let mut raw = fresh();
        raw.set_with_ttl("l", "");
        assert_eq!((raw.numbers(), raw.records().pop()), ((0, 0, LAST), Some(("l".into(), "".into(), 0, 2))));
    }
}

fn heartbeat_overflow() {
    let mut raw = Raw::new();
    raw.offer(LAST);
    panics_with("Heartbeat overflow", || raw.beat());
    assert_eq!(raw.numbers(), (LAST, 0, 0));
}

fn same_set_at_the_last_version() {
    let mut raw = Raw::new();
    raw.set("k", "v");
    raw.set_max(LAST);
    assert_eq!(panics(|| raw.set("k", "v")), None);
}

fn moments_overflow() {
    let moment = Instant::now();
    panics_with("overflow when adding duration to instant", || moment + black_box(Duration::MAX));
    assert!(moment.checked_add(Duration::from_millis(LAST)).is_some());
}

fn deletes_of_an_absent_key() {
    let mut raw = Raw::new();
    let before = raw::warnings();
    raw.delete("k");
    raw.delete_after_ttl("k");
    assert_eq!((raw::warnings() - before, raw.numbers(), raw.records().len()), (2, (0, 0, 0), 0));
}

fn removal_of_an_absent_node() {
    let mut raw = Raw::new();
    raw.remove(9);
    assert_eq!((raw.nodes(), raw.remembered(9)), (1, None));
}

fn removed_nodes_are_remembered() {
    let mut raw = Raw::new();
    raw.offer(5);
    raw.remove(1);
    assert_eq!((raw.nodes(), raw.remembered(1)), (0, Some(5)));
    raw.add(1);
    assert_eq!(raw.remembered(1), None);
}

fn no_sizes() {
    let mut raw = Raw::new();
    for number in 0..33 {
        raw.set(&number.to_string(), "");
    }
    raw.set(&"k".repeat(33), &"v".repeat(65));
    assert_eq!(raw.records().len(), 34);
    assert_eq!(raw.get(&"l".repeat(33)), None);
    for number in 1..=9 {
        raw.add(number);
    }
    assert_eq!(raw.nodes(), 9);
    let keys: Vec<String> = (0..33).map(|number| format!("n{number}")).collect();
    let mut crowd = vec![node(0, 0)];
    crowd.extend(keys.iter().zip(100..).map(|(key, version)| record(key, version)));
    assert_eq!((raw.apply(&crowd), raw.records().len()), (Ok(false), 34 + 33));
    let nodes: Vec<Op> = (0..9).map(|number| Op::Node { number, last_gc: 0, from: 0 }).collect();
    assert_eq!(raw::nodes_read(&nodes), Ok(9));
    assert_eq!(raw::digest_nodes_read(9), Ok(9));
    // 25 + 9 * 1,818 = 16,387 bytes as document 01 writes them.
    let mut long = vec![node(0, 0)];
    long.extend((0..1_818).map(|_| Op::SetMax { max: 1 }));
    assert_eq!(raw::nodes_read(&long), Ok(1));
    let long_key = [b'k'; 33];
    let overlong = [node(0, 0), Op::KeyValue { key: &long_key, value: &[b'v'; 65], version: 1, status: 0 }];
    assert_eq!(raw::nodes_read(&overlong), Ok(1));
}

fn not_utf8() {
    let wrong = [node(0, 0), Op::KeyValue { key: &[255], value: b"", version: 1, status: 0 }];
    assert!(raw::nodes_read(&wrong).unwrap_err().contains("utf-8"));
    let wrong = [node(0, 0), Op::KeyValue { key: b"", value: &[0xC3], version: 1, status: 0 }];
    assert!(raw::nodes_read(&wrong).unwrap_err().contains("utf-8"));
}

fn bytes_are_read_before_operations_are_taken() {
    let twice = [node(0, 0), node(0, 0), Op::Bytes(&[9])];
    assert_eq!(raw::nodes_read(&twice).unwrap_err(), "Unknown tag: 9");
    assert!(raw::nodes_read(&twice[..2]).unwrap_err().contains("existing_nodes"));
}

fn mtu_is_counted_with_blocks() {
    let mut raw = Raw::new();
    // The Node is 34 bytes in the original, the record 14 + 1 + 48.
    raw.set("k", &"v".repeat(48));
    panics_with("mtu >= 100", || raw.operations(99));
    assert_eq!((raw.operations(100), raw.operations(101)), (1, 2));
    assert_eq!(raw.operations(65_507), 2);
}

fn records_and_a_max_cannot_be_written_again() {
    panics_with("assertion", || raw::read_and_write(&[node(0, 0), record("k", 1), Op::SetMax { max: 3 }]));
    assert_eq!(panics(|| raw::read_and_write(&[node(0, 0), record("k", 1)])), None);
    panics_with("assertion", || raw::read_and_write(&[node(0, 0), Op::SetMax { max: 0 }]));
}

fn strangers_are_passed_over() {
    let mut raw = Raw::new();
    let ops = [Op::Node { number: 2, last_gc: 0, from: 0 }, record("k", 1)];
    assert_eq!((raw.apply(&ops), raw.nodes()), (Ok(false), 1));
}

fn each_node_looks_at_the_clock() {
    let mut raw = Raw::new();
    raw.add(2);
    let tombstone = |number| {
        [Op::Node { number, last_gc: 0, from: 0 }, Op::KeyValue { key: b"k", value: b"", version: 1, status: 1 }]
    };
    for number in [1, 2] {
        assert_eq!(raw.apply(&tombstone(number)), Ok(false));
    }
    // Both tombstones begin at 0. Under one now for all nodes both would stay at 9 and both would go at 10.
    assert_eq!(raw.kept_under_a_running_clock(9, 10), [1, 0]);
}

fn main() {
    std::panic::set_hook(Box::new(|_| {}));
    let checked = panics(|| black_box(LAST) + black_box(1)).is_some();
    let findings: [(&str, &dyn Fn()); 18] = [
        ("listener-set", &listener_set),
        ("listener-apply", &listener_apply),
        ("max-below-running-asserts", &max_below_running_asserts),
        ("max-below-running-in-silence", &max_below_running_in_silence),
        ("overflow", &|| overflow(checked)),
        ("heartbeat-overflow", &heartbeat_overflow),
        ("same-set-at-the-last-version", &same_set_at_the_last_version),
        ("moments-overflow", &moments_overflow),
        ("deletes-of-an-absent-key", &deletes_of_an_absent_key),
        ("removal-of-an-absent-node", &removal_of_an_absent_node),
        ("removed-nodes-are-remembered", &removed_nodes_are_remembered),
        ("no-sizes", &no_sizes),
        ("not-utf8", &not_utf8),
        ("bytes-are-read-before-operations-are-taken", &bytes_are_read_before_operations_are_taken),
        ("mtu-is-counted-with-blocks", &mtu_is_counted_with_blocks),
        ("records-and-a-max-cannot-be-written-again", &records_and_a_max_cannot_be_written_again),
        ("strangers-are-passed-over", &strangers_are_passed_over),
        ("each-node-looks-at-the-clock", &each_node_looks_at_the_clock),
    ];
    let mut wrong = 0;
    for (name, finding) in findings {
        match panics(finding) {
            None => println!("so: {name}"),
            Some(words) => {
                wrong += 1;
                println!("NOT SO: {name}: {words}");
            }
        }
    }
    println!("overflow checks {}, findings not so: {wrong}", if checked { "on" } else { "off" });
    std::process::exit(if wrong == 0 { 0 } else { 1 });
}
