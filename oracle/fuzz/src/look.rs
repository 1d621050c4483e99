//! A look at a table and at a delta: the listing of a table made a second time from docs/FORMAT.md, and the nodes that a delta names from its own listing.

use script::table::{AREA_BYTES, Node};

use crate::ffi;

const MARK: u8 = 0xEE;
/// Bytes of a table's listing, at most.
const LONGEST: usize = 96_648;
const MODES: [&str; 3] = ["plain", "fenced", "guarded"];
const PROFILES: [&str; 3] = ["free", "meter", "shared"];
const STATUS: [&str; 3] = ["set", "delete", "ttl"];

fn shown(text: &[u8]) -> String {
    text.iter().map(|&byte| if (33..=126).contains(&byte) && byte != b'%' && byte != b'=' { char::from(byte).to_string() } else { format!("%{byte:02X}") }).collect()
}

/// The listing that the library gives, in all the room there may be, in as much as it wants, and in one byte less.
fn listing(table: &[u8]) -> String {
    let mut out = vec![MARK; LONGEST];
    let told = ffi::list_table(table, &mut out);
    assert_eq!(told.number, 0);
    let count = told.count.get();
    assert!(out[count..].iter().all(|&byte| byte == MARK), "bytes behind the listing");
    let mut exact = vec![MARK; count];
    let brief = ffi::list_table(table, &mut exact[..count - 1]);
    assert_eq!((brief.number, brief.count.get()), (8, 0));
    assert!(exact.iter().all(|&byte| byte == MARK), "touched though refused");
    assert_eq!(ffi::list_table(table, &mut exact).number, 0);
    assert_eq!(exact, out[..count]);
    String::from_utf8(exact).expect("a listing is ASCII")
}

/// How many calls, where the listing of a good table is right.
pub fn at_table(table: &[u8], nodes: &[Node], removed: &[(u64, u64)]) -> Result<u64, String> {
    let (mode, profile) = (table[AREA_BYTES], table[AREA_BYTES + 1]);
    let mut text = format!("mode={} profile={}\n", MODES[usize::from(mode)], PROFILES[usize::from(profile)]);
    for node in nodes {
        text += &format!("node={} heartbeat={} max={} gc={}\n", node.number, node.heartbeat, node.max, node.last_gc);
        for record in &node.records {
            let (key, value, status) = (shown(&record.key), shown(&record.value), STATUS[usize::from(record.status)]);
            text += &format!("key={key} value={value} version={} status={status} start={}\n", record.version, record.start);
        }
    }
    for (number, heartbeat) in removed {
        text += &format!("removed={number} heartbeat={heartbeat}\n");
    }
    let records: usize = nodes.iter().map(|node| node.records.len()).sum();
    text += &format!("end=ok nodes={} records={records} removed={}\n", nodes.len(), removed.len());
    if listing(table) == text { Ok(3) } else { Err("the listing is not that of the table".into()) }
}

/// And where the bytes are no table: one line, which begins with 14.
pub fn at_bad_table(table: &[u8]) -> Result<u64, String> {
    let text = listing(table);
    let line = text.strip_prefix("end=refused code=14").and_then(|rest| rest.strip_suffix('\n'));
    let named = |rest: &str| rest.is_empty() || [" length=", " nodes=", " place=", " mode=", " profile="].iter().any(|name| rest.strip_prefix(name).is_some_and(|number| number.parse::<u64>().is_ok()));
    if line.is_some_and(named) { Ok(3) } else { Err(format!("the listing of a table that is not good: {text}")) }
}

/// The nodes that a delta names: those of its listing, or the refusal that reading it has.
pub fn at_delta(bytes: &[u8], read: &ffi::Delta, listing: &str) -> u64 {
    let wanted: Vec<u64> = listing.lines().filter_map(|line| line.strip_prefix("op=node id=")).map(|rest| rest.split(' ').next().and_then(|word| word.parse().ok()).expect("a number")).collect();
    let mut list = [7; 9];
    let named = ffi::delta_nodes(bytes, &mut list);
    assert_eq!((named.number, named.at.get(), named.need.get()), (read.number, read.at.get(), read.need.get()));
    let count = named.nodes.get();
    assert!(list[count..].iter().all(|&number| number == 7), "places behind the numbers");
    if read.number != 0 {
        assert_eq!(count, 0);
        return 1;
    }
    assert_eq!((list[..count].to_vec(), count), (wanted, read.nodes.get()));
    if count == 0 {
        return 1;
    }
    let mut brief = vec![7; count - 1];
    let refused = ffi::delta_nodes(bytes, &mut brief);
    assert_eq!((refused.number, refused.nodes.get(), refused.at.get(), refused.need.get()), (8, 0, 0, 0));
    assert!(brief.iter().all(|&number| number == 7), "touched though refused");
    2
}
