//! The crate as its users meet it: the pages name the refusals of each call in the order of the header, and what every Rust type is expected to do is done.

use std::collections::{BTreeMap, HashSet};
use std::fs::read_to_string;

use kevdarosh::{
    Answer, Answers, Bytes, Edition, ExchangeRefused, Fault, LentTable, ListingRefused, Mode, NodeDigest, NodeState, Overrides, OwnedNode, OwnedTable, Party, Profile, Record, Refusal, Status, Step,
    TABLE, TableView, Wanted, Watched, list_delta, make_delta,
};

fn file(name: &str) -> String {
    let path = format!("{}/{name}", env!("CARGO_MANIFEST_DIR"));
    read_to_string(&path).unwrap_or_else(|error| panic!("{path}: {error}"))
}

/// The numbers of each function of the header, in its order.
fn numbers() -> BTreeMap<String, Vec<u64>> {
    let (mut numbers, mut next) = (BTreeMap::new(), vec![]);
    for line in file("../../include/kevdarosh.h").lines() {
        if let Some((_, told)) = line.split_once("Numbers: ") {
            next = told.split([',', '.']).map_while(|word| word.trim().parse().ok()).collect();
            continue;
        }
        let name = line.split_once('(').and_then(|(before, _)| before.rsplit_once("kev_")).map(|(_, name)| name.to_string());
        if let (Some(name), false) = (name, next.is_empty()) {
            numbers.insert(name, std::mem::take(&mut next));
        }
    }
    numbers
}

/// Of each public function of a file: its page. The second and the third of a name, which are a party's and a node's, are so called.
fn pages(name: &str) -> Vec<(String, String)> {
    let (mut pages, mut page): (Vec<(String, String)>, _) = (vec![], String::new());
    for line in file(name).lines().map(str::trim) {
        if let Some(text) = line.strip_prefix("///") {
            page += text;
            page += "\n";
        } else if let Some(rest) = line.strip_prefix("pub fn ").or_else(|| line.strip_prefix("pub const fn ")) {
            let name = rest.split(['(', '<']).next().unwrap();
            let before = pages.iter().filter(|(before, _)| before.split(' ').next() == Some(name)).count();
            let method = if before == 0 { name.to_string() } else { format!("{name} {}", before + 1) };
            pages.push((method, std::mem::take(&mut page)));
        } else if !line.starts_with("#[") {
            page.clear();
        }
    }
    pages
}

/// A Rust caller cannot ask for these: a status or an edition that is none, and too few places for answers, which the crate lends itself.
fn out_of_reach(function: &str, number: u64) -> bool {
    matches!((function, number), ("write" | "write_override", 10) | (_, 20) | ("apply" | "apply_leaving", 8))
}

#[test]
fn each_page_names_its_refusals_in_order_and_has_an_example() {
    let numbers = numbers();
    let functions: &[(&str, &str, &str, &[u64])] = &[
        // file, method, function of the header, and what cannot come
        ("src/table.rs", "new_in", "new_table", &[]),
        ("src/table.rs", "with_profile_in", "new_table", &[]),
        ("src/table.rs", "from_bytes", "check", &[]),
        ("src/table.rs", "profile", "check", &[]),
        ("src/table.rs", "mode", "check", &[]),
        ("src/table.rs", "nodes", "node_count", &[]),
        ("src/table.rs", "node_state", "node_header", &[]),
        ("src/table.rs", "into_node_state", "node_header", &[]),
        ("src/table.rs", "get", "find", &[]),
        ("src/table.rs", "node_state 2", "node_header", &[]),
        ("src/table.rs", "get 2", "find", &[]),
        ("src/table.rs", "write 2", "write", &[]),
        ("src/table.rs", "delete 2", "delete", &[]),
        ("src/table.rs", "delete_after_ttl 2", "delete_after_ttl", &[]),
        ("src/table.rs", "get 3", "find", &[14, 2]),
        ("src/table.rs", "last_heartbeat_if_deleted", "last_heartbeat", &[]),
        ("src/table.rs", "compute_digest", "write_digest", &[]),
        ("src/table.rs", "compute_partial_delta_respecting_mtu", "compute", &[]),
        ("src/table.rs", "compute_plan", "compute_plan", &[]),
        ("src/table.rs", "plan_fault", "plan_fault", &[23]),
        ("src/table.rs", "add_node", "add_node", &[]),
        ("src/table.rs", "remove_node", "remove_node", &[]),
        ("src/table.rs", "write", "write", &[]),
        ("src/table.rs", "delete", "delete", &[]),
        ("src/table.rs", "delete_after_ttl", "delete_after_ttl", &[]),
        ("src/table.rs", "gc_keys_marked_for_deletion", "remove_scheduled", &[]),
        ("src/table.rs", "inc_heartbeat", "local_beat", &[]),
        ("src/table.rs", "try_set_heartbeat", "offer_heartbeat", &[]),
        ("src/table.rs", "apply_delta", "apply", &[]),
        ("src/table.rs", "apply_leaving", "apply_leaving", &[]),
        ("src/table.rs", "contains_key", "find", &[14, 2]),
        ("src/table.rs", "get_versioned", "record_by_key", &[14, 2]),
        ("src/table.rs", "iter_prefix", "prefix_rows", &[14, 2]),
        ("src/over.rs", "from_bytes", "check_overrides", &[]),
        ("src/over.rs", "write", "write_override", &[14]),
        ("src/over.rs", "delete", "delete_override", &[14]),
        ("src/over.rs", "delete_after_ttl", "delete_override_after_ttl", &[14]),
        ("src/over.rs", "get_over", "find_over", &[]),
        ("src/over.rs", "get_over 2", "find_over", &[]),
        ("src/over.rs", "get_over 3", "find_over", &[14, 2]),
        ("src/over.rs", "iter_prefix_over", "list_over", &[14, 2, 8]),
        ("src/watch.rs", "from_bytes", "new_grid", &[]),
        ("src/watch.rs", "add_node", "grid_add_node", &[14]),
        ("src/watch.rs", "remove_node", "grid_remove_node", &[14]),
        ("src/watch.rs", "tell", "tell", &[14]),
        ("src/watch.rs", "take_out", "take_out", &[14]),
        ("src/watch.rs", "least_max", "least_max", &[14]),
        ("src/watch.rs", "told", "seen_by", &[14]),
        ("src/watch.rs", "remove_carefully", "remove_carefully", &[14]),
        ("src/wire.rs", "read", "read_digest", &[]),
        ("src/wire.rs", "read_delta", "read_delta", &[]),
        ("src/wire.rs", "list_delta", "list_delta", &[]),
        ("src/wire.rs", "make_delta", "make_delta", &[16]),
        ("src/table.rs", "listing", "list_table", &[]),
        ("src/wire.rs", "delta_nodes", "delta_nodes", &[8]),
        ("src/wire.rs", "exchange", "exchange", &[]),
    ];
    let mut seen = 0;
    for name in ["src/table.rs", "src/over.rs", "src/watch.rs", "src/wire.rs", "src/refusal.rs"] {
        for (method, page) in pages(name) {
            assert!(page.contains("```") || page.starts_with(" As [`Table::"), "{name}: {method} has no example");
            let errors = page.split_once("# Errors").map_or("", |(_, errors)| errors.split("```").next().unwrap());
            let told: Vec<u64> = errors.split("[`Refusal::").skip(1).map(|word| number_of(word.split('`').next().unwrap())).collect();
            let Some((_, _, function, never)) = functions.iter().find(|(file, of, ..)| *file == name && *of == method) else {
                assert!(told.is_empty(), "{name}: {method} names refusals, and is no function of the header");
                continue;
            };
            let all = numbers.get(*function).unwrap_or_else(|| panic!("the header has no {function}"));
            let can_come = |number: &u64| !never.contains(number) && !out_of_reach(function, *number);
            assert_eq!(told, all.iter().copied().filter(can_come).collect::<Vec<_>>(), "{name}: the page of {method}");
            seen += 1;
        }
    }
    assert_eq!(seen, functions.len(), "every function has its page");
}

/// Every call in the Rust column of docs/MOVING.md stands in a block of code there, which the documentation tests compile and run.
#[test]
fn every_call_of_the_moving_page_is_compiled() {
    let page = file("../../docs/MOVING.md");
    let code: String = page.split("```rust\n").skip(1).map(|block| block.split("```").next().unwrap()).collect();
    let mut calls = 0;
    for row in page.lines().filter(|line| line.starts_with("| ") && !line.starts_with("| chitchat")) {
        let cell = row.split(" | ").nth(1).unwrap();
        for piece in cell.split('`').skip(1).step_by(2) {
            for call in piece.split('(').rev().skip(1).map(|before| before.rsplit(|c: char| !c.is_alphanumeric() && c != '_').next().unwrap()).filter(|call| !call.is_empty()) {
                assert!(code.contains(&format!("{call}(")), "{call} of {cell} is in no block");
                calls += 1;
            }
        }
    }
    assert!(calls > 35, "{calls}");
}

fn number_of(name: &str) -> u64 {
    Refusal::ALL.iter().find(|refusal| format!("{refusal:?}") == name).unwrap_or_else(|| panic!("no {name}")).number()
}

/// chitchat's `extra_liveness_predicate`, of any table and of an owned one.
fn alive<S: Bytes>(node: &NodeState<'_, S>) -> bool {
    node.get(b"ready").is_ok_and(|ready| ready == Some(b"yes"))
}

#[test]
fn a_node_goes_to_a_function_of_ones_own() {
    let mut table = OwnedTable::new(Mode::Guarded);
    table.add_node(7).unwrap();
    table.write(7, b"ready", b"yes", Wanted::Set).unwrap();
    let predicate: Box<dyn Fn(&OwnedNode) -> bool> = Box::new(alive);
    assert!(predicate(&table.node_state(7).unwrap()));
    assert!(alive(&TableView::over(table.as_bytes()).node_state(7).unwrap()));
}

/// What a lookup gives lives as long as the table, when the node, the view and the lent table are gone.
#[test]
fn a_lookup_lives_as_long_as_the_table() {
    fn of_owned(table: &OwnedTable) -> &[u8] {
        table.node_state(7).unwrap().get(b"total").unwrap().unwrap()
    }
    fn of_view(bytes: &[u8]) -> Vec<&[u8]> {
        let node = TableView::over(bytes).into_node_state(7).unwrap();
        node.key_values().map(|(_, value)| value).chain(node.get_versioned(b"total").unwrap().map(|record| record.value)).collect()
    }
    fn of_lent(bytes: &mut [u8]) -> &[u8] {
        LentTable::over(bytes).into_view().into_node_state(7).unwrap().get(b"total").unwrap().unwrap()
    }
    let mut table = OwnedTable::new(Mode::Guarded);
    table.add_node(7).unwrap();
    table.write(7, b"total", b"41", Wanted::Set).unwrap();
    assert_eq!(of_owned(&table), b"41");
    assert_eq!(of_view(table.as_bytes()), [b"41", b"41"]);
    assert_eq!(of_lent(&mut table.as_bytes().to_vec()), b"41");
    assert_eq!(TableView::over(table.as_bytes()).into_node_state(8).unwrap_err(), Refusal::NoNode);
    assert_eq!(TableView::over(&[0; 9]).into_node_state(7).unwrap_err(), Refusal::BadTable);
}

#[test]
fn tables_are_compared_hashed_and_shown() {
    let mut table = OwnedTable::new(Mode::Guarded);
    let empty = table.clone();
    table.add_node(7).unwrap();
    table.write(7, b"caf\xe9", b"", Wanted::Set).unwrap();
    assert_ne!(table, empty);
    assert_eq!(table, TableView::over(table.as_bytes()));
    let set = HashSet::from([table.clone(), empty.clone(), table.clone()]);
    assert_eq!(set.len(), 2);
    let record = r#"Record { key: b"caf\xe9", value: b"", version: 1, status: Set, start: 0 }"#;
    let node = format!("NodeState {{ number: 7, heartbeat: 0, max_version: 1, last_gc_version: 0, records: [{record}] }}");
    assert_eq!(format!("{table:?}"), format!("Table {{ mode: Guarded, profile: Free, node: {node} }}"));
    assert_eq!(format!("{:?}", TableView::over(&[0; TABLE - 1])), "Table(BadTable)");

    let mut labels = Overrides::new(7);
    assert_eq!(labels, Overrides::new(7));
    labels.write(b"caf\xe9", b"", Wanted::Set).unwrap();
    assert_eq!(format!("{labels:?}"), format!("Overrides [{record}]"));
    assert_eq!(HashSet::from([labels.clone(), labels.clone(), Overrides::new(7)]).len(), 2);

    let mut hub = Watched::new(table);
    assert_eq!(hub, hub.clone());
    hub.tell(3, Edition::V1, &[]).unwrap();
    assert!(format!("{hub:?}").ends_with("told: (3, 7, Pair { last_gc_version: 0, max_version: 0 }) }"), "{hub:?}");
    assert_eq!(HashSet::from([hub.clone(), Watched::new(empty)]).len(), 2);
}

#[test]
fn refusals_go_over_into_each_other() {
    fn all(table: &mut OwnedTable) -> Result<(), Refusal> {
        table.add_node(7)?;
        table.apply_delta(&[], 0)?;
        Err(ExchangeRefused { step: Step::Delta, refusal: Refusal::BadMtu })?
    }
    fn listing() -> Result<(), ListingRefused> {
        Err(Fault::from(Refusal::NoPlace))?
    }
    fn boxed() -> Result<(), Box<dyn std::error::Error + Send + Sync>> {
        make_delta(b"", &mut [])?;
        Ok(())
    }
    assert_eq!(all(&mut OwnedTable::new(Mode::Plain)), Err(Refusal::BadMtu));
    assert_eq!(listing().unwrap_err().to_string(), "a place past the end, or too little room");
    assert_eq!(boxed().unwrap_err().to_string(), "line 1 is not as it is listed");
    assert_eq!(list_delta(&[], &mut []).map_err(Fault::from), Err(Fault { refusal: Refusal::NoPlace, at: None, need: 0 }));
}

/// A shared table shows the records of both firms.
#[test]
fn a_shared_table_is_shown() {
    let mut table = OwnedTable::with_profile(Mode::Plain, Profile::Shared);
    table.add_node(7).unwrap();
    for (party, key) in [(Party::Metering, b"m/a"), (Party::Building, b"b/a")] {
        table.party_mut(party).write(7, key, b"1", Wanted::Set).unwrap();
    }
    let record = |key, version| format!(r#"Record {{ key: b"{key}", value: b"1", version: {version}, status: Set, start: 0 }}"#);
    let node = |party, record| format!("NodeState {{ party: {party}, number: 7, heartbeat: 0, max_version: 2, last_gc_version: 0, records: [{record}] }}");
    let (building, metering) = (node("Building", record("b/a", 2)), node("Metering", record("m/a", 1)));
    assert_eq!(format!("{table:?}"), format!("Table {{ mode: Plain, profile: Shared, node: {building}, node: {metering} }}"));
}

/// What is a plain value can be copied, compared, hashed and shown.
#[test]
fn plain_values() {
    fn plain<T: Copy + std::fmt::Debug + Eq + std::hash::Hash>() {}
    plain::<Mode>();
    plain::<Profile>();
    plain::<Party>();
    plain::<Status>();
    plain::<Wanted>();
    plain::<Answer>();
    plain::<Answers>();
    plain::<Edition>();
    plain::<NodeDigest>();
    plain::<Record<'_>>();
    plain::<Refusal>();
    plain::<Fault>();
    plain::<Step>();
    plain::<ExchangeRefused>();
    plain::<ListingRefused>();
}

/// The page of an owned table names every method that it has.
#[test]
fn the_page_of_an_owned_table_lists_its_methods() {
    let source = file("src/table.rs");
    let (before, _) = source.split_once("pub type OwnedTable").unwrap();
    let page: String = before.lines().rev().take_while(|line| line.starts_with("///")).collect();
    let mut methods = vec![];
    for name in ["src/table.rs", "src/over.rs"] {
        let mut own = false;
        for line in file(name).lines() {
            if line.starts_with("impl") {
                own = ["impl OwnedTable {", "impl<S: Bytes> Table<S> {", "impl<S: BytesMut> Table<S> {"].contains(&line);
            } else if let (true, Some(rest)) = (own, line.strip_prefix("    pub fn ")) {
                methods.push(rest.split(['(', '<']).next().unwrap().to_string());
            }
        }
    }
    assert!(methods.len() > 20, "{methods:?}");
    for method in methods {
        assert!(page.contains(&format!("[`{method}`]")), "OwnedTable's page does not name {method}");
    }
}

/// A table, a node and every refusal can go to another thread.
#[test]
fn they_go_to_other_threads() {
    fn sent<T: Send>() {}
    fn shared<T: Send + Sync>() {}
    shared::<OwnedTable>();
    shared::<Watched>();
    shared::<Overrides>();
    shared::<TableView<'_>>();
    shared::<LentTable<'_>>();
    shared::<Fault>();
    shared::<ListingRefused>();
    sent::<OwnedNode<'_>>();
}
