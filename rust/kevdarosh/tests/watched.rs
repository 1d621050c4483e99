//! Who has seen what: four storeys, one of which is switched off; every call and number of a watched table; nodes that come and go; on disk and back.

use kevdarosh::{DIGEST, Edition, GRID, Mode, OwnedTable, PEERS, Pair, Refusal, Wanted, Watched};

/// The storey's digest.
fn digest_of(storey: &OwnedTable) -> Vec<u8> {
    let mut digest = [0; DIGEST];
    let n = storey.compute_digest(Edition::V1, &[], &mut digest).unwrap();
    digest[..n].to_vec()
}

/// A digest of V1 by its entries: node, last_gc, max.
fn digest(entries: &[(u64, u64, u64)]) -> Vec<u8> {
    entries.iter().flat_map(|&(node, gc, max)| [node, 99, gc, max]).flat_map(u64::to_le_bytes).collect()
}

/// One hears another, at once.
fn hears(storeys: &mut [Watched], x: usize, y: usize, clock: u64) {
    let digest = digest_of(storeys[x].table());
    let mut delta = [0; 1_400];
    let sent = storeys[y].table().compute_partial_delta_respecting_mtu(Edition::V1, &digest, 1_400, &[], &[0], &mut delta).unwrap();
    storeys[x].apply_delta(&delta[..sent.bytes], clock).unwrap();
}

/// Everyone that is on tells everyone that is on, each by its storey's number.
fn tell_all(storeys: &mut [Watched], on: &[usize]) {
    for &x in on {
        for &y in on {
            if x != y {
                let digest = digest_of(storeys[y].table());
                storeys[x].tell(y as u64, Edition::V1, &digest).unwrap();
            }
        }
    }
}

fn last_gc(storey: &Watched) -> u64 {
    storey.table().node_state(7).unwrap().last_gc_version()
}

#[test]
fn tombstones_wait_for_the_storey_that_is_off() {
    let mut storeys: Vec<Watched> = (0..4).map(|_| Watched::new(OwnedTable::new(Mode::Plain))).collect();
    for storey in &mut storeys {
        storey.add_node(7).unwrap();
    }
    storeys[0].write(7, b"lamp", b"on", Wanted::Set).unwrap();
    storeys[0].write(7, b"door", b"shut", Wanted::Set).unwrap();
    for x in 1..4 {
        hears(&mut storeys, x, 0, 10);
    }
    tell_all(&mut storeys, &[0, 1, 2, 3]);
    // Storey 3 is switched off; the lamp is deleted, and the others hear and tell it.
    storeys[0].delete(7, b"lamp", 20).unwrap();
    for x in 1..3 {
        hears(&mut storeys, x, 0, 20);
    }
    tell_all(&mut storeys, &[0, 1, 2]);
    for storey in &mut storeys[..3] {
        assert_eq!(storey.least_max(7), Ok(2));
        assert_eq!(storey.told(3, 7), Ok(Some(Pair { last_gc_version: 0, max_version: 2 })));
        storey.remove_carefully(1_000_000, 500).unwrap();
        assert_eq!(last_gc(storey), 0, "it keeps its tombstone");
    }
    // On again, it hears of the tombstone and tells it, and the others need not wait any longer.
    let mut back = storeys.clone();
    hears(&mut back, 3, 1, 1_000_000);
    tell_all(&mut back, &[0, 1, 2, 3]);
    for storey in &mut back {
        assert_eq!(storey.least_max(7), Ok(3));
        storey.remove_carefully(2_000_000, 500).unwrap();
        assert_eq!(last_gc(storey), 3);
        assert_eq!(storey.table().get(7, b"lamp"), Ok(None));
    }
    // Or it stays off, and the caretaker takes it out: nobody waits for it.
    for storey in &mut storeys[..3] {
        storey.take_out(3).unwrap();
        assert_eq!(storey.told(3, 7), Ok(None));
        storey.remove_carefully(1_000_000, 500).unwrap();
        assert_eq!(last_gc(storey), 3);
    }
    // Switched on after all, it hears from one that removed, is reset, and is where the others are.
    hears(&mut storeys, 3, 0, 2_000_000);
    assert_eq!(storeys[3].table().get(7, b"lamp"), Ok(None));
    assert_eq!(storeys[3].table().get(7, b"door"), Ok(Some(&b"shut"[..])));
}

#[test]
fn the_numbers_come_in_their_order() {
    let mut hub = Watched::new(OwnedTable::new(Mode::Plain));
    assert_eq!(hub.least_max(9), Err(Refusal::NobodyPresent)); // 22 before 2
    assert_eq!(hub.remove_carefully(0, 0), Err(Refusal::NobodyPresent));
    assert_eq!(hub.tell(PEERS as u64, Edition::V0, &[]).map_err(|fault| fault.refusal), Err(Refusal::BadPeer)); // 21 before 9
    let cut = hub.tell(7, Edition::V0, &[1]).unwrap_err();
    assert_eq!((cut.refusal, cut.need), (Refusal::Cut, 1));
    let cut = hub.tell(7, Edition::V1, &[0; 31]).unwrap_err();
    assert_eq!((cut.refusal, cut.need), (Refusal::Cut, 1));
    assert_eq!(hub.tell(7, Edition::V0, &[9, 0]).map_err(|fault| fault.refusal), Err(Refusal::TooMany));
    assert_eq!(hub.least_max(9), Err(Refusal::NobodyPresent)); // a refused digest makes nobody present
    hub.tell(7, Edition::V0, &[0, 0]).unwrap();
    assert_eq!(hub.least_max(9), Err(Refusal::NoNode));
    assert_eq!(hub.told(8, 9), Err(Refusal::BadPeer)); // 21 before 2
    assert_eq!(hub.told(6, 9), Err(Refusal::NoNode)); // though the peer is absent
    hub.add_node(9).unwrap();
    assert_eq!(hub.least_max(9), Ok(0));
    assert_eq!(hub.told(6, 9), Ok(None));
    assert_eq!(hub.take_out(8), Err(Refusal::BadPeer));
    assert_eq!(hub.take_out(6), Ok(()));
    hub.remove_node(9).unwrap();
    assert_eq!(hub.remove_node(9), Err(Refusal::NoNode));
    for node in 0..8 {
        hub.add_node(node).unwrap();
    }
    let (table, grid) = (hub.table().as_bytes().to_vec(), hub.grid_bytes().to_vec());
    assert_eq!(hub.add_node(8), Err(Refusal::NinthNode));
    assert_eq!(hub.add_node(7), Ok(()));
    assert_eq!((hub.table().as_bytes(), hub.grid_bytes()), (&table[..], &grid[..]));
}

#[test]
fn a_digest_takes_the_place_of_the_one_before() {
    let mut hub = Watched::new(OwnedTable::new(Mode::Plain));
    hub.add_node(7).unwrap();
    hub.add_node(9).unwrap();
    let pair = |last_gc_version, max_version| Ok(Some(Pair { last_gc_version, max_version }));
    hub.tell(2, Edition::V1, &digest(&[(9, 4, 8), (7, 1, 5), (8, 9, 9)])).unwrap();
    assert_eq!((hub.told(2, 7), hub.told(2, 9)), (pair(1, 5), pair(4, 8)));
    // Both fall; of a repeated node the last entry counts; what is omitted is (0,0).
    hub.tell(2, Edition::V1, &digest(&[(7, 9, 9), (7, 0, 3)])).unwrap();
    assert_eq!((hub.told(2, 7), hub.told(2, 9)), (pair(0, 3), pair(0, 0)));
    // A stranger's pair was not kept for when it comes.
    hub.add_node(8).unwrap();
    assert_eq!((hub.told(2, 7), hub.told(2, 8), hub.told(2, 9)), (pair(0, 3), pair(0, 0), pair(0, 0)));
    hub.tell(5, Edition::V1, &digest(&[(7, 0, 9), (8, 2, 2), (9, 3, 3)])).unwrap();
    assert_eq!((hub.least_max(7), hub.least_max(8), hub.least_max(9)), (Ok(3), Ok(0), Ok(0)));
    // A column goes, and the others keep what is theirs.
    hub.remove_node(7).unwrap();
    assert_eq!((hub.told(5, 8), hub.told(5, 9)), (pair(2, 2), pair(3, 3)));
    hub.take_out(2).unwrap();
    assert_eq!((hub.least_max(8), hub.least_max(9)), (Ok(2), Ok(3)));
    // One that comes again comes at (0,0).
    hub.add_node(7).unwrap();
    assert_eq!(hub.told(5, 7), pair(0, 0));
}

#[test]
fn the_other_calls_are_the_table_s() {
    let (mut hub, mut table) = (Watched::new(OwnedTable::new(Mode::Fenced)), OwnedTable::new(Mode::Fenced));
    macro_rules! both {
        ($($call:tt)*) => {{
            let told = (hub.$($call)*, table.$($call)*);
            assert_eq!(told.0, told.1);
            assert_eq!(hub.table().as_bytes(), table.as_bytes());
        }};
    }
    both!(add_node(7));
    both!(write(7, b"a", b"1", Wanted::Set));
    both!(write(7, b"b", b"2", Wanted::Ttl(5)));
    both!(write(8, b"b", b"2", Wanted::Set));
    both!(delete(7, b"a", 6));
    both!(delete(7, b"absent", 6));
    both!(delete_after_ttl(7, b"b", 6));
    both!(inc_heartbeat(7));
    both!(try_set_heartbeat(7, 50));
    both!(try_set_heartbeat(7, 50));
    let mut delta = [0; 1_400];
    let sent = table.compute_partial_delta_respecting_mtu(Edition::V0, &[0, 0], 1_400, &[], &[0], &mut delta).unwrap();
    both!(apply_delta(&delta[..sent.bytes], 7));
    both!(apply_delta(&delta[..9], 7));
    both!(gc_keys_marked_for_deletion(50, 20));
    both!(remove_node(7));
    both!(remove_node(7));
    assert_eq!(hub.into_table().as_bytes(), table.as_bytes());
}

#[test]
fn on_disk_and_back() {
    let mut hub = Watched::new(OwnedTable::new(Mode::Guarded));
    hub.add_node(7).unwrap();
    hub.write(7, b"lamp", b"on", Wanted::Set).unwrap();
    hub.delete(7, b"lamp", 0).unwrap();
    let (table, nobody) = (hub.table().as_bytes().to_vec(), hub.grid_bytes().to_vec());
    hub.tell(1, Edition::V1, &digest(&[(7, 0, 2)])).unwrap();
    let grid = hub.grid_bytes().to_vec();
    assert_eq!(grid.len(), GRID);
    // What was stored comes back byte for byte, somebody present or nobody, and nothing was removed on the way.
    for stored in [&nobody, &grid] {
        let again = Watched::from_bytes(&table, stored).unwrap();
        assert_eq!((again.table().as_bytes(), again.grid_bytes()), (&table[..], &stored[..]));
    }
    // A node came past the grid, or went: the two do not belong together.
    let mut more = hub.table().clone();
    more.add_node(9).unwrap();
    assert_eq!(Watched::from_bytes(more.as_bytes(), &grid).err(), Some(Refusal::BadTable));
    more.remove_node(7).unwrap();
    assert_eq!(Watched::from_bytes(more.as_bytes(), &grid).err(), Some(Refusal::BadTable));
    // One that went and came again is not seen.
    let mut anew = hub.table().clone();
    anew.remove_node(7).unwrap();
    anew.add_node(7).unwrap();
    assert_eq!(Watched::from_bytes(anew.as_bytes(), &grid).unwrap().least_max(7), Ok(2));
    // A byte was lost.
    let mut odd = grid.clone();
    odd[65] = 2;
    for bad in [&grid[1..], &[9; GRID], &[], &table, &odd] {
        assert_eq!(Watched::from_bytes(&table, bad).err(), Some(Refusal::BadTable));
    }
    assert_eq!(Watched::from_bytes(&table[1..], &grid).err(), Some(Refusal::BadTable));
}
