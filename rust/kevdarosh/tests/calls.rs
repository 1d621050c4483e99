//! Every call of the crate, on an owned and on a lent table; the refusals by number.

use kevdarosh::{Answer, DIGEST, Datagrams, Digest, Edition, ExchangeRefused, Fault, LISTING, LentTable, ListingRefused, Mode, OwnedTable, Party, Profile, Refusal, Status, Step, TABLE, TABLE_LISTING, TableView, Wanted, delta_nodes, exchange, list_delta, make_delta, read_delta};

/// The same story for both kinds of table.
macro_rules! story {
    ($table:expr) => {{
        let mut table = $table;
        assert_eq!(table.mode(), Ok(Mode::Fenced));
        assert_eq!(table.node_state(7).err(), Some(Refusal::NoNode));
        for node in [7, 3, 12] {
            table.add_node(node).unwrap();
        }
        assert_eq!(table.nodes().unwrap().collect::<Vec<_>>(), [3, 7, 12]);
        table.write(7, b"total", b"1", Wanted::Set).unwrap();
        table.write(7, b"total", b"1", Wanted::Set).unwrap();
        table.write(7, b"tariff", b"night", Wanted::Ttl(10)).unwrap();
        table.write(7, b"", b"", Wanted::Set).unwrap();
        table.delete(7, b"total", 20).unwrap();
        table.delete_after_ttl(7, b"", 20).unwrap();
        assert_eq!(table.delete(7, b"absent", 20), Err(Refusal::NoKey));
        assert_eq!(table.write(7, &[b'k'; 33], b"", Wanted::Set), Err(Refusal::TooLong));
        assert_eq!(table.write(7, b"k", &[b'v'; 65], Wanted::Set), Err(Refusal::TooLong));
        assert_eq!(table.write(8, b"k", b"v", Wanted::Set), Err(Refusal::NoNode));
        assert_eq!(table.try_set_heartbeat(7, 5), Ok(false));
        assert_eq!(table.try_set_heartbeat(7, 6), Ok(true));
        table.inc_heartbeat(7).unwrap();
        table.try_set_heartbeat(3, u64::MAX).unwrap();
        assert_eq!(table.inc_heartbeat(3), Err(Refusal::Exhausted));
        {
            let node = table.node_state(7).unwrap();
            assert_eq!((node.number(), node.heartbeat(), node.max_version(), node.last_gc_version()), (7, 7, 5, 0));
            assert_eq!(node.get(b"total"), Ok(None));
            assert_eq!(node.get(b"tariff"), Ok(Some(&b"night"[..])));
            assert_eq!(node.get(b""), Ok(Some(&b""[..])));
            assert_eq!((node.contains_key(b"total"), node.contains_key(b"tariff")), (Ok(false), Ok(true)));
            assert_eq!(node.get(&[0; 33]), Err(Refusal::TooLong));
            let total = node.get_versioned(b"total").unwrap().unwrap();
            assert_eq!((total.status, total.version, total.start, total.value, total.is_hidden()), (Status::Deleted, 4, 20, &b""[..], true));
            assert_eq!(node.get_versioned(b"absent"), Ok(None));
            assert_eq!(node.key_values_including_deleted().map(|record| record.key).collect::<Vec<_>>(), [&b""[..], b"tariff", b"total"]);
            assert_eq!(node.key_values().collect::<Vec<_>>(), [(&b""[..], &b""[..]), (b"tariff", b"night")]);
            assert_eq!(node.num_key_values(), 2);
            assert_eq!(node.iter_prefix(b"t").unwrap().map(|record| record.status).collect::<Vec<_>>(), [Status::DeleteAfterTtl]);
            assert_eq!(node.iter_prefix(&[0; 33]).err(), Some(Refusal::TooLong));
        }
        table.gc_keys_marked_for_deletion(59, 40).unwrap();
        assert_eq!(table.node_state(7).unwrap().last_gc_version(), 2);
        assert_eq!(table.last_heartbeat_if_deleted(12), Ok(None));
        table.remove_node(12).unwrap();
        assert_eq!((table.last_heartbeat_if_deleted(12), table.last_heartbeat_if_deleted(7)), (Ok(Some(0)), Ok(None)));
        assert_eq!(table.remove_node(12), Err(Refusal::NoNode));
        for node in 20..26 {
            table.add_node(node).unwrap();
        }
        assert_eq!(table.add_node(26), Err(Refusal::NinthNode));
        for key in 0..31u8 {
            let _ = table.write(20, &[key], b"", Wanted::Set);
        }
        table.write(20, &[31], b"", Wanted::Set).unwrap();
        assert_eq!(table.write(20, &[32], b"", Wanted::Set), Err(Refusal::NodeFull));

        // a digest and a delta, and what is at fault in them
        let (mut digest, mut delta) = ([0; DIGEST], [0; 1_400]);
        let bytes = table.compute_digest(Edition::V0, &[], &mut digest).unwrap();
        assert_eq!(table.compute_digest(Edition::V0, &[], &mut digest[..bytes - 1]), Err(Refusal::NoPlace));
        let read = Digest::read(Edition::V0, &digest).unwrap();
        assert_eq!((read.len(), read.is_empty(), read.rest().len()), (8, false, DIGEST - bytes));
        assert_eq!(read.nodes().map(|node| (node.node, node.max_version)).take(3).collect::<Vec<_>>(), [(3, 0), (7, 5), (20, 32)]);
        let fault = |refusal, at, need| Fault { refusal, at, need };
        assert_eq!(Digest::read(Edition::V0, &[1]).err(), Some(fault(Refusal::Cut, None, 1)));
        assert_eq!(Digest::read(Edition::V0, &[9, 0]).err(), Some(fault(Refusal::TooMany, None, 0)));
        assert_eq!(Digest::read(Edition::V1, &[0; 33]).err(), Some(fault(Refusal::Cut, None, 7)));
        assert_eq!(Digest::read(Edition::V1, &[0; 9 * 32]).err(), Some(fault(Refusal::TooMany, None, 0)));
        assert_eq!(Digest::read(Edition::V1, &digest[2..bytes]).unwrap().nodes().collect::<Vec<_>>(), read.nodes().collect::<Vec<_>>());
        let mut second = [0; DIGEST];
        assert_eq!(table.compute_digest(Edition::V1, &[], &mut second), Ok(bytes - 2));
        assert_eq!(second[..bytes - 2], digest[2..bytes]);
        let ties = [0; 8];
        let mut compute = |digest: &[u8], mtu: usize, ties: &[u64]| table.compute_partial_delta_respecting_mtu(Edition::V0, digest, mtu, &[3], ties, &mut delta);
        assert_eq!(compute(&[0, 0], 99, &ties), Err(fault(Refusal::BadMtu, None, 0)));
        assert_eq!(compute(&[0, 0], 1_401, &ties), Err(fault(Refusal::NoPlace, None, 0)));
        assert_eq!(compute(&[0, 0], 1_400, &ties[1..]), Err(fault(Refusal::BadTies, None, 0)));
        assert_eq!(compute(&[0], 1_400, &ties), Err(fault(Refusal::Cut, None, 1)));
        let sent = compute(&[0, 0], 1_400, &ties).unwrap();
        assert_eq!(read_delta(&delta[..sent.bytes]).unwrap().ops, sent.ops);
        let mut text = vec![0; LISTING];
        let listed = list_delta(&delta[..sent.bytes], &mut text).unwrap();
        assert!(text[..listed].starts_with(b"op=node id="));
        assert_eq!(list_delta(&delta[..sent.bytes], &mut [0; 3]), Err(Refusal::NoPlace));
        let mut again = vec![238; sent.bytes + 1];
        assert_eq!(make_delta(&text[..listed], &mut again), Ok(sent.bytes));
        assert!(again[..sent.bytes] == delta[..sent.bytes] && again[sent.bytes] == 238);
        again.fill(238);
        assert_eq!(make_delta(&text[..listed - 1], &mut again), Err(ListingRefused::Line(sent.ops + 1)));
        let unplaced = make_delta(&text[..listed], &mut again[..sent.bytes - 1]).unwrap_err();
        assert_eq!((unplaced, unplaced.number()), (ListingRefused::Delta(fault(Refusal::NoPlace, None, 0)), 8));
        let unordered = make_delta(b"op=max version=5\nend=ok ops=1 bytes=9\n", &mut again).unwrap_err();
        assert_eq!(unordered, ListingRefused::Delta(fault(Refusal::OutOfOrder, Some(0), 0)));
        assert!(again.iter().all(|&byte| byte == 238));
        for (bytes, refusal, at) in [(&[3][..], Refusal::BadTag, 0), (&[0; 50], Refusal::NodeTwice, 25), (&[2; 9], Refusal::OutOfOrder, 0), (&[0; 16_385], Refusal::TooMany, 0)] {
            let fault = fault(refusal, Some(at), 0);
            assert_eq!((read_delta(bytes).err(), table.apply_delta(bytes, 0).err()), (Some(fault), Some(fault)));
        }
        let answers = table.apply_delta(&delta[..sent.bytes], 0).unwrap();
        assert!(!answers.changed() && answers.iter().all(|answer| answer == Answer::Reject));
        table.as_bytes().to_vec()
    }};
}

#[test]
fn one_write_under_either_status() {
    let mut table = OwnedTable::new(Mode::Plain);
    table.add_node(7).unwrap();
    for (wanted, told) in [
        (Wanted::Set, (Status::Set, 1, 0)),
        (Wanted::Set, (Status::Set, 1, 0)),
        (Wanted::Ttl(10), (Status::DeleteAfterTtl, 2, 10)),
        (Wanted::Ttl(20), (Status::DeleteAfterTtl, 2, 10)),
        (Wanted::Set, (Status::Set, 3, 0)),
    ] {
        table.write(7, b"k", b"v", wanted).unwrap();
        let node = table.node_state(7).unwrap();
        let record = node.get_versioned(b"k").unwrap().unwrap();
        assert_eq!((record.status, record.version, record.start), told);
    }
}

#[test]
fn an_owned_and_a_lent_table_do_the_same() {
    let owned = story!(OwnedTable::new(Mode::Fenced));
    let mut bytes = vec![1; TABLE];
    assert_eq!(LentTable::new_in(&mut bytes[1..], Mode::Plain).err(), Some(Refusal::BadTable));
    let lent = story!(LentTable::new_in(&mut bytes, Mode::Fenced).unwrap());
    assert!(owned == lent, "the tables differ");
    assert!(OwnedTable::from_bytes(&lent).unwrap().as_bytes() == lent);
    assert_eq!(TableView::over(&lent).get(7, b"tariff"), Ok(None));
}

#[test]
fn bytes_that_are_no_table_are_refused() {
    let mut bytes = OwnedTable::new(Mode::Plain).as_bytes().to_vec();
    assert_eq!(OwnedTable::from_bytes(&bytes[1..]).err(), Some(Refusal::BadTable));
    bytes[TABLE - 1] = 1;
    assert_eq!(OwnedTable::from_bytes(&bytes).err(), Some(Refusal::BadTable));
    assert_eq!(TableView::over(&bytes).nodes().err(), Some(Refusal::BadTable));
    assert_eq!(TableView::over(&bytes).mode(), Err(Refusal::BadTable));
}

#[test]
fn an_exchange_in_one_call() {
    let mut publisher = OwnedTable::new(Mode::Plain);
    publisher.add_node(7).unwrap();
    publisher.write(7, b"total", b"1", Wanted::Set).unwrap();
    let mut follower = vec![0; TABLE];
    LentTable::new_in(&mut follower, Mode::Plain).unwrap().add_node(7).unwrap();
    let unanswered = exchange(publisher.as_bytes(), &mut follower.clone(), Edition::V1, 1_400, [&[], &[], &[0]], 5, Datagrams { digest: &mut [0; DIGEST], delta: &mut [0; 1_400], answers: &mut [] });
    assert_eq!(unanswered.unwrap_err(), ExchangeRefused { step: Step::Applying, refusal: Refusal::NoPlace });
    let (mut digest, mut delta, mut answers) = ([0; DIGEST], [0; 1_400], [9; 8]);
    let mut run = |mtu: usize, ties: &[u64]| {
        let datagrams = Datagrams { digest: &mut digest, delta: &mut delta, answers: &mut answers };
        exchange(publisher.as_bytes(), &mut follower, Edition::V1, mtu, [&[], &[], ties], 5, datagrams)
    };
    let refused = run(1_400, &[]).unwrap_err();
    assert_eq!((refused.step, refused.refusal), (Step::Delta, Refusal::BadTies));
    assert_eq!(refused.to_string(), "the delta: not one tie for each node of the table");
    assert_eq!(run(1_400, &[0]).map(|done| (done.ops, done.nodes)), Ok((2, 1)));
    assert_eq!(answers[0], 1);
    assert_eq!(TableView::over(&follower).get(7, b"total"), Ok(Some(&b"1"[..])));
}

#[test]
fn modes_stay_in_the_bytes() {
    for mode in [Mode::Plain, Mode::Fenced, Mode::Guarded] {
        let table = OwnedTable::new(mode);
        assert_eq!(table.mode(), Ok(mode));
        assert_eq!(OwnedTable::from_bytes(table.as_bytes()).unwrap().mode(), Ok(mode));
        assert_eq!(TableView::over(table.as_bytes()).mode(), Ok(mode));
    }
}

#[test]
fn a_late_delta_is_fenced() {
    let (mut digest, mut late, mut delta) = ([0; DIGEST], [0; 200], [0; 200]);
    let mut publisher = OwnedTable::new(Mode::Plain);
    let mut follower = OwnedTable::new(Mode::Fenced);
    publisher.add_node(7).unwrap();
    follower.add_node(7).unwrap();
    publisher.write(7, b"a", b"1", Wanted::Set).unwrap();
    publisher.write(7, b"b", b"1", Wanted::Set).unwrap();
    let n = follower.compute_digest(Edition::V0, &[], &mut digest).unwrap();
    let held = publisher.compute_partial_delta_respecting_mtu(Edition::V0, &digest[..n], 200, &[], &[0], &mut late).unwrap();
    publisher.delete(7, b"b", 0).unwrap();
    publisher.gc_keys_marked_for_deletion(10, 5).unwrap();
    publisher.write(7, b"c", &[b'x'; 60], Wanted::Set).unwrap();
    let sent = publisher.compute_partial_delta_respecting_mtu(Edition::V0, &digest[..n], 100, &[], &[0], &mut delta).unwrap();
    assert_eq!(follower.apply_delta(&delta[..sent.bytes], 10).unwrap().iter().collect::<Vec<_>>(), [Answer::ApplyAfterReset]);
    assert_eq!(follower.apply_delta(&late[..held.bytes], 10).unwrap().iter().collect::<Vec<_>>(), [Answer::Fenced]);
    assert_eq!(follower.get(7, b"b"), Ok(None));
}

#[test]
fn numbers_and_words() {
    assert_eq!(Refusal::ALL.iter().map(|refusal| refusal.number()).collect::<Vec<_>>(), (1..=15).chain(17..=23).collect::<Vec<_>>());
    for refusal in Refusal::ALL {
        assert_eq!(Refusal::of_number(refusal.number()), Some(*refusal));
        assert!(!refusal.to_string().is_empty());
    }
    assert_eq!(Refusal::of_number(0), None);
    let error: &dyn std::error::Error = &Fault { refusal: Refusal::Cut, at: Some(3), need: 2 };
    assert_eq!(error.to_string(), "the bytes end inside a field, at byte 3, 2 bytes are lacking");
    // Where there is no delta there is no place to speak of.
    let table = OwnedTable::new(Mode::Plain);
    let refused = table.compute_partial_delta_respecting_mtu(Edition::V0, &[0, 0], 99, &[], &[], &mut [0; 99]).unwrap_err();
    assert_eq!(refused.to_string(), "an MTU below 100 or above 16,384");
    assert_eq!(Digest::read(Edition::V0, &[1]).unwrap_err().to_string(), "the bytes end inside a field, 1 byte is lacking");
    assert_eq!(LentTable::over(&mut [0; 9]).apply_delta(&[], 0).unwrap_err().at, None);
}

/// Going through records reads them in the table's bytes: each must be what the call for that record tells, in a full node with keys and values of every
/// length, from the front and from the back, of all records and of those with a prefix.
#[test]
fn records_read_in_the_table() {
    let mut table = OwnedTable::new(Mode::Plain);
    for node in [1, 2, u64::MAX] {
        table.add_node(node).unwrap();
    }
    let keys: Vec<Vec<u8>> = (0..32).map(|i| (0..=i).map(|j| if j < 3 { (i >> (2 - j) & 1) as u8 } else { 0xFF }).collect()).collect();
    for (i, key) in keys.iter().enumerate() {
        table.write(2, key, &vec![i as u8; 2 * i + 2], Wanted::Set).unwrap();
        match i % 4 {
            1 => table.delete(2, key, u64::MAX - i as u64).unwrap(),
            2 => table.delete_after_ttl(2, key, i as u64).unwrap(),
            _ => {}
        }
    }
    let lent = TableView::over(table.as_bytes());
    let (owned, lent) = (table.node_state(2).unwrap(), lent.node_state(2).unwrap());
    let mut sorted = keys.clone();
    sorted.sort();
    let told: Vec<_> = sorted.iter().map(|key| owned.get_versioned(key).unwrap().unwrap()).collect();
    assert!(told.iter().any(|record| record.value.len() == 64) && told.iter().any(|record| record.key.len() == 32));
    assert_eq!(owned.key_values_including_deleted().len(), 32);
    assert_eq!(owned.key_values_including_deleted().collect::<Vec<_>>(), told);
    assert_eq!(lent.key_values_including_deleted().collect::<Vec<_>>(), told);
    assert!(owned.key_values_including_deleted().rev().eq(told.iter().rev().copied()));
    assert!(owned.key_values().eq(told.iter().filter(|record| !record.is_hidden()).map(|record| (record.key, record.value))));
    assert_eq!(owned.num_key_values(), 24);
    for prefix in keys.iter().flat_map(|key| (0..=key.len()).map(|n| &key[..n])).chain([&[2][..], &[0xFF; 32]]) {
        let hits: Vec<_> = told.iter().filter(|record| record.key.starts_with(prefix) && !record.is_hidden()).copied().collect();
        assert_eq!(owned.iter_prefix(prefix).unwrap().collect::<Vec<_>>(), hits, "{prefix:?}");
        assert_eq!(lent.iter_prefix(prefix).unwrap().rev().collect::<Vec<_>>(), hits.iter().rev().copied().collect::<Vec<_>>(), "{prefix:?}");
    }
    let other = table.node_state(1).unwrap();
    assert_eq!((other.key_values_including_deleted().len(), other.iter_prefix(b"").unwrap().count()), (0, 0));
}

/// A table of each kind listed, and what is wrong with bytes that are none: the first thing that has a name.
#[test]
fn a_table_listed() {
    let list = |bytes: &[u8]| {
        let mut text = vec![0; TABLE_LISTING];
        let listed = TableView::over(bytes).listing(&mut text).unwrap();
        let mut exactly = vec![238; listed];
        assert_eq!(TableView::over(bytes).listing(&mut exactly[..listed - 1]), Err(Refusal::NoPlace));
        assert!(exactly.iter().all(|&byte| byte == 238), "untouched");
        assert_eq!(TableView::over(bytes).listing(&mut exactly), Ok(listed));
        assert_eq!(exactly, text[..listed]);
        String::from_utf8(exactly).unwrap()
    };
    for (mode, first) in [(Mode::Plain, "mode=plain"), (Mode::Fenced, "mode=fenced"), (Mode::Guarded, "mode=guarded")] {
        for (profile, second) in [(Profile::Free, "profile=free"), (Profile::Meter, "profile=meter"), (Profile::Shared, "profile=shared")] {
            let mut table = OwnedTable::with_profile(mode, profile);
            assert_eq!(list(table.as_bytes()), format!("{first} {second}\nend=ok nodes=0 records=0 removed=0\n"));
            for node in [9, 7, 8] {
                table.add_node(node).unwrap();
            }
            table.inc_heartbeat(9).unwrap();
            table.remove_node(9).unwrap();
            let mut owner = table.party_mut(Party::Metering);
            owner.write(7, if profile == Profile::Shared { b"m/1" } else { b"flat.1" }, b"41", Wanted::Set).unwrap();
            let key = if profile == Profile::Shared { "m/1" } else { "flat.1" };
            let text = list(table.as_bytes());
            assert_eq!(text, format!("{first} {second}\nnode=7 heartbeat=0 max=1 gc=0\nkey={key} value=41 version=1 status=set start=0\nnode=8 heartbeat=0 max=0 gc=0\nremoved=9 heartbeat=1\nend=ok nodes=2 records=1 removed=1\n"));
            let mut room = vec![0; TABLE_LISTING];
            assert_eq!(table.listing(&mut room).map(|listed| room[..listed] == *text.as_bytes()), Ok(true), "an owned one");
        }
    }
    let mut table = OwnedTable::new(Mode::Plain);
    table.add_node(7).unwrap();
    table.add_node(8).unwrap();
    let damaged = |places: &[(usize, u8)]| {
        let mut bytes = table.as_bytes().to_vec();
        for &(at, byte) in places {
            bytes[at] = byte;
        }
        list(&bytes)
    };
    // the mode stands behind eight nodes, then the profile and the count of removed nodes
    let tail = 1 + 8 * 3_713;
    for (places, wrong) in [
        (&[(0, 9), (33, 33), (tail, 3)][..], " nodes=9"),
        (&[(1 + 3_713 + 32, 33), (tail, 3)], " place=1"),
        (&[(1 + 32, 33), (1 + 3_713 + 32, 33)], " place=0"),
        (&[(tail, 3), (tail + 1, 9)], " mode=3"),
        (&[(tail + 1, 9), (tail + 2, 17)], " profile=9"),
        (&[(tail + 2, 17)], ""),
        (&[(1, 9)], ""),
        (&[(TABLE - 1, 1)], ""),
    ] {
        assert_eq!(damaged(places), format!("end=refused code=14{wrong}\n"), "{places:?}");
    }
    assert_eq!(list(&[]), "end=refused code=14 length=0\n");
    assert_eq!(list(&[0; TABLE + 1]), format!("end=refused code=14 length={}\n", TABLE + 1));
}

/// The nodes that a delta names, in its order, and a delta at fault as reading it tells.
#[test]
fn the_nodes_of_a_delta() {
    let node = |number: u64| [&[0][..], &number.to_le_bytes(), &[0; 16]].concat();
    for numbers in [&[][..], &[7], &[u64::MAX, 0, 9], &[8, 7, 6, 5, 4, 3, 2, 1]] {
        let delta: Vec<u8> = numbers.iter().flat_map(|&number| [node(number), vec![2, 9, 0, 0, 0, 0, 0, 0, 0]].concat()).collect();
        assert_eq!(delta_nodes(&delta).unwrap().as_slice(), numbers);
    }
    let nine: Vec<u8> = (0..9).flat_map(node).collect();
    for (bytes, refusal) in [(&nine[..], Refusal::TooMany), (&[0; 12], Refusal::Cut), (&[1, 33, 0], Refusal::TooLong), (&[3], Refusal::BadTag), (&[2; 9], Refusal::OutOfOrder), (&[0; 50], Refusal::NodeTwice)] {
        assert_eq!(delta_nodes(bytes).map_err(|fault| fault.refusal), Err(refusal));
        assert_eq!(delta_nodes(bytes).err(), read_delta(bytes).err());
    }
}

#[test]
fn nodes_and_headers_are_read_once() {
    let numbers = [0, 1, 255, 256, 1 << 32, (1 << 63) - 1, 1 << 63, u64::MAX];
    let mut table = OwnedTable::new(Mode::Plain);
    for (i, &number) in numbers.iter().enumerate() {
        assert_eq!(table.nodes().unwrap().len(), i);
        table.add_node(number).unwrap();
        for value in [b"1", b"2"] {
            table.write(number, b"k", value, Wanted::Set).unwrap();
        }
        table.inc_heartbeat(number).unwrap();
        assert!(table.nodes().unwrap().eq(numbers[..=i].iter().copied()));
        let view = TableView::over(table.as_bytes());
        assert!(view.nodes().unwrap().eq(numbers[..=i].iter().copied()));
        let (owned, lent) = (table.node_state(number).unwrap(), view.node_state(number).unwrap());
        assert_eq!((owned.heartbeat(), owned.max_version(), owned.last_gc_version()), (1, 2, 0));
        assert_eq!((lent.heartbeat(), lent.max_version(), lent.last_gc_version()), (1, 2, 0));
        assert_eq!(owned.header(), lent.header());
    }
}
