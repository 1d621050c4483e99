//! Tables of the meter profile, owned and lent.

use kevdarosh::{DIGEST, Datagrams, Edition, LentTable, Mode, OwnedTable, Profile, Refusal, Step, TABLE, TableView, Wanted, exchange};

macro_rules! story {
    ($table:expr) => {{
        let mut table = $table;
        table.add_node(7).unwrap();
        for (key, value) in [(&b"A"[..], &b"1"[..]), (b"", b"1"), (b"a b", b"1"), (b"a", b"1.5"), (b"a", b""), (b"a", b"12345678901")] {
            assert_eq!(table.write(7, key, value, Wanted::Set), Err(Refusal::BadForm));
        }
        assert_eq!(table.write(7, &[b'A'; 33], b"1", Wanted::Set), Err(Refusal::TooLong));
        assert_eq!(table.delete(7, b"A", 5), Err(Refusal::NoKey));
        assert_eq!(table.get(7, b"A"), Ok(None));
        table.write(7, b"a.1", b"", Wanted::Ttl(5)).unwrap();
        table.write(7, b"total", b"0041823", Wanted::Set).unwrap();
        assert_eq!(table.write(7, b"total", b"41283", Wanted::Set), Err(Refusal::SmallerTotal));
        assert_eq!(table.write(7, b"total", b"9", Wanted::Set), Err(Refusal::SmallerTotal));
        table.write(7, b"total", b"41823", Wanted::Ttl(6)).unwrap();
        table.delete_after_ttl(7, b"total", 7).unwrap();
        assert_eq!(table.write(7, b"total", b"", Wanted::Ttl(8)), Err(Refusal::SmallerTotal));
        table.delete(7, b"total", 9).unwrap();
        table.write(7, b"total", b"0", Wanted::Set).unwrap();
        assert_eq!((table.mode(), table.profile()), (Ok(Mode::Guarded), Ok(Profile::Meter)));
        table.as_bytes().to_vec()
    }};
}

#[test]
fn readings_alone() {
    let owned = story!(OwnedTable::with_profile(Mode::Guarded, Profile::Meter));
    let mut bytes = vec![0; TABLE];
    let lent = story!(LentTable::with_profile_in(&mut bytes, Mode::Guarded, Profile::Meter).unwrap());
    assert_eq!(owned, lent);
    assert_eq!(OwnedTable::from_bytes(&owned).and_then(|table| table.profile()), Ok(Profile::Meter));
    assert_eq!(LentTable::with_profile_in(&mut bytes[1..], Mode::Plain, Profile::Meter).err(), Some(Refusal::BadTable));
}

#[test]
fn a_table_is_free_unless_told() {
    assert_eq!(OwnedTable::new(Mode::Fenced).profile(), Ok(Profile::Free));
    assert_eq!(Profile::default(), Profile::Free);
    let mut bytes = vec![0; TABLE];
    assert_eq!(LentTable::new_in(&mut bytes, Mode::Plain).and_then(|table| table.profile()), Ok(Profile::Free));
    assert_eq!(OwnedTable::with_profile(Mode::Plain, Profile::Free).as_bytes(), bytes);
    assert_eq!(TableView::over(&bytes[1..]).profile(), Err(Refusal::BadTable));
}

#[test]
fn a_free_publisher_and_a_meter_follower() {
    let mut publisher = OwnedTable::new(Mode::Guarded);
    let mut follower = OwnedTable::with_profile(Mode::Guarded, Profile::Meter);
    for table in [&mut publisher, &mut follower] {
        table.add_node(7).unwrap();
        table.add_node(8).unwrap();
    }
    let (mut digest, mut delta) = ([0; DIGEST], [0; 1_400]);
    let mut hear = |publisher: &OwnedTable, follower: &mut OwnedTable| {
        let n = follower.compute_digest(Edition::V0, &[], &mut digest).unwrap();
        let sent = publisher.compute_partial_delta_respecting_mtu(Edition::V0, &digest[..n], 1_400, &[], &[0, 0], &mut delta).unwrap();
        follower.apply_delta(&delta[..sent.bytes], 1_000).map(|answers| answers.changed()).map_err(|fault| fault.refusal)
    };
    publisher.write(7, b"total", b"50", Wanted::Set).unwrap();
    assert_eq!(hear(&publisher, &mut follower), Ok(true));
    // From a peer a smaller total is taken.
    publisher.write(7, b"total", b"4", Wanted::Set).unwrap();
    assert_eq!(hear(&publisher, &mut follower), Ok(true));
    assert_eq!(follower.get(7, b"total"), Ok(Some(&b"4"[..])));
    // One record out of form: nothing of the delta is taken, not even of the other node.
    publisher.write(7, b"Note", b"1", Wanted::Set).unwrap();
    publisher.write(8, b"total", b"6", Wanted::Set).unwrap();
    let before = follower.as_bytes().to_vec();
    assert_eq!(hear(&publisher, &mut follower), Err(Refusal::BadForm));
    publisher.delete(7, b"Note", 2_000).unwrap();
    assert_eq!(hear(&publisher, &mut follower), Err(Refusal::BadForm));
    let (mut digest, mut delta, mut answers) = ([0; DIGEST], [0; 1_400], [9; 8]);
    let datagrams = Datagrams { digest: &mut digest, delta: &mut delta, answers: &mut answers };
    let mut lent = before.clone();
    let refused = exchange(publisher.as_bytes(), &mut lent, Edition::V0, 1_400, [&[], &[], &[0, 0]], 2_000, datagrams).unwrap_err();
    assert_eq!((refused.step, refused.refusal), (Step::Applying, Refusal::BadForm));
    assert_eq!((lent, answers), (before.clone(), [9; 8]));
    assert!(digest.iter().chain(&delta).all(|&byte| byte == 0) && follower.as_bytes() == before);
    // Once its tombstone is removed, all is well.
    publisher.gc_keys_marked_for_deletion(9_000, 1_000).unwrap();
    assert_eq!(hear(&publisher, &mut follower), Ok(true));
    assert_eq!(follower.get(8, b"total"), Ok(Some(&b"6"[..])));
}
