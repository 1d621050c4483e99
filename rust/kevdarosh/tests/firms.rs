//! Two firms on one table, through the crate: what one is told does not depend on the other, and each has its sixteen.

use kevdarosh::{Answer, EACH, Edition, LentTable, Mode, Overrides, OwnedTable, Party, Profile, Record, Refusal, TABLE, Table, TableView, Wanted};

fn shared() -> OwnedTable {
    let mut table = OwnedTable::with_profile(Mode::Guarded, Profile::Shared);
    table.add_node(7).unwrap();
    table
}

/// The records of a party without their versions.
fn told<'a>(records: impl Iterator<Item = Record<'a>>) -> Vec<(Vec<u8>, Vec<u8>, kevdarosh::Status, u64)> {
    records.map(|record| (record.key.to_vec(), record.value.to_vec(), record.status, record.start)).collect()
}

/// Numbers from a seed.
struct Random(u64);

impl Random {
    fn below(&mut self, n: u64) -> u64 {
        self.0 ^= self.0 << 13;
        self.0 ^= self.0 >> 7;
        self.0 ^= self.0 << 17;
        self.0 % n
    }
}

#[test]
fn one_fills_its_sixteen_and_the_other_does_not_notice() {
    let mut table = shared();
    for flat in 0..EACH as u8 {
        table.party_mut(Party::Building).write(7, &[b'b', b'/', flat], b"label", Wanted::Set).unwrap();
    }
    assert_eq!(table.party_mut(Party::Building).write(7, b"b/more", b"label", Wanted::Set), Err(Refusal::NodeFull));
    table.party_mut(Party::Metering).write(7, b"m/total", b"41823", Wanted::Set).unwrap();
    let firm = table.party(Party::Metering);
    assert_eq!(firm.get(7, b"m/total"), Ok(Some(&b"41823"[..])));
    let node = firm.node_state(7).unwrap();
    assert_eq!(told(node.key_values_including_deleted()), told(node.iter_prefix(b"").unwrap()));
    assert_eq!(node.key_values().collect::<Vec<_>>(), [(&b"m/total"[..], &b"41823"[..])]);
    assert_eq!(node.get_versioned(b"m/total").unwrap().unwrap().value, b"41823");
    assert_eq!(node.iter_prefix(b"b/").unwrap().count(), 0);
    for (party, key) in [(Party::Metering, &b"b/\0"[..]), (Party::Building, b"m/total"), (Party::Nobody, b"m/total"), (Party::Metering, b"x")] {
        assert_eq!(table.party(party).get(7, key), Err(Refusal::OtherParty));
        assert_eq!(table.party(party).node_state(7).unwrap().get_versioned(key), Err(Refusal::OtherParty));
        assert_eq!(table.party_mut(party).delete(7, key, 5), Err(Refusal::OtherParty));
        assert_eq!(table.party_mut(party).delete_after_ttl(7, key, 5), Err(Refusal::OtherParty));
        assert_eq!(table.party_mut(party).write(7, key, b"", Wanted::Set), Err(Refusal::OtherParty));
    }
    assert_eq!(table.node_state(7).unwrap().key_values().count(), 0);
    assert_eq!(table.get(7, b"m/total"), Err(Refusal::OtherParty));
}

/// The two-run theorem, asked of the library itself: the same calls of one firm, with and without the other's between them.
#[test]
fn what_a_firm_is_told_does_not_depend_on_the_other() {
    for seed in 1..=40 {
        let mut random = Random(0x9E37_79B9_7F4A_7C15_u64.wrapping_mul(seed));
        let mut others = Random(seed ^ 0xD1B5_4A32_D192_ED03);
        let (mine, other) = if seed % 2 == 0 { (Party::Metering, Party::Building) } else { (Party::Building, Party::Metering) };
        let letter = |party| if party == Party::Metering { b'm' } else { b'b' };
        let (mut alone, mut both) = (shared(), shared());
        for turn in 0..400 {
            for _ in 0..others.below(4) {
                let key = [letter(other), b'/', b'a' + others.below(20) as u8];
                let mut theirs = both.party_mut(other);
                let _ = match others.below(4) {
                    0 | 1 => theirs.write(7, &key, &[others.below(3) as u8], if others.below(2) == 0 { Wanted::Set } else { Wanted::Ttl(turn) }),
                    2 => theirs.delete(7, &key, turn),
                    _ => theirs.delete_after_ttl(7, &key, turn),
                };
            }
            let key = [if random.below(12) == 0 { letter(other) } else { letter(mine) }, b'/', b'a' + random.below(20) as u8];
            let (value, ttl, kind) = ([random.below(3) as u8], random.below(2) == 0, random.below(6));
            let call = |table: &mut OwnedTable| {
                let mut ours = table.party_mut(mine);
                match kind {
                    0..=2 => ours.write(7, &key, &value, if ttl { Wanted::Ttl(turn) } else { Wanted::Set }),
                    3 => ours.delete(7, &key, turn),
                    4 => ours.delete_after_ttl(7, &key, turn),
                    _ => table.gc_keys_marked_for_deletion(turn, 60),
                }
            };
            assert_eq!(call(&mut alone), call(&mut both), "seed {seed} turn {turn}");
            let (a, b) = (alone.party(mine), both.party(mine));
            assert_eq!(a.get(7, &key), b.get(7, &key));
            let (a, b) = (a.node_state(7).unwrap(), b.node_state(7).unwrap());
            assert_eq!(told(a.key_values_including_deleted()), told(b.key_values_including_deleted()));
            assert_eq!(told(a.iter_prefix(&key[..2]).unwrap()), told(b.iter_prefix(&key[..2]).unwrap()));
            assert!(alone.party(other).node_state(7).unwrap().key_values_including_deleted().next().is_none());
        }
        assert!(both.party(other).node_state(7).unwrap().key_values_including_deleted().next().is_some());
    }
}

#[test]
fn labels_of_the_site() {
    let mut table = shared();
    table.party_mut(Party::Building).write(7, b"b/name", b"Stair B", Wanted::Set).unwrap();
    table.party_mut(Party::Metering).write(7, b"m/total", b"41", Wanted::Set).unwrap();
    let mut labels = Overrides::new(7);
    for key in [&b"b/name"[..], b"m/note", b"note"] {
        labels.write(key, b"label", Wanted::Set).unwrap();
    }
    let listed = |party| {
        let node = table.party(party).node_state(7).unwrap();
        node.iter_prefix_over(&labels, b"").unwrap().map(|record| record.key.to_vec()).collect::<Vec<_>>()
    };
    assert_eq!(listed(Party::Metering), [b"m/note".to_vec(), b"m/total".to_vec()]);
    assert_eq!(listed(Party::Building), [b"b/name".to_vec()]);
    assert!(listed(Party::Nobody).is_empty());
    let firm = table.party(Party::Metering);
    assert_eq!(firm.get_over(&labels, 7, b"m/total"), Ok(Some(&b"41"[..])));
    assert_eq!(firm.get_over(&labels, 7, b"m/note"), Ok(Some(&b"label"[..])));
    assert_eq!(firm.get_over(&labels, 7, b"b/name"), Err(Refusal::OtherParty));
    assert_eq!(firm.node_state(7).unwrap().get_over(&labels, b"note"), Err(Refusal::OtherParty));
}

#[test]
fn room_is_by_firm() {
    let mut publisher = OwnedTable::new(Mode::Guarded);
    let mut follower = shared();
    publisher.add_node(7).unwrap();
    for i in 0..=EACH as u8 {
        publisher.write(7, &[b'm', b'/', i], b"", Wanted::Set).unwrap();
    }
    let (mut digest, mut delta) = ([0; 258], [0; 4_000]);
    let n = follower.compute_digest(Edition::V0, &[], &mut digest).unwrap();
    let sent = publisher.compute_partial_delta_respecting_mtu(Edition::V0, &digest[..n], 4_000, &[], &[0], &mut delta).unwrap();
    let before = follower.clone();
    assert!(follower.apply_delta(&delta[..sent.bytes], 5).unwrap().iter().eq([Answer::Room]));
    assert_eq!(follower, before);
    publisher.write(7, b"neither", b"", Wanted::Set).unwrap();
    let sent = publisher.compute_partial_delta_respecting_mtu(Edition::V0, &digest[..n], 4_000, &[], &[0], &mut delta).unwrap();
    assert_eq!(follower.apply_delta(&delta[..sent.bytes], 5).unwrap_err().refusal, Refusal::OtherParty);
    assert_eq!(follower, before);
}

#[test]
fn lent_tables_and_views_have_parties_too() {
    let mut bytes = [0; TABLE];
    let mut table = LentTable::with_profile_in(&mut bytes, Mode::Plain, Profile::Shared).unwrap();
    assert_eq!(table.profile(), Ok(Profile::Shared));
    table.add_node(7).unwrap();
    table.party_mut(Party::Building).write(7, b"b/name", b"Stair B", Wanted::Set).unwrap();
    table.party_mut(Party::Metering).write(7, b"m/total", b"41", Wanted::Set).unwrap();
    let view: TableView = TableView::over(&bytes);
    assert_eq!(view.party(Party::Metering).get(7, b"m/total"), Ok(Some(&b"41"[..])));
    assert_eq!(view.party(Party::Metering).party(), Party::Metering);
    assert!(format!("{:?}", view.party(Party::Metering)).contains("m/total"));
    assert!(!format!("{:?}", view.party(Party::Metering)).contains("b/name"));
    fn is_copy<T: Copy>(_: T) {}
    is_copy(view.party(Party::Building));
    let _: &Table<&[u8]> = &view;
}
