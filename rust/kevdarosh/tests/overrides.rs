//! Overrides: a label of a site over that of a node; on an owned and on a lent table; the refusals by number; on disk and back.

use kevdarosh::{LentTable, Mode, OVERRIDES, Overrides, OwnedTable, Refusal, TABLE, TableView, Wanted};

fn keys<'a>(records: impl Iterator<Item = kevdarosh::Record<'a>>) -> Vec<(&'a [u8], &'a [u8])> {
    records.map(|record| (record.key, record.value)).collect()
}

macro_rules! story {
    ($table:expr) => {{
        let mut table = $table;
        table.add_node(7).unwrap();
        table.write(7, b"name", b"Stair B", Wanted::Set).unwrap();
        table.write(7, b"note", b"call the manager", Wanted::Set).unwrap();
        let before = table.as_bytes().to_vec();
        let mut labels = Overrides::new(7);
        assert_eq!(table.get_over(&labels, 7, b"name"), Ok(Some(&b"Stair B"[..])));
        labels.write(b"name", b"Bicycle cellar", Wanted::Set).unwrap();
        labels.write(b"keys", b"", Wanted::Ttl(5)).unwrap();
        assert_eq!(table.get_over(&labels, 7, b"name"), Ok(Some(&b"Bicycle cellar"[..])));
        assert_eq!(table.get_over(&labels, 7, b"keys"), Ok(Some(&b""[..])));
        assert_eq!(table.get_over(&labels, 7, b"absent"), Ok(None));
        assert_eq!(table.get_over(&labels, 8, b"keys"), Err(Refusal::NoNode));
        assert_eq!(table.get_over(&labels, 8, &[0; 33]), Err(Refusal::NoNode));
        assert_eq!(table.get_over(&labels, 7, &[0; 33]), Err(Refusal::TooLong));
        {
            let node = table.node_state(7).unwrap();
            assert_eq!(node.get_over(&labels, b"note"), Ok(Some(&b"call the manager"[..])));
            let all = node.iter_prefix_over(&labels, b"").unwrap();
            assert_eq!(keys(all), [(&b"keys"[..], &b""[..]), (b"name", b"Bicycle cellar"), (b"note", b"call the manager")]);
            assert_eq!(keys(node.iter_prefix_over(&labels, b"no").unwrap()), [(&b"note"[..], &b"call the manager"[..])]);
            assert_eq!(node.iter_prefix_over(&labels, &[0; 33]).err(), Some(Refusal::TooLong));
        }
        // taken back, the manager's shows again
        labels.delete(b"name", 10).unwrap();
        assert_eq!(labels.delete(b"absent", 10), Err(Refusal::NoKey));
        assert_eq!(table.get_over(&labels, 7, b"name"), Ok(Some(&b"Stair B"[..])));
        assert_eq!(labels.key_values_including_deleted().len(), 2);
        labels.gc_keys_marked_for_deletion(20, 10).unwrap();
        assert_eq!(labels.key_values_including_deleted().len(), 0);
        // none of this is in the table
        assert_eq!(table.as_bytes(), before);
    }};
}

#[test]
fn a_label_over_an_owned_table() {
    story!(OwnedTable::new(Mode::Plain));
}

#[test]
fn a_label_over_a_lent_table() {
    let mut bytes = vec![0; TABLE];
    story!(LentTable::new_in(&mut bytes, Mode::Guarded).unwrap());
}

#[test]
fn refusals() {
    let mut labels = Overrides::new(1);
    assert_eq!(labels.write(&[0; 33], b"", Wanted::Set), Err(Refusal::TooLong));
    assert_eq!(labels.write(b"", &[0; 65], Wanted::Set), Err(Refusal::TooLong));
    assert_eq!(labels.delete_after_ttl(b"a", 0), Err(Refusal::NoKey));
    for key in 0..32u8 {
        labels.write(&[key], b"", Wanted::Set).unwrap();
    }
    assert_eq!(labels.write(&[32], b"", Wanted::Set), Err(Refusal::NodeFull));
    labels.delete_after_ttl(&[0], 5).unwrap();
    // a lent table that is none
    assert_eq!(TableView::over(&[0; 9]).get_over(&labels, 1, b"a"), Err(Refusal::BadTable));
}

#[test]
fn on_disk_and_back() {
    let mut labels = Overrides::new(9);
    labels.write(b"a", b"1", Wanted::Set).unwrap();
    let stored = labels.as_bytes().to_vec();
    assert_eq!(stored.len(), OVERRIDES);
    let again = Overrides::from_bytes(&stored).unwrap();
    assert_eq!(again.as_bytes(), stored);
    for bad in [&stored[1..], &[9; OVERRIDES], &[]] {
        assert_eq!(Overrides::from_bytes(bad).err(), Some(Refusal::BadTable));
    }
    // overrides are no table, and a table is no overrides
    assert!(OwnedTable::from_bytes(&stored).is_err());
    assert!(Overrides::from_bytes(OwnedTable::new(Mode::Plain).as_bytes()).is_err());
}
