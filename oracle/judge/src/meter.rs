//! The profiles (document 02, tickets 8 and 9), of which the original knows nothing: the layer's 17, 18 and 19, 5 and Room by party, and their forms and counts among its rules of 14.

use script::table::{BUILDING, METER, METERING, RECORDS, SET, SHARED, owns};

/// A firm's records of a node in a shared table.
const EACH: usize = 16;

/// Layer: the number of a record that the profile does not take.
pub(crate) fn odd(profile: u8) -> u8 {
    if profile == SHARED { 19 } else { 17 }
}

/// Whether the party may name the key.
pub(crate) fn sees(profile: u8, party: u64, key: &[u8]) -> bool {
    profile != SHARED || owns(party, key)
}

/// Whether these are too many keys of a node.
pub(crate) fn too_many<'a>(profile: u8, keys: impl Iterator<Item = &'a [u8]> + Clone) -> bool {
    let of = |party| keys.clone().filter(|key| owns(party, key)).count();
    keys.clone().count() > RECORDS || profile == SHARED && (of(METERING) > EACH || of(BUILDING) > EACH)
}

/// Whether a node with these keys has no room for another of the party.
pub(crate) fn full<'a>(profile: u8, party: u64, keys: impl Iterator<Item = &'a [u8]>) -> bool {
    if profile == SHARED { keys.filter(|key| owns(party, key)).count() >= EACH } else { keys.count() >= RECORDS }
}

/// Whether a table of this profile may have the record. What is no UTF-8 is in no meter's form.
pub(crate) fn in_form(profile: u8, key: &[u8], value: &[u8], status: u8) -> bool {
    if profile == SHARED {
        return owns(METERING, key) || owns(BUILDING, key);
    }
    if profile != METER {
        return true;
    }
    let (Ok(key), Ok(value)) = (std::str::from_utf8(key), std::str::from_utf8(value)) else { return false };
    let name = !key.is_empty() && key.chars().all(|letter| matches!(letter, 'a'..='z' | '0'..='9' | '.'));
    let reading = if value.is_empty() { status != SET } else { value.len() <= 10 && value.chars().all(|digit| digit.is_ascii_digit()) };
    name && reading
}

/// Whether a write states a smaller total than the value that the original shows.
pub(crate) fn falls(profile: u8, key: &str, value: &str, shown: Option<&str>) -> bool {
    let stated = |value: &str| if value.is_empty() { 0 } else { value.parse::<u64>().expect("a reading") };
    profile == METER && key == "total" && shown.is_some_and(|shown| stated(value) < stated(shown))
}
