//! The lent grid as bytes (document 02, ticket 12). All numbers little-endian, every unused byte zero.

use crate::table::NODES;

/// How many peers a grid has rows for.
pub const PEERS: usize = 8;

/// Widths in bytes: a row of eight numbers, and eight rows.
pub const ROW_BYTES: usize = NODES * 8;
pub const ROWS_BYTES: usize = PEERS * ROW_BYTES;
/// Count of columns, their numbers, who is present, the rows of last_gc, the rows of max.
pub const NUMBERS: usize = 1;
pub const PRESENT: usize = NUMBERS + ROW_BYTES;
pub const GCS: usize = PRESENT + PEERS;
pub const MAXES: usize = GCS + ROWS_BYTES;
pub const GRID_BYTES: usize = MAXES + ROWS_BYTES;

/// last_gc and max.
pub type Pair = (u64, u64);

/// What each peer told of each column, in the order given; none for a peer that is absent.
pub fn encode(columns: &[u64], rows: &[Option<Vec<Pair>>; PEERS]) -> Vec<u8> {
    assert!(columns.len() <= NODES);
    let mut bytes = vec![0; GRID_BYTES];
    let mut put = |at: usize, number: u64| bytes[at..at + 8].copy_from_slice(&number.to_le_bytes());
    for (place, &number) in columns.iter().enumerate() {
        put(NUMBERS + 8 * place, number);
    }
    for (peer, row) in rows.iter().enumerate() {
        for (place, &(last_gc, max)) in row.iter().flatten().enumerate() {
            put(GCS + ROW_BYTES * peer + 8 * place, last_gc);
            put(MAXES + ROW_BYTES * peer + 8 * place, max);
        }
    }
    bytes[0] = columns.len() as u8;
    for (peer, row) in rows.iter().enumerate() {
        bytes[PRESENT + peer] = row.is_some().into();
    }
    bytes
}

/// The grid of a table without nodes: nobody is present.
pub fn empty() -> Vec<u8> {
    vec![0; GRID_BYTES]
}

#[cfg(test)]
mod tests {
    use super::*;

    #[test]
    fn a_row_is_encoded_where_the_widths_say() {
        assert_eq!((PRESENT, GCS, MAXES, GRID_BYTES), (65, 73, 585, 1_097));
        let mut rows: [Option<Vec<Pair>>; PEERS] = Default::default();
        assert_eq!(encode(&[], &rows), empty());
        rows[2] = Some(vec![(3, 4), (5, 258)]);
        let bytes = encode(&[7, 9], &rows);
        assert_eq!((bytes[0], bytes[1], bytes[9], bytes[PRESENT + 2]), (2, 7, 9, 1));
        assert_eq!((bytes[GCS + 128], bytes[GCS + 136]), (3, 5));
        assert_eq!((bytes[MAXES + 128], bytes[MAXES + 136], bytes[MAXES + 137]), (4, 2, 1));
        assert_eq!(bytes.iter().filter(|&&byte| byte != 0).count(), 9);
    }
}
