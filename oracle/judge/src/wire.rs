//! Document 01's bytes to the original's bytes and back.
//!
//! The formats differ only in how a node is named. Document 01 writes its number as 8 bytes; the original writes a
//! node_id (2 bytes of length, and here no text), the same 8 bytes as generation_id, and an address (7 bytes, here
//! 0.0.0.0:0). Everything else is byte for byte the same, cut short or damaged as it may be. So a damaged stream
//! stays damaged in the same place, and the original's own reader meets the damage.

use std::net::{Ipv4Addr, SocketAddr};
use std::sync::Arc;

use script::table::{KEY, VALUE};

use crate::types::ChitchatId;

const NODE_ID: [u8; 2] = [0, 0];
const ADDRESS: [u8; 7] = [4, 0, 0, 0, 0, 0, 0];
const NUMBER: usize = 8;

/// What the original's name of a node has more than document 01's.
pub(crate) const NAME_EXTRA: usize = NODE_ID.len() + ADDRESS.len();

pub(crate) const TAG_NODE: u8 = 0;
pub(crate) const TAG_KEY_VALUE: u8 = 1;
pub(crate) const TAG_SET_MAX: u8 = 2;

const OPERATION_NODE: usize = 1 + NUMBER + 8 + 8;
const OPERATION_SET_MAX: usize = 1 + 8;

/// The node of document 01's number.
pub(crate) fn chitchat_id(number: u64) -> ChitchatId {
    ChitchatId {
        node_id: Arc::from(""),
        generation_id: number,
        gossip_advertise_addr: SocketAddr::from((Ipv4Addr::UNSPECIFIED, 0)),
    }
}

/// Writes the original's bytes for document 01's bytes that begin with a node's number, be they cut short.
fn rename(bytes: &[u8], out: &mut Vec<u8>) {
    out.extend(NODE_ID);
    if bytes.len() < NUMBER {
        out.extend(bytes);
        return;
    }
    out.extend(&bytes[..NUMBER]);
    out.extend(ADDRESS);
    out.extend(&bytes[NUMBER..]);
}

/// Writes document 01's bytes for the original's, which begin with a node's name.
fn number_only(bytes: &[u8], out: &mut Vec<u8>) {
    let (node_id, rest) = bytes.split_at(NODE_ID.len());
    let (number, rest) = rest.split_at(NUMBER);
    let (address, rest) = rest.split_at(ADDRESS.len());
    assert_eq!((node_id, address), (&NODE_ID[..], &ADDRESS[..]), "a node that no number stands for");
    out.extend(number);
    out.extend(rest);
}

/// The first operation of document 01's bytes.
pub(crate) struct Cut {
    /// As the original writes it. Cut short or damaged where document 01's bytes are.
    pub bytes: Vec<u8>,
    /// How many of document 01's bytes it takes.
    pub used: usize,
    /// A key over 32 or a value over 64 is announced. The bytes end there.
    pub overlong: bool,
}

/// `bytes` is not empty.
pub(crate) fn first_operation(bytes: &[u8]) -> Cut {
    match bytes[0] {
        TAG_NODE => {
            let used = bytes.len().min(OPERATION_NODE);
            let mut renamed = vec![TAG_NODE];
            rename(&bytes[1..used], &mut renamed);
            Cut { bytes: renamed, used, overlong: false }
        }
        TAG_KEY_VALUE => {
            let (used, overlong) = key_value_len(bytes);
            Cut { bytes: bytes[..used].to_vec(), used, overlong }
        }
        TAG_SET_MAX => {
            let used = bytes.len().min(OPERATION_SET_MAX);
            Cut { bytes: bytes[..used].to_vec(), used, overlong: false }
        }
        _ => Cut { bytes: bytes[..1].to_vec(), used: 1, overlong: false },
    }
}

/// Bytes of the record operation, and whether it announces too much.
fn key_value_len(bytes: &[u8]) -> (usize, bool) {
    let mut used = 1;
    for limit in [KEY, VALUE] {
        let Some(len) = bytes.get(used..used + 2) else {
            return (bytes.len(), false);
        };
        let len = usize::from(u16::from_le_bytes([len[0], len[1]]));
        used += 2;
        if len > limit {
            return (used, true);
        }
        used += len;
        if used > bytes.len() {
            return (bytes.len(), false);
        }
    }
    ((used + 8 + 1).min(bytes.len()), false)
}

/// Where the fields of document 01's first operation end, as far as its bytes tell. `bytes` is not empty.
fn field_ends(bytes: &[u8]) -> Vec<usize> {
    let mut ends = vec![1];
    match bytes[0] {
        TAG_NODE => ends.extend([1 + NUMBER, 1 + NUMBER + 8, OPERATION_NODE]),
        TAG_KEY_VALUE => {
            for _text in [KEY, VALUE] {
                let begin = ends[ends.len() - 1];
                ends.push(begin + 2);
                let Some(len) = bytes.get(begin..begin + 2) else {
                    return ends;
                };
                ends.push(begin + 2 + usize::from(u16::from_le_bytes([len[0], len[1]])));
            }
            let begin = ends[ends.len() - 1];
            ends.extend([begin + 8, begin + 8 + 1]);
        }
        _ => ends.push(OPERATION_SET_MAX),
    }
    ends
}

/// How many bytes the first field lacks that does not end within document 01's bytes of an operation cut short.
pub(crate) fn operation_lacks(bytes: &[u8]) -> usize {
    let end = field_ends(bytes).into_iter().find(|end| *end > bytes.len());
    end.expect("an operation cut short") - bytes.len()
}

/// The same of a digest cut short.
pub(crate) fn digest_lacks(bytes: &[u8]) -> usize {
    let mut end = DIGEST_COUNT;
    while end <= bytes.len() {
        end += 8;
    }
    end - bytes.len()
}

const PLAIN_BLOCK: u8 = 2;
const NO_MORE_BLOCKS: u8 = 0;

/// The original's stream of these operations or entries: one plain block and the end mark.
pub(crate) fn plain_stream(operations: &[u8]) -> Vec<u8> {
    let mut stream = vec![PLAIN_BLOCK];
    stream.extend(u16::try_from(operations.len()).expect("at most 65,535 bytes").to_le_bytes());
    stream.extend(operations);
    stream.push(NO_MORE_BLOCKS);
    stream
}

/// Document 01's bytes of an operation that the original wrote.
pub(crate) fn operation_01(original: &[u8]) -> Vec<u8> {
    if original[0] != TAG_NODE {
        return original.to_vec();
    }
    let mut bytes = vec![TAG_NODE];
    number_only(&original[1..], &mut bytes);
    bytes
}

const DIGEST_COUNT: usize = 2;
pub(crate) const DIGEST_ENTRY: usize = NUMBER + 3 * 8;

/// The original's V0 digest for document 01's. Entries are renamed as far as the count asks for them; what is
/// behind them is the unread rest and goes along unchanged.
pub(crate) fn digest_original(bytes: &[u8]) -> Vec<u8> {
    let Some((count, mut rest)) = bytes.split_at_checked(DIGEST_COUNT) else {
        return bytes.to_vec();
    };
    let mut original = count.to_vec();
    for _ in 0..u16::from_le_bytes([count[0], count[1]]) {
        if rest.is_empty() {
            break;
        }
        let (entry, behind) = rest.split_at(rest.len().min(DIGEST_ENTRY));
        rename(entry, &mut original);
        rest = behind;
    }
    original.extend(rest);
    original
}

/// Document 01's digest for one that the original wrote in V0.
pub(crate) fn digest_01(original: &[u8]) -> Vec<u8> {
    let (count, entries) = original.split_at(DIGEST_COUNT);
    let mut bytes = count.to_vec();
    bytes.extend(entries_01(entries));
    bytes
}

/// Document 01's entries for those that the original wrote.
pub(crate) fn entries_01(original: &[u8]) -> Vec<u8> {
    let mut bytes = Vec::new();
    for entry in original.chunks(DIGEST_ENTRY + NAME_EXTRA) {
        number_only(entry, &mut bytes);
    }
    bytes
}

/// The original's entries for document 01's; the last may be cut short.
pub(crate) fn entries_original(bytes: &[u8]) -> Vec<u8> {
    let mut original = Vec::new();
    for entry in bytes.chunks(DIGEST_ENTRY) {
        rename(entry, &mut original);
    }
    original
}

/// How many bytes the field lacks in which entries end that are cut short.
pub(crate) fn entries_lack(bytes: &[u8]) -> usize {
    digest_lacks(&[&[0; DIGEST_COUNT], bytes].concat())
}

/// What is in the original's stream of plain blocks.
pub(crate) fn plain_blocks(stream: &[u8]) -> Vec<u8> {
    let mut bytes = Vec::new();
    let mut rest = stream;
    while let [PLAIN_BLOCK, low, high, behind @ ..] = rest {
        let (block, next) = behind.split_at(usize::from(u16::from_le_bytes([*low, *high])));
        bytes.extend(block);
        rest = next;
    }
    assert_eq!(rest, [NO_MORE_BLOCKS], "a stream of plain blocks");
    bytes
}
