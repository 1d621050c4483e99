//! The few items that the original files take from the original lib.rs, which is not mounted: it pulls in the
//! server, the transport and the failure detector.

use std::num::NonZeroUsize;

use crate::types::ChitchatId;

pub(crate) const GARBAGE_COLLECTED_NODE_HISTORY_SIZE: NonZeroUsize = NonZeroUsize::new(5_000).unwrap();

#[derive(Debug, Copy, Clone, Eq, PartialEq)]
pub struct KeyChangeEvent<'a> {
    pub key: &'a str,
    pub value: &'a str,
    pub node: &'a ChitchatId,
}

impl KeyChangeEvent<'_> {
    pub(crate) fn strip_key_prefix(&self, prefix: &str) -> Option<KeyChangeEvent<'_>> {
        let key = self.key.strip_prefix(prefix)?;
        Some(KeyChangeEvent { key, ..*self })
    }
}
