// Stands in the same module as the original delta.rs and reaches its private items. Adds no rule.

/// Reads a delta operation by operation, with the original's operation reader and the original's builder.
#[derive(Default)]
pub(crate) struct Reader(DeltaBuilder);

/// An operation that the original has read but not yet taken.
pub(crate) struct Taken(DeltaOp);

impl Taken {
    pub(crate) fn max_version_set(&self) -> Option<Version> {
        match self.0 {
            DeltaOp::SetMaxVersion { max_version } => Some(max_version),
            _ => None,
        }
    }

    /// Key, value and status of a record.
    pub(crate) fn record(&self) -> Option<(&str, &str, u8)> {
        match &self.0 {
            DeltaOp::KeyValue(sent) => Some((&sent.key, &sent.value, sent.status as u8)),
            _ => None,
        }
    }
}

impl Reader {
    /// The operation at the start of `bytes`, which must be all of it.
    pub(crate) fn read(bytes: &[u8]) -> anyhow::Result<Taken> {
        let mut rest = bytes;
        let op = DeltaOp::deserialize(&mut rest)?;
        assert!(rest.is_empty(), "an operation was cut out too long");
        Ok(Taken(op))
    }

    pub(crate) fn take(&mut self, op: Taken) -> anyhow::Result<()> {
        self.0.apply_op(op.0)
    }

    pub(crate) fn running_max(&self) -> Option<Version> {
        self.0.current_node_delta.as_ref().map(|node_delta| node_delta.max_version)
    }

    pub(crate) fn nodes(&self) -> usize {
        self.0.existing_nodes.len()
    }

    pub(crate) fn finish(self, len: usize) -> Delta {
        self.0.finish(len)
    }
}

/// The bytes of each operation of a delta, by the original's own list and writer.
pub(crate) fn operation_bytes(delta: &Delta) -> Vec<Vec<u8>> {
    delta.get_operations().map(|op| op.serialize_to_vec()).collect()
}
