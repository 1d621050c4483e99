// Stands in the same module as the original state.rs and reaches its private items. Adds no rule.

impl rand::Tied for StaleNode<'_> {
    fn node_number(&self) -> u64 {
        self.chitchat_id.generation_id
    }
}

#[derive(Clone, Copy, Debug, PartialEq, Eq)]
pub(crate) enum Status {
    Reject,
    Apply,
    ApplyAfterReset,
}

impl From<DeltaStatus> for Status {
    fn from(status: DeltaStatus) -> Status {
        match status {
            DeltaStatus::Reject => Status::Reject,
            DeltaStatus::Apply => Status::Apply,
            DeltaStatus::ApplyAfterReset => Status::ApplyAfterReset,
        }
    }
}

impl NodeState {
    /// The status of the delta for this node, and how many keys the node would hold after it.
    pub(crate) fn try_delta(&self, node_delta: NodeDelta, now: Instant) -> (Status, Vec<String>) {
        let checked = Status::from(self.check_delta_status(&node_delta));
        let mut tried = self.clone();
        let applied = Status::from(tried.apply_delta(node_delta, now));
        assert_eq!(checked, applied, "the status checked is not the status applied");
        (applied, tried.key_values.keys().cloned().collect())
    }

    /// Any node of document 01, by the original's own setters.
    pub(crate) fn with_numbers(&mut self, heartbeat: Heartbeat, max_version: Version, last_gc_version: Version) {
        self.try_set_heartbeat(heartbeat);
        self.set_max_version(max_version);
        self.set_last_gc_version(last_gc_version);
    }
}

impl ClusterState {
    /// Puts a node back as it was: after a panic that stands for a refusal, nothing may have changed.
    pub(crate) fn put_back(&mut self, node_state: NodeState) {
        self.node_states.insert(node_state.chitchat_id.clone(), node_state);
    }
}
