//! The original Rust, unchanged, behind the calls of a script.
//!
//! - `mount`: the original files as modules, each with a probe beside it that reaches its private items.
//! - `wire`: document 01's bytes to the original's bytes and back.
//! - `hub`: one table. It holds the layer of refusals that document 01 adds around the original. `grid`: the grid beside it.
//! - `raw`: the original without that layer, for the findings; `timed`: the same for the measurement; `fleet`: the same as one hub of many.

// The original's own looks are not ours to mend.
#![allow(dead_code, mismatched_lifetime_syntaxes, unused_imports, clippy::all)]

mod mount;

mod delta {
    include!(concat!(env!("CHITCHAT"), "/delta.rs"));
    include!("mount/probe_delta.rs");
}
mod digest {
    include!(concat!(env!("CHITCHAT"), "/digest.rs"));
}
#[cfg(original_listener)]
mod listener {
    include!(concat!(env!("CHITCHAT"), "/listener.rs"));
}
#[cfg(not(original_listener))]
mod listener {
    include!("mount/no_listener.rs");
}
mod message {
    include!(concat!(env!("CHITCHAT"), "/message.rs"));
}
mod serialize {
    include!(concat!(env!("CHITCHAT"), "/serialize.rs"));
}
mod state {
    include!(concat!(env!("CHITCHAT"), "/state.rs"));
    include!("mount/probe_state.rs");
}
mod types {
    include!(concat!(env!("CHITCHAT"), "/types.rs"));
}

pub mod fleet;
mod grid;
pub mod hub;
mod meter;
pub mod raw;
pub mod timed;
mod wire;

// What the original files import from their crate's root.
use message::{ChitchatEnvelope, ChitchatMessage, ProtocolVersion};
use mount::{GARBAGE_COLLECTED_NODE_HISTORY_SIZE, KeyChangeEvent};
use serialize::{Deserializable, Serializable};
use types::{ChitchatId, DeletionStatus, Heartbeat, Version, VersionedValue};
