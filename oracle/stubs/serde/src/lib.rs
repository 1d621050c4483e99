//! Stands in for serde: names only. Nothing here is serialized by serde.

pub use serde_derive::{Deserialize, Serialize};
