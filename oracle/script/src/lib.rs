//! The script language: one call a line, one answer a line. README.md has it in words.
//!
//! Only form lives here: words to calls, answers to words, table and grid as bytes and their checksum. What a call
//! answers is decided by the two sides, each on its own.

mod answer;
mod call;
pub mod grid;
mod over;
mod run;
pub mod table;

pub use answer::{Answer, DigestEntry, Fault, Verdict};
pub use call::{Bytes, Call, HUBS, hex, parse_hex};
pub use run::{Side, answer_script};
