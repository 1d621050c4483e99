//! Hubs that leave out one of their cares, for tests/hubs.rs, which must find each: no hub to copy.
//!
//!     wrong_hub plain|unstored|unremoved|anew WORDS..     the words as for hub

#[path = "common/hub.rs"]
mod hub;
#[path = "common/store.rs"]
mod store;

use hub::Care;
use kevdarosh::Mode;

fn main() -> std::process::ExitCode {
    let mut words: Vec<String> = std::env::args().skip(1).collect();
    let without = if words.is_empty() { String::new() } else { words.remove(0) };
    let care = match without.as_str() {
        // A late or roundabout delta brings back what was deleted.
        "plain" => Care { mode: Mode::Plain, ..Care::ALL },
        // It sends what is not on its disk.
        "unstored" => Care { stores: false, ..Care::ALL },
        // Tombstones stay for ever.
        "unremoved" => Care { removes: false, ..Care::ALL },
        // It begins with an empty table at each start.
        "anew" => Care { loads: false, ..Care::ALL },
        _ => {
            eprintln!("usage: wrong_hub plain|unstored|unremoved|anew WORDS..");
            return std::process::ExitCode::from(2);
        }
    };
    hub::main(care, words)
}
