//! A table on disk: stored without ever leaving half a table, loaded, and refused where a byte was lost.
//!
//!     cargo run --example disk -- [--new] FILE
//!
//! It counts how often it was started. `--new` begins the table; without it a file that is not there or is damaged is an error, and stays as it is.

#[path = "common/store.rs"]
mod store;

use std::path::Path;
use std::process::ExitCode;

use kevdarosh::{Mode, OwnedTable, Wanted};
use store::{Disk, Stored, Trouble};

const OWN: u64 = 7;
const MODE: Mode = Mode::Fenced;

fn run(path: &Path, new: bool) -> Result<(), Box<dyn std::error::Error>> {
    let disk = Disk::take(path, OWN)?;
    if new {
        let mut table = OwnedTable::new(MODE);
        table.add_node(OWN)?;
        disk.begin(&Stored { table, least: 0 })?;
    }
    let mut stored = disk.load(MODE).map_err(|trouble| match trouble {
        Trouble::Missing => "there is no such file. If it never was there, begin it with --new; else bring it back: a new one would give its versions twice".into(),
        Trouble::Damaged(_) => format!("{trouble}. It stays as it is. Put the copy of the last store in its place; a new table would give its versions twice"),
        other => other.to_string(),
    })?;
    let table = &mut stored.table;
    let starts = table.get(OWN, b"starts")?.and_then(|value| std::str::from_utf8(value).ok()).and_then(|text| text.parse().ok()).unwrap_or(0u64) + 1;
    table.write(OWN, b"starts", starts.to_string().as_bytes(), Wanted::Set)?;
    disk.store(&stored)?;
    println!("{}: {starts} starts, version {}", path.display(), stored.table.node_state(OWN)?.max_version());
    Ok(())
}

fn main() -> ExitCode {
    let mut words: Vec<_> = std::env::args_os().skip(1).collect();
    let new = words.first().is_some_and(|word| word == "--new");
    words.drain(..usize::from(new));
    let [path] = &words[..] else {
        eprintln!("usage: disk [--new] FILE");
        return ExitCode::from(2);
    };
    match run(Path::new(path), new) {
        Ok(()) => ExitCode::SUCCESS,
        Err(error) => {
            eprintln!("disk: {}: {error}", Path::new(path).display());
            ExitCode::FAILURE
        }
    }
}
