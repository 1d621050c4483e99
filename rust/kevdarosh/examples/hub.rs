//! A hub at work: it owns one node, follows the others, and gossips over UDP in both directions.
//!
//!     hub [--new | --forgot N] [--anyone] OWN NODES FILE GRACE ADDRESS PEER..
//!     hub --new 1 1,2,3 hub1.table 60000 127.0.0.1:7001 127.0.0.1:7002 127.0.0.1:7003
//!
//! It owns node OWN, has NODES, keeps its table in FILE, removes what was deleted GRACE milliseconds ago, listens at ADDRESS, and hears and tells its PEERs. `--new` is for the first start alone.
//! Datagrams of others than the peers are left alone, unless `--anyone` is said.
//!
//! It takes lines on standard input: `set KEY VALUE`, `delete KEY`, `show`, `quit`; the end of the input is `quit`. `show` prints a line for each node (`node N max M gc G beat B`) and each
//! reading (`N KEY=VALUE@VERSION`, odd bytes escaped), then `end`. What it has to say of itself goes to standard error.
//!
//! The hub is in common/hub.rs, its disk in common/store.rs. README.md shows three of them by hand; tests/hubs.rs tries them, and what becomes of hubs that leave out one of their cares.

#[path = "common/hub.rs"]
mod hub;
#[path = "common/store.rs"]
mod store;

fn main() -> std::process::ExitCode {
    hub::main(hub::Care::ALL, std::env::args().skip(1).collect())
}
