//! Random scripts through the library that a hub links, natively and in one process, beside `plain`, the second implementation of document 01.
//!
//!     fuzz N SEED     at least N calls of the library; tools/fuzz builds it and runs it
//!
//! The scripts are those of `compare beyond` and `compare peers`: random and damaged tables, digests, deltas and lists; and those of two firms on one table (`firms.rs`). Of each call it is asked that
//! - its answer and the table afterwards equal those of `plain`,
//! - where it is refused, no lent byte has changed,
//! - where it is accepted, the check accepts the table that it leaves, and what was not to be written is as it was,
//! - on a good table, the same call without the check tells and leaves the same,
//! - on a good meter table, where it is answered neither 17 nor 18, it tells and leaves what it does on the free table of the same records; on a good shared table so does a call that no party makes,
//! - on a good shared table it tells a firm the same without the other's writes and deletes (`twins.rs`),
//! - where a delta was applied, its two parts do the same in either order, cut at a Node; cut elsewhere, the second is refused with 11,
//! - now and then, the readings by place give the very table again; of a shared table those of the two firms together, and nobody's nothing; and the listing is that of these readings (`look.rs`),
//! - the nodes that a delta names are those of its listing.
//!
//! A call on a grid is made by the crate's `Watched` too (`grid.rs`). Each script is followed by an exchange in one call between the tables that it left (`exchange.rs`), and one in sixteen by a walk
//! over overrides (`over.rs`).

#[allow(dead_code)]
#[path = "../../compare/src/damage.rs"]
mod damage;
mod exchange;
#[allow(dead_code)]
#[path = "../../../rust/kevdarosh/src/ffi.rs"]
mod ffi;
mod firms;
mod grid;
#[path = "../../compare/src/grids.rs"]
mod grids;
mod look;
#[allow(dead_code)]
#[path = "../../compare/src/maker.rs"]
mod maker;
mod over;
#[allow(dead_code)]
#[path = "../../compare/src/pieces.rs"]
mod pieces;
#[path = "../../compare/src/plans.rs"]
mod plans;
mod port;
#[allow(dead_code)]
#[path = "../../compare/src/random.rs"]
mod random;
#[allow(dead_code)]
#[path = "../../compare/src/scripts.rs"]
mod scripts;
mod twins;

use std::collections::BTreeMap;
use std::process::ExitCode;

use kevdarosh as _;
use plain::side::Lent;
use script::{Answer, Bytes, Call, HUBS, Side};

use port::Port;
use random::Random;

/// Bytes of a table, for `ffi`.
pub const TABLE: usize = script::table::TABLE_BYTES;
/// Bytes of overrides, for `ffi`.
pub const OVERRIDES: usize = script::table::NODE_BYTES;

/// How many turns a walk over overrides has.
const TURNS: u64 = 200;

/// Readings by place are asked once in so many calls of a script.
const READ_EVERY: u64 = 16;

/// How many calls were made on all tables.
fn all(port: &[Port; HUBS]) -> u64 {
    port.iter().map(|port| port.calls).sum()
}

fn write_out(bytes: &mut Bytes, digest: &[u8], delta: &[u8]) {
    match bytes {
        Bytes::Given(_) => {}
        Bytes::LastDigest => *bytes = Bytes::Given(digest.to_vec()),
        Bytes::LastDelta => *bytes = Bytes::Given(delta.to_vec()),
    }
}

#[derive(Default)]
struct Run {
    lines: u64,
    scripts: u64,
    answers: BTreeMap<String, u64>,
    /// Calls on second tables, and those of them that were not the table (`twins.rs`).
    asked: u64,
    apart: u64,
}

impl Run {
    /// One script: the words of a difference, and the line that shows it.
    fn script(&mut self, lines: &[String], port: &mut [Port; HUBS]) -> Result<(), String> {
        let mut plain = [(); HUBS].map(|()| Lent::new(0, 0));
        let mut grids = [(); HUBS].map(|()| script::grid::empty());
        let (mut current, mut party, mut digest, mut delta) = (0, 0, Vec::new(), Vec::new());
        let calls = all(port);
        *port = [(); HUBS].map(|()| Port::new());
        port[0].calls += calls;
        for line in lines {
            let mut call = Call::parse(line).ok_or_else(|| format!("not a call: {line}"))?;
            match &mut call {
                Call::ReadDigest { bytes, .. }
                | Call::ReadDelta { bytes }
                | Call::Apply { bytes, .. }
                | Call::Table { bytes }
                | Call::Grid { bytes }
                | Call::Tell { digest: bytes, .. }
                | Call::Compute { digest: bytes, .. }
                | Call::Plan { digest: bytes, .. }
                | Call::PlanFault { digest: bytes, .. } => write_out(bytes, &digest, &delta),
                _ => {}
            }
            self.lines += 1;
            match &call {
                Call::Hub(hub) => current = *hub,
                Call::Party { number } => party = *number,
                Call::New { mode, profile } => {
                    let refused = port[current].remake(*mode, *profile)?;
                    if !refused {
                        plain[current] = Lent::new(*mode as u8, *profile as u8);
                        grids[current] = script::grid::empty();
                    }
                }
                Call::Table { bytes: Bytes::Given(bytes) } => {
                    plain[current].take_table(bytes);
                    port[current].table = bytes.clone();
                    port[current].twins.meet();
                }
                Call::Grid { bytes: Bytes::Given(bytes) } => {
                    grids[current] = bytes.clone();
                    port[current].grid = bytes.clone();
                    let good = kevdarosh::Watched::from_bytes(&port[current].table, bytes).is_ok();
                    if good != grid::belong(bytes, &plain[current]) {
                        return Err(format!("{line}\n  the crate takes the two in: {good}"));
                    }
                }
                Call::Dump | Call::DumpGrid => {}
                call => {
                    let (want, got) = if call.on_grid() {
                        (plain[current].answer_grid(&mut grids[current], call), port[current].answer_grid(call)?)
                    } else {
                        (plain[current].answer(call, party), port[current].answer(call, party)?)
                    };
                    if want != got {
                        return Err(format!("{line}\n  plain:   {want}\n  library: {got}"));
                    }
                    match &got {
                        Answer::DigestWritten { datagram, start, end } => digest = datagram[*start..*end].to_vec(),
                        Answer::DeltaWritten { bytes, .. } => delta = bytes.clone(),
                        _ => {}
                    }
                    *self.answers.entry(kind(&got)).or_default() += 1;
                }
            }
            if plain[current].table_bytes() != port[current].table {
                return Err(format!("{line}\n  the tables differ"));
            }
            if grids[current] != port[current].grid {
                return Err(format!("{line}\n  the grids differ"));
            }
            if self.lines % READ_EVERY == 0 {
                port[current].read_all().map_err(|what| format!("{line}\n  {what}"))?;
            }
        }
        let mut random = random::Random::new(self.scripts, self.lines);
        for (publisher, follower) in [(0, 1), (1, 0)] {
            let (calls, number) = exchange::once(&mut random, &port[publisher].table, &port[follower].table)?;
            *self.answers.entry(format!("exchange{number:02}")).or_default() += 1;
            port[0].calls += calls;
        }
        for port in port.iter_mut() {
            let twins = std::mem::take(&mut port.twins);
            self.asked += twins.asked;
            self.apart += twins.apart;
            port.calls += twins.calls;
        }
        self.scripts += 1;
        Ok(())
    }
}

fn kind(answer: &Answer) -> String {
    match answer {
        Answer::Refused(number) | Answer::RefusedAt(number, _) => format!("refused{number:02}"),
        Answer::Cut { .. } => "refused09".into(),
        Answer::AtFault { .. } => "refused23".into(),
        Answer::Applied(_) => "applied".into(),
        Answer::DeltaWritten { .. } => "delta-written".into(),
        Answer::DeltaRead { .. } => "delta-read".into(),
        Answer::DigestWritten { .. } => "digest-written".into(),
        other => other.to_string().split(' ').next().unwrap_or_default().into(),
    }
}

fn main() -> ExitCode {
    let words: Vec<u64> = std::env::args().skip(1).filter_map(|word| word.parse().ok()).collect();
    let [most, seed] = words[..] else {
        eprintln!("usage: fuzz N SEED");
        return ExitCode::from(2);
    };
    let mut run = Run::default();
    let mut port = [(); HUBS].map(|()| Port::new());
    let mut told = 0;
    for index in 0.. {
        let calls = all(&port);
        if calls >= most {
            break;
        }
        if calls * 20 / most > told {
            told = calls * 20 / most;
            println!("seed={seed} calls={calls} of {most}, scripts={}", run.scripts);
        }
        if index % 16 == 7 {
            match over::walk(seed, index, TURNS) {
                Ok(calls) => port[0].calls += calls,
                Err(what) => {
                    println!("seed={seed}: {what}");
                    return ExitCode::FAILURE;
                }
            }
        }
        // Grids and two firms among all others would be few.
        let script = match index % 16 {
            1 | 9 => firms::turns(Random::new(seed, index)),
            3 => grids::watched(Random::new(seed, index)),
            11 => grids::given(Random::new(seed, index)),
            15 => scripts::peers(seed, index / 16),
            _ => scripts::beyond(seed, index),
        };
        if let Err(what) = run.script(&script, &mut port) {
            println!("seed={seed}, script {index}: {what}");
            for line in &script {
                println!("  {line}");
            }
            return ExitCode::FAILURE;
        }
    }
    let answers: Vec<String> = run.answers.iter().map(|(kind, count)| format!("{kind}={count}")).collect();
    let two_runs = format!("two-runs={} apart={}", run.asked, run.apart);
    println!("seed={seed} calls={} scripts={} lines={} {two_runs} answers [{}] differences=0", all(&port), run.scripts, run.lines, answers.join(" "));
    ExitCode::SUCCESS
}
