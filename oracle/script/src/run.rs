//! Runs a script against one side.

use std::io::{BufRead, Write};

use crate::call::HUBS;
use crate::table::{FREE, GUARDED, PLAIN, SHARED, checksum};
use crate::{Answer, Bytes, Call, grid, over};

/// One lent table and who answers for it. Calls come with their bytes written out; `new`, `hub`, `party`, `table` and
/// `dump` are answered by the runner through `take_table` and `table_bytes`, and so are the calls on overrides (`over`).
/// The lent grid beside the table is the runner's, which answers `grid` and `dumpgrid`.
pub trait Side {
    /// An empty table in a mode, of a profile.
    fn new(mode: u8, profile: u8) -> Self;
    /// A call on this table, by a party.
    fn answer(&mut self, call: &Call, party: u64) -> Answer;
    /// A call on a grid and this table.
    fn answer_grid(&mut self, grid: &mut Vec<u8>, call: &Call) -> Answer;
    /// From now on the lent table is these bytes, good or not.
    fn take_table(&mut self, bytes: &[u8]) -> Answer;
    fn table_bytes(&self) -> Vec<u8>;
}

struct Desk<S> {
    hubs: [S; HUBS],
    grids: [Vec<u8>; HUBS],
    current: usize,
    party: u64,
    last_digest: Vec<u8>,
    last_delta: Vec<u8>,
}

impl<S: Side> Desk<S> {
    fn new() -> Self {
        let hubs = [(); HUBS].map(|()| S::new(PLAIN, FREE));
        let grids = [(); HUBS].map(|()| grid::empty());
        Desk { hubs, grids, current: 0, party: 0, last_digest: Vec::new(), last_delta: Vec::new() }
    }

    fn write_out(&self, bytes: &mut Bytes) {
        match bytes {
            Bytes::Given(_) => {}
            Bytes::LastDigest => *bytes = Bytes::Given(self.last_digest.clone()),
            Bytes::LastDelta => *bytes = Bytes::Given(self.last_delta.clone()),
        }
    }

    fn answer(&mut self, mut call: Call) -> Answer {
        match &mut call {
            Call::ReadDigest { bytes, .. }
            | Call::ReadDelta { bytes }
            | Call::Apply { bytes, .. }
            | Call::Table { bytes }
            | Call::Grid { bytes }
            | Call::Tell { digest: bytes, .. }
            | Call::Compute { digest: bytes, .. }
            | Call::Plan { digest: bytes, .. }
            | Call::PlanFault { digest: bytes, .. } => self.write_out(bytes),
            _ => {}
        }
        let answer = match &call {
            Call::New { mode, profile } if *mode > u64::from(GUARDED) || *profile > u64::from(SHARED) => Answer::Refused(14),
            Call::New { mode, profile } => {
                self.hubs[self.current] = S::new(*mode as u8, *profile as u8);
                self.grids[self.current] = grid::empty();
                Answer::Done
            }
            Call::Hub(hub) => {
                self.current = *hub;
                Answer::Done
            }
            Call::Party { number } => {
                self.party = *number;
                Answer::Done
            }
            Call::Table { bytes: Bytes::Given(bytes) } => self.hubs[self.current].take_table(bytes),
            Call::Dump => Answer::Table(self.hubs[self.current].table_bytes()),
            Call::Overrides { number } => self.hubs[self.current].take_table(&over::fresh(*number)),
            Call::Label { .. } | Call::Unlabel { .. } | Call::UnlabelTtl { .. } | Call::GcLabels { .. } => {
                let (answer, after) = over::change::<S>(&self.hubs[self.current].table_bytes(), &call);
                if let Some(bytes) = after {
                    self.hubs[self.current].take_table(&bytes);
                }
                answer
            }
            Call::GetOver { hub, node, key } => {
                let overrides = self.hubs[*hub].table_bytes();
                over::get(&overrides, &mut self.hubs[self.current], self.party, *node, key).unwrap_or_else(|refused| refused)
            }
            Call::ListOver { hub, node, prefix, places } => {
                let overrides = self.hubs[*hub].table_bytes();
                over::list(&overrides, &mut self.hubs[self.current], self.party, *node, prefix, *places).unwrap_or_else(|refused| refused)
            }
            Call::Grid { bytes: Bytes::Given(bytes) } => {
                self.grids[self.current] = bytes.clone();
                Answer::Done
            }
            Call::DumpGrid => Answer::Grid(self.grids[self.current].clone()),
            call if call.on_grid() => self.hubs[self.current].answer_grid(&mut self.grids[self.current], call),
            call => self.hubs[self.current].answer(call, self.party),
        };
        match &answer {
            Answer::DigestWritten { datagram, start, end } => self.last_digest = datagram[*start..*end].to_vec(),
            Answer::DeltaWritten { bytes, .. } => self.last_delta = bytes.clone(),
            _ => {}
        }
        answer
    }
}

/// Answers each line of the script by one line: the answer and the checksum of the current table, and that of its grid where the call is on a grid;
/// `malformed` alone where the line is not of the language.
pub fn answer_script<S: Side>(input: impl BufRead, output: &mut impl Write) -> std::io::Result<()> {
    let mut desk = Desk::<S>::new();
    for line in input.lines() {
        let line = line?;
        let Some(call) = Call::parse(&line) else {
            writeln!(output, "malformed")?;
            continue;
        };
        let on_grid = call.on_grid();
        let answer = desk.answer(call);
        let table = desk.hubs[desk.current].table_bytes();
        write!(output, "{answer} {}", checksum(&table))?;
        if on_grid {
            write!(output, " {}", checksum(&desk.grids[desk.current]))?;
        }
        writeln!(output)?;
    }
    Ok(())
}
