//! The same schedules on the original Rust, beside the port: table for table the same, and what each took.

use std::borrow::Cow;

use judge::fleet::Old;
use kevdarosh::Mode;

use crate::memory;
use crate::net::Net;
use crate::plan::{NODES, Plan};
use crate::port::Port;
use crate::report::{self, grouped};
use crate::side::{Change, Sent, Side, Taken};
use crate::story::{Part, Report, Story};
use crate::{MTUS, RECORDS};

impl Side for Old {
    fn new(_plain: Mode) -> Old {
        Old::new()
    }

    fn change(&mut self, node: u64, key: &str, change: Change, clock: u64) -> bool {
        let before = self.max(node);
        match change {
            Change::Set(value) => self.set(node, key, value),
            Change::SetWithTtl(value) => self.set_with_ttl(node, key, value, clock),
            Change::Delete => self.delete(node, key, clock),
        }
        self.max(node) != before
    }

    fn beat(&mut self, node: u64) {
        Old::beat(self, node);
    }

    fn remove(&mut self, clock: u64, grace: u64) {
        Old::remove(self, clock, grace);
    }

    fn digest(&self) -> Sent {
        let bytes = Old::digest(self);
        // Its names of nodes have nine bytes more.
        let len = bytes.len() - 9 * NODES;
        Sent { bytes: bytes.into(), len, extra: 0 }
    }

    fn offer(&mut self, digest: &[u8], own: Option<u64>) {
        Old::offer(self, digest, own);
    }

    fn set_ties(ties: &[u64]) {
        judge::fleet::set_ties(ties);
    }

    fn compute(&self, digest: &[u8], mtu: usize, _ties: &[u64], _datagram: &mut [u8]) -> Option<Sent> {
        let computed = Old::compute(self, digest, mtu)?;
        Some(Sent { bytes: computed.stream.into(), len: computed.len, extra: computed.extra })
    }

    fn apply(&mut self, delta: &[u8], clock: u64, own: Option<u64>) -> Taken {
        let before = own.map(|node| self.max(node));
        Old::apply(self, delta, clock);
        Taken { changed: u8::MAX, own_taken: own.map(|node| self.max(node)) != before, ..Taken::default() }
    }

    fn table(&self) -> Cow<'_, [u8]> {
        Cow::Owned(Old::table(self))
    }

    fn of(table: &[u8]) -> Option<Old> {
        Some(Old::of(table))
    }
}

/// Of all tables of a net, in the order of its hubs.
fn checksum<S: Side>(net: &Net<S>) -> u64 {
    let mut sum = 0u64;
    for hub in &net.hubs {
        let table = hub.table();
        for word in table.chunks(8) {
            let mut bytes = [0; 8];
            bytes[..word.len()].copy_from_slice(word);
            sum = (sum.rotate_left(5) ^ u64::from_le_bytes(bytes)).wrapping_mul(0x9E37_79B9_7F4A_7C15);
        }
    }
    sum
}

/// A story, the checksum after each tick, and the bytes that a hub holds on the heap at its end.
fn played<S: Side>(plan: Plan) -> (Report, Vec<u64>, usize) {
    let mut sums = Vec::new();
    let mut after = |net: &Net<S>| sums.push(checksum(net));
    let mut story = Story::<S>::new(plan);
    story.calm(&mut after);
    story.life(true, &mut after);
    let (report, hubs) = story.report();
    let before = memory::held();
    drop(hubs);
    let bytes = (before - memory::held()) / plan.hubs;
    (report, sums, bytes)
}

/// How many nets differ.
pub fn beside(seed: u64, sizes: &[usize]) -> usize {
    println!(
        "| hubs | records of a node | MTU | ticks, table for table the same | hubs that show what is back, at the end | readings back at the end | a hub's calls in a tick: original | port | ratio | a hub's memory: original | port |\n|---|---|---|---|---|---|---|---|---|---|---|"
    );
    let mut different = 0;
    for &hubs in sizes {
        for records in RECORDS {
            for mtu in MTUS {
                let plan = Plan::new(hubs, records, mtu, Mode::Plain, seed);
                let (port, sums, bytes) = played::<Port>(plan);
                let (old, old_sums, old_bytes) = played::<Old>(plan);
                let same = sums.iter().zip(&old_sums).take_while(|(one, other)| one == other).count();
                let differs = same < sums.len()
                    || sums.len() != old_sums.len()
                    || port.back() != old.back()
                    || old.ticks(Part::Full) != port.ticks(Part::Full);
                if differs {
                    println!("{plan:?}: DIFFERENT after {same} ticks");
                    different += 1;
                }
                let (_, end, readings) = old.back();
                let each = |report: &Report| report.spent.all() / (report.ticks.len() * hubs) as u64;
                println!(
                    "| {} | {records} | {} | {} | {} | {} | {} ns | {} ns | {:.2} | {} bytes | {} bytes |",
                    grouped(hubs as u64),
                    grouped(mtu as u64),
                    grouped(same as u64),
                    report::percent(end),
                    grouped(readings),
                    grouped(each(&old)),
                    grouped(each(&port)),
                    each(&port) as f64 / each(&old) as f64,
                    grouped(old_bytes as u64),
                    grouped(bytes as u64),
                );
            }
        }
    }
    println!("\nnets that differ: {different}");
    different
}
