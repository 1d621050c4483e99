//! What happens to a net, from its first tick to its last.

use script::table::{DELETE, SET};

use crate::claims::Breaches;
use crate::net::{Counts, NEVER, Net, Sample, Spent};
use crate::plan::{NODES, Plan};
use crate::side::Side;

/// A part of the story.
#[derive(Clone, Copy, PartialEq, Eq, Debug)]
pub enum Part {
    /// Every owner writes all its records at once; until all agree.
    Full,
    /// One write; until all agree.
    One,
    /// One delete, nothing is removed; until all agree.
    Delete,
    /// Owners write and delete, hubs are switched off and on, and remove by the grace.
    Life,
    /// All are on, nobody writes; until all agree, and the grace is over.
    End,
    /// Where that left a hub behind: the same with an MTU of 16,384.
    Wide,
}

impl Part {
    /// Whether no hub is switched off and nothing removed in it.
    pub fn calm(self) -> bool {
        matches!(self, Part::Full | Part::One | Part::Delete)
    }
}

/// How often one record is written, and how often one is deleted.
const WRITES: usize = 4;
/// The ticks of a part that does not end by itself.
pub const LIFE: u64 = 150;
/// An owner changes a key once in so many ticks; a hub is switched off once in so many.
const WRITE_ONCE_IN: usize = 10;
const OFF_ONCE_IN: usize = 200;
/// Ticks until who does not agree counts as left behind: of a part without removals, of the end.
const MOST: u64 = 1_500;
const MOST_END: u64 = 400;

pub struct Tick {
    pub part: Part,
    /// Which write or delete it is.
    pub turn: usize,
    /// Within the part.
    pub at: u64,
    pub sample: Sample,
}

/// How a part went until all agreed.
#[derive(Clone, Copy, Debug)]
pub struct Agreed {
    pub part: Part,
    pub turn: usize,
    pub ticks: u64,
    pub behind: usize,
    pub datagrams: u64,
    pub bytes: u64,
}

pub struct Report {
    pub plan: Plan,
    pub ticks: Vec<Tick>,
    pub agreed: Vec<Agreed>,
    pub counts: Counts,
    pub spent: Spent,
    pub breaches: Breaches,
    pub first: [Option<u64>; crate::claims::CLAIMS.len()],
}

pub struct Story<S> {
    pub net: Net<S>,
    ticks: Vec<Tick>,
    agreed: Vec<Agreed>,
}

impl Report {
    pub fn of(&self, part: Part) -> impl Iterator<Item = &Agreed> {
        self.agreed.iter().filter(move |agreed| agreed.part == part)
    }

    /// The ticks of a part that is played several times, the fewest and the most.
    pub fn ticks(&self, part: Part) -> (u64, u64) {
        let ticks = || self.of(part).map(|agreed| agreed.ticks);
        (ticks().min().unwrap_or(0), ticks().max().unwrap_or(0))
    }

    /// Hubs that show a deleted reading at this tick after the delete, in a thousand; the mean of all deletes.
    pub fn showing(&self, at: u64) -> u64 {
        let deletes = self.of(Part::Delete).count().max(1) as u64;
        let shown = self.ticks.iter().filter(|tick| tick.part == Part::Delete && tick.at == at);
        let sum: u64 = shown.map(|tick| (1_000 * tick.sample.late as u64).div_ceil(tick.sample.on.max(1) as u64)).sum();
        sum.div_ceil(deletes)
    }

    /// Hubs that show deleted readings that are back: in a thousand of those that are on, the most at once, and at the end; and those readings at the end.
    pub fn back(&self) -> (u64, u64, u64) {
        let share = |sample: &Sample| (1_000 * sample.back as u64).div_ceil(sample.on.max(1) as u64);
        let most = self.ticks.iter().map(|tick| share(&tick.sample)).max().unwrap_or(0);
        let end = self.ticks.iter().rfind(|tick| tick.part == Part::End).map(|tick| tick.sample).unwrap_or_default();
        (most, share(&end), end.readings)
    }

    pub fn behind(&self, part: Part) -> usize {
        self.of(part).map(|agreed| agreed.behind).sum()
    }

    pub fn broken(&self) -> u64 {
        self.breaches.iter().sum()
    }
}

impl<S: Side> Story<S> {
    pub fn new(plan: Plan) -> Story<S> {
        Story { net: Net::new(plan), ticks: Vec::new(), agreed: Vec::new() }
    }

    fn step(&mut self, part: Part, turn: usize, at: u64) -> Sample {
        let sample = self.net.step();
        self.ticks.push(Tick { part, turn, at, sample });
        sample
    }

    /// Until all agree, and at least so many ticks. `after` is called after each tick.
    fn until(&mut self, part: Part, turn: usize, least: u64, most: u64, after: &mut impl FnMut(&Net<S>)) {
        let before = self.net.counts;
        // Who agrees stays so, unless it forgets.
        let (mut ticks, mut behind) = (1, 0);
        for at in 1..=most {
            let sample = self.step(part, turn, at);
            after(&self.net);
            behind = self.net.plan.hubs - sample.agree;
            if behind > 0 {
                ticks = at + 1;
            }
            if behind == 0 && at >= least {
                break;
            }
        }
        let sent = |count: fn(&Counts) -> u64| count(&self.net.counts) - count(&before);
        self.agreed.push(Agreed {
            part,
            turn,
            ticks,
            behind,
            datagrams: sent(|counts| counts.datagrams),
            bytes: sent(|counts| counts.bytes),
        });
    }

    /// The parts before hubs are switched off.
    pub fn calm(&mut self, after: &mut impl FnMut(&Net<S>)) {
        self.net.write_all();
        self.until(Part::Full, 0, 0, MOST, after);
        for turn in 0..WRITES {
            self.net.write(turn % NODES, turn % self.net.plan.records, SET);
            self.until(Part::One, turn, 0, MOST, after);
        }
        for turn in 0..WRITES {
            self.net.write((turn + WRITES) % NODES, turn % self.net.plan.records, DELETE);
            self.until(Part::Delete, turn, 0, MOST, after);
        }
    }

    /// With hubs that are switched off, or all of them on.
    pub fn life(&mut self, off: bool, after: &mut impl FnMut(&Net<S>)) {
        self.net.grace = self.net.plan.grace;
        for at in 1..=LIFE {
            if off {
                self.net.switch_some(OFF_ONCE_IN);
            }
            self.net.write_some(WRITE_ONCE_IN);
            self.step(Part::Life, 0, at);
            after(&self.net);
        }
        self.net.all_on();
        let least = 2 * self.net.plan.grace;
        self.until(Part::End, 0, least, MOST_END, after);
        if self.agreed.last().is_some_and(|end| end.behind > 0) {
            let mtu = std::mem::replace(&mut self.net.plan.mtu, kevdarosh::DELTA);
            self.until(Part::Wide, 0, 0, MOST_END, after);
            self.net.plan.mtu = mtu;
        }
        self.net.grace = NEVER;
    }

    pub fn report(self) -> (Report, Vec<S>) {
        let Story { net, ticks, agreed } = self;
        let report = Report {
            plan: net.plan,
            ticks,
            agreed,
            counts: net.counts,
            spent: net.spent,
            breaches: net.breaches,
            first: net.first,
        };
        (report, net.hubs)
    }
}

pub fn whole<S: Side>(plan: Plan) -> Report {
    let mut story = Story::<S>::new(plan);
    story.calm(&mut |_| {});
    story.life(true, &mut |_| {});
    story.report().0
}

/// Until all agree, after a full table, writes and deletes.
pub fn calm<S: Side>(plan: Plan) -> Report {
    let mut story = Story::<S>::new(plan);
    story.calm(&mut |_| {});
    story.report().0
}

/// Every hub stays on, and removes by the grace.
pub fn steady<S: Side>(plan: Plan) -> Report {
    let mut story = Story::<S>::new(plan);
    story.net.write_all();
    story.until(Part::Full, 0, 0, MOST, &mut |_| {});
    story.life(false, &mut |_| {});
    story.report().0
}
