//! One thing changed at a time: whom a hub hears, what is lost, asking back, the grace, careful removal.

use kevdarosh::Mode;

use crate::careful::{self, Careful};
use crate::plan::{LINK, Link, Peers, Plan};
use crate::port::Port;
use crate::report::{self, grouped, percent, span};
use crate::story::{self, Part, Report};
use crate::{HUBS, work};

const MTU: usize = 1_400;
const RECORDS: usize = 32;
const LONGER: [u64; 3] = [20, 40, 80];
const GRACES: [u64; 6] = [5, 10, 15, 20, 25, 30];

/// The largest fleets have four records a node, so that all this takes minutes.
fn plan(hubs: usize, seed: u64) -> Plan {
    Plan::new(hubs, if hubs < 10_000 { RECORDS } else { 4 }, MTU, Mode::Guarded, seed)
}

/// Ticks, or how many were left behind.
fn ticks(report: &Report, part: Part) -> String {
    match report.behind(part) {
        0 => span(report.ticks(part)),
        behind => format!("{} left behind", grouped(behind as u64)),
    }
}

fn rows(title: &str, first: &str, plans: Vec<(String, Plan)>, jobs: usize) -> usize {
    println!(
        "{title}\n\n| {first} | full table: ticks | one write: ticks | datagrams a hub in a tick while nothing is new |\n|---|---|---|---|"
    );
    let mut broken = 0;
    for (name, report) in work::each(plans, jobs, |(name, plan)| (name, story::calm::<Port>(plan))) {
        // The last tick of the last part: everyone agrees, or nobody gets on.
        let quiet = report.ticks.last().map_or(0, |tick| 100 * tick.sample.datagrams / report.plan.hubs as u64);
        println!(
            "| {name} | {} | {} | {}.{:02} |",
            ticks(&report, Part::Full),
            ticks(&report, Part::One),
            quiet / 100,
            quiet % 100
        );
        broken += report.broken() as usize;
    }
    println!();
    broken
}

fn peers(seed: u64, jobs: usize) -> usize {
    let some = [2, 3, 4, 8].map(|count| (format!("{count} picked by each"), Peers::Some(count)));
    let plans = some.into_iter().chain([("anyone".into(), Peers::Any)]);
    let plans = plans.map(|(name, peers)| (name, Plan { peers, ..plan(1_000, seed) })).collect();
    let row = [10, 100]
        .map(|hubs| (format!("the two beside it in a row of {hubs}"), Plan { peers: Peers::Row, ..plan(hubs, seed) }));
    rows("Whom a hub hears: 1,000 hubs, MTU 1,400, 32 records", "peers", plans, jobs)
        + rows("Hubs in a row", "peers", row.into(), jobs)
}

fn links(seed: u64, jobs: usize) -> usize {
    let plans = [0, 100, 250, 500]
        .map(|lost| (format!("{} %", lost / 10), Plan { link: Link { lost, ..LINK }, ..plan(1_000, seed) }));
    rows("What is lost: 1,000 hubs, MTU 1,400, 32 records", "datagrams lost", plans.into(), jobs)
}

fn asking(seed: u64, jobs: usize) -> usize {
    let plans = |both: bool| HUBS.map(|hubs| (grouped(hubs as u64), Plan { both, ..plan(hubs, seed) })).into();
    rows("Who is asked answers", "hubs", plans(false), jobs)
        + rows("Who is asked answers, and asks back", "hubs", plans(true), jobs)
}

/// Resets of a fleet whose hubs are all on, by the grace.
fn graces(seed: u64, jobs: usize) -> usize {
    let plans = HUBS[..3].iter().flat_map(|&hubs| GRACES.map(|grace| Plan { grace, ..plan(hubs, seed) })).collect();
    let reports = work::each(plans, jobs, story::steady::<Port>);
    println!(
        "Resets by the grace, in ticks: all hubs are on, MTU 1,400, 32 records\n\n| hubs | {} |\n|---|{}",
        GRACES.map(|grace| grace.to_string()).join(" | "),
        "---|".repeat(GRACES.len())
    );
    for net in reports.chunks(GRACES.len()) {
        let resets: Vec<String> = net.iter().map(|report| grouped(report.counts.resets)).collect();
        println!("| {} | {} |", grouped(net[0].plan.hubs as u64), resets.join(" | "));
    }
    println!();
    reports.iter().map(|report| report.broken() as usize).sum()
}

/// Hubs are switched off and on, for up to 60 ticks, with a longer and longer grace.
fn lives(seed: u64, jobs: usize) -> usize {
    let mtus = [135, 508].map(|mtu| Plan { mtu, ..plan(1_000, seed) });
    let plans = mtus.into_iter().flat_map(|plan| LONGER.map(|grace| Plan { grace, ..plan })).collect();
    let reports = work::each(plans, jobs, story::whole::<Port>);
    println!(
        "Hubs that are switched off and on, by the grace: 1,000 guarded hubs, 32 records\n\n\
         | MTU | grace | resets | Fenced | agree after | left behind |\n|---|---|---|---|---|---|"
    );
    for report in &reports {
        let behind = report.behind(Part::End);
        println!(
            "| {} | {} | {} | {} | {} | {} |",
            grouped(report.plan.mtu as u64),
            report.plan.grace,
            grouped(report.counts.resets),
            grouped(report.counts.fenced),
            if behind > 0 { "no".into() } else { format!("{} ticks", span(report.ticks(Part::End))) },
            grouped(behind as u64),
        );
    }
    println!();
    reports.iter().map(|report| report.broken() as usize).sum()
}

/// Nine plain hubs, each of which is switched off and on with the table that it had: they remove by the clock, or carefully and while all the others are present. How many claims are broken in
/// careful fleets, and how many nodes reset.
pub fn careful(seed: u64, jobs: usize) -> usize {
    let sizes = [4, RECORDS].into_iter().flat_map(|records| [135, 508, MTU, 16_384].map(|mtu| (records, mtu)));
    let plans: Vec<Plan> =
        sizes.map(|(records, mtu)| Plan { keeps: true, ..Plan::new(careful::HUBS, records, mtu, Mode::Plain, seed) }).collect();
    let by_clock = work::each(plans.clone(), jobs, story::whole::<Port>);
    let with_care = work::each(plans, jobs, story::whole::<Careful>);
    println!(
        "Careful removal: {} plain hubs, switched off and on, nobody restored\n\n\
         | records of a node | MTU | removal | records removed | resets | hubs that show what is back: most at once | at the end | agree after | claims broken |\n|---|---|---|---|---|---|---|---|---|",
        careful::HUBS
    );
    let mut faults = 0;
    for (clock, care) in by_clock.iter().zip(&with_care) {
        for (name, report) in [("by the clock", clock), ("careful", care)] {
            let (most, end, _) = report.back();
            println!(
                "| {} | {} | {name} | {} | {} | {} | {} | {} | {} |",
                report.plan.records,
                grouped(report.plan.mtu as u64),
                grouped(report.counts.removed),
                grouped(report.counts.resets),
                percent(most),
                percent(end),
                ticks(report, Part::End),
                grouped(report.broken()),
            );
        }
        for claim in report::broken(care) {
            println!("{:?}: BROKEN: {claim}", care.plan);
        }
        // A fleet that removes nothing would show nothing.
        faults += (care.broken() + care.counts.resets + care.behind(Part::End) as u64) as usize + usize::from(care.counts.removed == 0);
    }
    println!();
    faults
}

/// One of them, or all. How many claims are broken; none where there is no such study.
pub fn play(seed: u64, jobs: usize, name: Option<&str>) -> Option<usize> {
    let studies: [(&str, fn(u64, usize) -> usize); 6] =
        [("peers", peers), ("links", links), ("asking", asking), ("graces", graces), ("lives", lives), ("careful", careful)];
    let wanted = studies.into_iter().filter(|(study, _)| name.is_none_or(|name| name == *study));
    let broken: Vec<usize> = wanted.map(|(_, study)| study(seed, jobs)).collect();
    println!("claims broken: {}", broken.iter().sum::<usize>());
    (!broken.is_empty()).then(|| broken.iter().sum())
}
