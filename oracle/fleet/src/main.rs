//! Fleets of hubs. See oracle/scale.

mod careful;
mod chance;
mod claims;
#[cfg(feature = "original")]
mod memory;
mod net;
#[cfg(feature = "original")]
mod original;
mod picture;
mod plan;
mod port;
mod report;
mod side;
mod story;
mod studies;
mod view;
mod work;
mod wrong;

use std::path::Path;
use std::process::ExitCode;

use kevdarosh::Mode;
use plan::Plan;
use report::grouped;
use story::Report;

/// The modes. Careful removal is a study of its own (`studies::careful`): a grid has rows for eight peers.
const MODES: [Mode; 3] = [Mode::Plain, Mode::Fenced, Mode::Guarded];
const RECORDS: [usize; 2] = [4, 32];
const MTUS: [usize; 4] = [135, 508, 1_400, 16_384];
const HUBS: [usize; 4] = [10, 100, 1_000, 10_000];

/// Every plan of these sizes.
fn plans(hubs: &[usize], records: &[usize], mtus: &[usize], seed: u64) -> Vec<Plan> {
    let mut plans = Vec::new();
    for &hubs in hubs {
        for &records in records {
            for &mtu in mtus {
                plans.extend(MODES.map(|mode| Plan::new(hubs, records, mtu, mode, seed)));
            }
        }
    }
    plans
}

/// Says what a safe mode broke, and whether the modes did the same where nothing is in a reset. How many things are wrong.
fn faults(reports: &[Report]) -> usize {
    let mut faults = 0;
    for report in reports.iter().filter(|report| report.plan.mode != Mode::Plain) {
        for claim in report::broken(report) {
            println!("{:?}: BROKEN: {claim}", report.plan);
            faults += 1;
        }
    }
    for same in reports.chunks(MODES.len()) {
        let calm =
            |report: &Report| format!("{:?}", report.agreed.iter().filter(|part| part.part.calm()).collect::<Vec<_>>());
        if same.iter().any(|report| calm(report) != calm(&same[0])) {
            println!("{:?}: the modes differ where nothing is in a reset", same[0].plan);
            faults += 1;
        }
    }
    faults
}

fn matrix(plans: Vec<Plan>, jobs: usize, folder: Option<&Path>) -> usize {
    let start = std::time::Instant::now();
    let reports = work::each(plans, jobs, story::whole::<port::Port>);
    let guarded: Vec<&Report> = reports.iter().filter(|report| report.plan.mode == Mode::Guarded).collect();
    println!("How soon all agree, and what is sent until then\n\n{}", report::agreeing(&guarded));
    println!("Hubs that show a deleted reading, after the delete\n\n{}", report::showing(&guarded));
    let all: Vec<&Report> = reports.iter().collect();
    println!("Hubs that are switched off and on\n\n{}", report::living(&all));
    let sum = |count: fn(&Report) -> u64| grouped(reports.iter().map(count).sum());
    let safe: u64 = reports.iter().filter(|report| report.plan.mode != Mode::Plain).map(Report::broken).sum();
    println!(
        "{} nets, {} ticks, {} datagrams, {} lost, {} doubled, {} late; {} times a hub was switched off; {} nodes looked at; in fenced and guarded nets {} claims broken. A hub's calls took {} ns in a tick. {:.0} seconds.",
        reports.len(),
        sum(|report| report.ticks.len() as u64),
        sum(|report| report.counts.datagrams),
        sum(|report| report.counts.lost),
        sum(|report| report.counts.doubled),
        sum(|report| report.counts.late),
        sum(|report| report.counts.switched),
        sum(|report| report.counts.looked),
        safe,
        grouped(
            reports.iter().map(|report| report.spent.all()).sum::<u64>()
                / reports.iter().map(|report| (report.ticks.len() * report.plan.hubs) as u64).sum::<u64>()
        ),
        start.elapsed().as_secs_f64(),
    );
    if let Some(folder) = folder {
        report::store(&all, folder).expect("a folder to write to");
    }
    faults(&reports)
}

/// Small nets of every mode, careful ones, and the wrong hubs.
fn small(seed: u64, jobs: usize) -> usize {
    matrix(plans(&[10, 100], &RECORDS, &[135, 1_400], seed), jobs, None) + studies::careful(seed, jobs) + wrong::all(seed)
}

fn run(words: &[String]) -> Option<usize> {
    let number = |word: &String| word.parse::<usize>().ok();
    Some(match words {
        [command, seed, jobs, folder, hubs @ ..] if command == "all" => {
            let hubs = hubs.iter().map(number).collect::<Option<Vec<_>>>()?;
            let hubs = if hubs.is_empty() { &HUBS[..] } else { &hubs[..] };
            matrix(plans(hubs, &RECORDS, &MTUS, number(seed)? as u64), number(jobs)?, Some(Path::new(folder)))
        }
        [command, seed, jobs] if command == "small" => small(number(seed)? as u64, number(jobs)?),
        [command, seed] if command == "wrong" => wrong::all(number(seed)? as u64),
        [command, seed, jobs, study @ ..] if command == "choose" => {
            studies::play(number(seed)? as u64, number(jobs)?, study.first().map(String::as_str))?
        }
        [command, folder, out] if command == "pictures" => {
            picture::all(Path::new(folder), Path::new(out));
            0
        }
        #[cfg(feature = "original")]
        [command, seed, hubs @ ..] if command == "original" => {
            let hubs = hubs.iter().map(number).collect::<Option<Vec<_>>>()?;
            original::beside(number(seed)? as u64, if hubs.is_empty() { &HUBS[..3] } else { &hubs })
        }
        _ => return None,
    })
}

fn main() -> ExitCode {
    match run(&std::env::args().skip(1).collect::<Vec<_>>()) {
        Some(0) => ExitCode::SUCCESS,
        Some(_) => ExitCode::FAILURE,
        None => {
            eprintln!("usage: see oracle/scale");
            ExitCode::from(2)
        }
    }
}
