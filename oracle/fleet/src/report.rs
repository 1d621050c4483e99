//! What was seen, as lines of the pages and as numbers to draw from.

use std::fmt::Write as _;
use std::path::Path;

use kevdarosh::Mode;

use crate::claims::CLAIMS;
use crate::story::{Part, Report};

/// 12,345.
pub fn grouped(number: u64) -> String {
    let digits = number.to_string();
    let mut text = String::new();
    for (place, digit) in digits.chars().enumerate() {
        if place > 0 && (digits.len() - place) % 3 == 0 {
            text.push(',');
        }
        text.push(digit);
    }
    text
}

pub fn mode(mode: Mode) -> &'static str {
    match mode {
        Mode::Plain => "plain",
        Mode::Fenced => "fenced",
        _ => "guarded",
    }
}

/// 15, or 15 to 20.
pub fn span((least, most): (u64, u64)) -> String {
    if least == most { grouped(least) } else { format!("{} to {}", grouped(least), grouped(most)) }
}

/// Of a thousand, in a hundred.
pub fn percent(thousandths: u64) -> String {
    match thousandths {
        0 => "0".into(),
        10.. => format!("{} %", thousandths.div_ceil(10)),
        few => format!("0.{few} %"),
    }
}

fn each(number: u64, hubs: usize) -> String {
    grouped((number + hubs as u64 / 2) / hubs as u64)
}

/// How soon all agree, and what was sent for it. Nothing is in a reset in these parts, so the modes do the same.
pub fn agreeing(reports: &[&Report]) -> String {
    let mut text = String::from(
        "| hubs | records of a node | MTU | full table: ticks | datagrams a hub | bytes a hub | one write: ticks | one delete: ticks |\n|---|---|---|---|---|---|---|---|\n",
    );
    for report in reports {
        let plan = report.plan;
        let full = report.of(Part::Full).next().expect("a full table");
        let behind = report.behind(Part::Full) + report.behind(Part::One) + report.behind(Part::Delete);
        let ticks = if behind > 0 { format!("{behind} left behind") } else { grouped(full.ticks) };
        let _ = writeln!(
            text,
            "| {} | {} | {} | {ticks} | {} | {} | {} | {} |",
            grouped(plan.hubs as u64),
            plan.records,
            grouped(plan.mtu as u64),
            each(full.datagrams, plan.hubs),
            each(full.bytes, plan.hubs),
            span(report.ticks(Part::One)),
            span(report.ticks(Part::Delete)),
        );
    }
    text
}

const SHOWN_AT: [u64; 7] = [1, 3, 5, 10, 15, 20, 25];

/// How many hubs still show a deleted reading.
pub fn showing(reports: &[&Report]) -> String {
    let head = SHOWN_AT.map(|at| format!("tick {at}")).join(" | ");
    let mut text =
        format!("| hubs | records of a node | MTU | {head} |\n|---|---|---|{}\n", "---|".repeat(SHOWN_AT.len()));
    for report in reports {
        let plan = report.plan;
        let shares = SHOWN_AT.map(|at| percent(report.showing(at))).join(" | ");
        let _ = writeln!(
            text,
            "| {} | {} | {} | {shares} |",
            grouped(plan.hubs as u64),
            plan.records,
            grouped(plan.mtu as u64)
        );
    }
    text
}

/// What became of the fleet while hubs were switched off and on.
pub fn living(reports: &[&Report]) -> String {
    let mut text = String::from(
        "| hubs | records of a node | MTU | mode | resets | fenced | hubs that show what is back: most at once | at the end | readings back at the end | went back | agree after | left behind | with an MTU of 16,384 |\n|---|---|---|---|---|---|---|---|---|---|---|---|---|\n",
    );
    for report in reports {
        let (plan, (most, end, readings)) = (report.plan, report.back());
        let behind = report.behind(Part::End);
        let wide = report.of(Part::Wide).next().map_or(String::new(), |wide| match wide.behind {
            0 => format!("{} ticks", grouped(wide.ticks)),
            behind => format!("{} left behind", grouped(behind as u64)),
        });
        let after = report
            .of(Part::End)
            .next()
            .map_or(String::new(), |end| if end.behind > 0 { "no".into() } else { format!("{} ticks", end.ticks) });
        let _ = writeln!(
            text,
            "| {} | {} | {} | {} | {} | {} | {} | {} | {} | {} | {after} | {} | {wide} |",
            grouped(plan.hubs as u64),
            plan.records,
            grouped(plan.mtu as u64),
            mode(plan.mode),
            grouped(report.counts.resets),
            grouped(report.counts.fenced),
            percent(most),
            percent(end),
            grouped(readings),
            grouped(report.counts.fell),
            grouped(behind as u64),
        );
    }
    text
}

/// The numbers, a line a tick and a line a part.
pub fn store(reports: &[&Report], folder: &Path) -> std::io::Result<()> {
    std::fs::create_dir_all(folder)?;
    let (mut ticks, mut parts) = (String::new(), String::new());
    for report in reports {
        let plan = report.plan;
        let head = format!("{}\t{}\t{}\t{}", plan.hubs, plan.records, plan.mtu, mode(plan.mode));
        for tick in &report.ticks {
            let sample = tick.sample;
            let _ = writeln!(
                ticks,
                "{head}\t{:?}\t{}\t{}\t{}\t{}\t{}\t{}\t{}\t{}",
                tick.part,
                tick.turn,
                tick.at,
                sample.on,
                sample.agree,
                sample.late,
                sample.back,
                sample.readings,
                sample.datagrams
            );
        }
        for part in &report.agreed {
            let _ = writeln!(
                parts,
                "{head}\t{:?}\t{}\t{}\t{}\t{}\t{}",
                part.part, part.turn, part.ticks, part.behind, part.datagrams, part.bytes
            );
        }
    }
    let head = "# hubs, records, MTU, mode, part, turn";
    std::fs::write(
        folder.join("ticks.tsv"),
        format!("{head}, tick; hubs on, agree, late, back; readings back, datagrams\n{ticks}"),
    )?;
    std::fs::write(folder.join("parts.tsv"), format!("{head}; ticks, left behind, datagrams, bytes\n{parts}"))
}

/// The claims that are broken in a report, and when first.
pub fn broken(report: &Report) -> Vec<String> {
    let times = report.breaches.iter().zip(report.first).zip(CLAIMS);
    times
        .filter(|((times, _), _)| **times > 0)
        .map(|((times, first), claim)| {
            format!("{claim}: {} times, first in tick {}", grouped(*times), first.unwrap_or(0))
        })
        .collect()
}
