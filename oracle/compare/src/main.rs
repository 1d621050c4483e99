//! Makes scripts, has them answered by the judge and by another side, and compares line by line.
//!
//!     compare run JUDGE N SEED OTHER..      the sweeps (not with ORACLE_SWEEPS=0) and N random scripts
//!     compare find JUDGE N SEED OTHER..     the same, but a difference is only told, not shrunk
//!     compare peers JUDGE N SEED OTHER..    N random scripts of computing and applying alone, every MTU in its turn
//!     compare beyond PLAIN N SEED OTHER..   N random scripts that the original cannot be asked; the judge is oracle/plain
//!     compare count JUDGE N SEED OTHER..    how many of the sweeps and of N random scripts show a difference
//!     compare script SEED INDEX             prints one random script
//!     compare sweep NAME                    prints one sweep; without a name, lists them
//!     compare shrink JUDGE FILE OTHER..     the smallest script found that still shows a difference

mod count;
mod damage;
mod grids;
mod maker;
mod pieces;
mod plans;
mod random;
mod readings;
mod scripts;
mod shrink;
mod sides;
mod sweeps;

use std::process::ExitCode;

use count::Counts;
use sides::Sides;

/// Scripts answered by one start of each side.
const BATCH: u64 = 100;

/// Makes a script from its seed and its index.
type Make = fn(u64, u64) -> Vec<String>;

fn usage() -> ExitCode {
    eprintln!("compare run|find|peers|beyond|count JUDGE N SEED OTHER.. | script SEED INDEX | sweep [NAME] | shrink JUDGE FILE OTHER..");
    ExitCode::from(2)
}

fn main() -> ExitCode {
    let words: Vec<String> = std::env::args().skip(1).collect();
    let words: Vec<&str> = words.iter().map(String::as_str).collect();
    match words[..] {
        [how @ ("run" | "find" | "peers" | "beyond"), judge, count, seed, ref other @ ..] if !other.is_empty() => {
            let (Ok(count), Ok(seed)) = (count.parse(), seed.parse()) else { return usage() };
            let sides = Sides::new(judge, other);
            let (sweeps, make): (_, Make) = match how {
                "peers" => (vec![], scripts::peers),
                "beyond" => (vec![], scripts::beyond),
                _ => (wanted_sweeps(), scripts::random),
            };
            match run(&sides, sweeps, make, count, seed) {
                Ok(()) => ExitCode::SUCCESS,
                Err(_) if how == "find" => ExitCode::FAILURE,
                Err(script) => report(&sides, &script),
            }
        }
        ["count", judge, count, seed, ref other @ ..] if !other.is_empty() => match (count.parse(), seed.parse()) {
            (Ok(count), Ok(seed)) => tell(&Sides::new(judge, other), count, seed),
            _ => usage(),
        },
        ["script", seed, index] => match (seed.parse(), index.parse()) {
            (Ok(seed), Ok(index)) => print(&scripts::random(seed, index)),
            _ => usage(),
        },
        ["sweep"] => print(&sweeps::names()),
        ["sweep", name] => sweeps::named(name).map_or_else(usage, |script| print(&script)),
        ["shrink", judge, file, ref other @ ..] if !other.is_empty() => {
            let text = std::fs::read_to_string(file).expect("the script can be read");
            report(&Sides::new(judge, other), &text.lines().map(String::from).collect::<Vec<_>>())
        }
        _ => usage(),
    }
}

fn print(lines: &[String]) -> ExitCode {
    for line in lines {
        println!("{line}");
    }
    ExitCode::SUCCESS
}

/// None of them with ORACLE_SWEEPS=0.
fn wanted_sweeps() -> Vec<String> {
    if std::env::var("ORACLE_SWEEPS").is_ok_and(|wanted| wanted == "0") { vec![] } else { sweeps::names() }
}

/// The error is a script that shows a difference.
fn run(sides: &Sides, sweeps: Vec<String>, make: Make, count: u64, seed: u64) -> Result<(), Vec<String>> {
    let mut counts = Counts::default();
    for name in sweeps {
        let script = sweeps::named(&name).expect("a sweep of that name");
        answer(sides, &[script], &mut counts, &format!("sweep {name}"))?;
    }
    let mut first = 0;
    while first < count {
        let last = count.min(first + BATCH);
        let batch: Vec<Vec<String>> = (first..last).map(|index| make(seed, index)).collect();
        answer(sides, &batch, &mut counts, &format!("seed {seed}, scripts {first} to {}", last - 1))?;
        first = last;
    }
    println!("seed={seed} {counts} differences=0");
    Ok(())
}

/// Counts the sweeps and the scripts that show a difference. No script is shrunk, and none ends the counting.
fn tell(sides: &Sides, count: u64, seed: u64) -> ExitCode {
    let sweeps: Vec<Vec<String>> = wanted_sweeps().iter().filter_map(|name| sweeps::named(name)).collect();
    let shown = sweeps.iter().filter(|script| sides.differ(script)).count();
    let mut differing = 0;
    let mut first = 0;
    while first < count {
        let last = count.min(first + BATCH);
        let batch: Vec<Vec<String>> = (first..last).map(|index| scripts::random(seed, index)).collect();
        differing += differing_of(sides, &batch);
        first = last;
    }
    println!("sweeps={shown} of {}, scripts={differing} of {count}, differing={}", sweeps.len(), shown + differing);
    ExitCode::SUCCESS
}

/// How many of the scripts show a difference. Each begins with both tables empty; only `@digest` and `@delta` reach from one
/// into the next.
fn differing_of(sides: &Sides, batch: &[Vec<String>]) -> usize {
    let (judge, other) = sides.answers(&joined(batch));
    let mut at = 0;
    let mut differing = 0;
    for script in batch {
        let end = at + BETWEEN.len() + script.len();
        if judge.get(at..end) != other.get(at..end) || judge.len() < end {
            differing += 1;
        }
        at = end;
    }
    differing
}

/// Lines that bring both tables back to empty, between two scripts that are answered by one start.
const BETWEEN: [&str; 8] = ["hub 3", "new", "hub 2", "new", "hub 1", "new", "hub 0", "new"];

/// The scripts behind one another. A made line is a call: one that is none would be `malformed` on both sides and show nothing.
fn joined(batch: &[Vec<String>]) -> Vec<String> {
    let mut whole = Vec::new();
    for script in batch {
        whole.extend(BETWEEN.map(String::from));
        whole.extend_from_slice(script);
    }
    for line in &whole {
        assert!(script::Call::parse(line).is_some(), "not a call: {line}");
    }
    whole
}

/// Answers the scripts and counts. The error is the first script that shows a difference alone, else all of them.
fn answer(sides: &Sides, batch: &[Vec<String>], counts: &mut Counts, what: &str) -> Result<(), Vec<String>> {
    let whole = joined(batch);
    let (judge, other) = sides.answers(&whole);
    if judge == other && judge.len() == whole.len() {
        counts.scripts += batch.len();
        counts.add(&whole, &judge);
        return Ok(());
    }
    println!("difference in {what}");
    Err(batch.iter().find(|script| sides.differ(script)).unwrap_or(&whole).clone())
}

/// Shrinks a script and shows it with both answers. Says so where there is no difference.
fn report(sides: &Sides, script: &[String]) -> ExitCode {
    if !sides.differ(script) {
        println!("no difference");
        return ExitCode::SUCCESS;
    }
    let small = shrink::smallest(script, |lines| sides.differ(lines));
    let (judge, other) = sides.answers(&small);
    println!("smallest script that differs, lines: {}", small.len());
    for (place, line) in small.iter().enumerate() {
        println!("  {line}");
        let nothing = "(no answer)".to_string();
        let (judge, other) = (judge.get(place).unwrap_or(&nothing), other.get(place).unwrap_or(&nothing));
        if judge != other {
            println!("    judge: {judge}");
            println!("    other: {other}");
        }
    }
    ExitCode::FAILURE
}
