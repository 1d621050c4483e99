//! Random nets of three to five hubs on the port itself. See oracle/net.

mod bytes;
mod net;
mod port;
mod random;

use net::{Counts, HANDED, Kind, Look, Net, SAFE, UNSAFE};
use random::Random;

/// Nets of one kind until so many steps are done. Err: what fails, and after how many steps of all.
fn search(kind: Kind, look: Look, steps: u64, seed: u64, counts: &mut Counts) -> Result<(), (String, u64)> {
    for index in 0.. {
        if counts.steps >= steps {
            break;
        }
        let before = counts.steps;
        let mut random = Random::new(seed, index * 16 + kind as u64);
        let length = 10 + random.below(110);
        let mut net = Net::new(kind, look, random, counts);
        let mut outcome = Ok(());
        for _ in 0..length {
            outcome = net.step();
            if outcome.is_err() {
                break;
            }
        }
        if let Err(claim) = outcome.and_then(|()| net.end()) {
            let within = counts.steps - before;
            return Err((format!("{claim} (net {index}, its step {within})"), counts.steps));
        }
    }
    Ok(())
}

fn number(word: Option<String>) -> u64 {
    word.and_then(|word| word.parse().ok()).expect("usage: nets [rule|claims|locks|handed|stars] N SEED")
}

/// Of so many steps, those that each safe kind has.
const SHARE: u64 = 6;

/// The safe kinds keep what is claimed; each unsafe one is found out.
fn both(steps: u64, seed: u64) -> bool {
    let mut good = true;
    for kind in SAFE {
        let mut counts = Counts::default();
        let outcome = search(kind, Look { rule: true, claims: true }, steps / SHARE, seed, &mut counts);
        counts.say(kind);
        if let Err((claim, at)) = outcome {
            println!("{kind:?}: FAILS after {at} steps: {claim}");
            good = false;
        }
    }
    for kind in UNSAFE {
        // It takes four hubs and some luck to see that one condition of a careful net is missed.
        let most = if kind.has_grids() { 10 * steps } else { steps };
        match search(kind, Look { rule: true, claims: true }, most, seed, &mut Counts::default()) {
            Err((claim, at)) => println!("{kind:?}: fails, as it must, after {at} steps: {claim}"),
            Ok(()) => {
                println!("{kind:?}: NOT FOUND");
                good = false;
            }
        }
    }
    good
}

/// Of a wrong port: the first step at which one of the safe kinds fails.
fn found(look: Look, steps: u64, seed: u64) -> Option<String> {
    let first =
        |kind| search(kind, look, steps, seed, &mut Counts::default()).err().map(|(claim, at)| (at, kind, claim));
    let (at, kind, claim) = SAFE.into_iter().filter_map(first).min_by_key(|found| found.0)?;
    Some(format!("{at} steps, {kind:?}: {claim}"))
}

/// How many of so many nets lock under a small MTU, and how many of these come out of it.
fn locks(nets: u64, seed: u64) -> bool {
    let (mut counts, mut locked, mut opened) = (Counts::default(), 0, 0);
    for index in 0..nets {
        let random = Random::new(seed, index * 16 + Kind::Narrow as u64);
        let mut net = Net::new(Kind::Narrow, Look { rule: true, claims: true }, random, &mut counts);
        match net.locks() {
            Err(claim) => {
                println!("FAILS: {claim} (net {index})");
                return false;
            }
            Ok(None) => {}
            Ok(Some(open)) => {
                locked += 1;
                opened += u64::from(open);
            }
        }
    }
    println!("{nets} nets: {locked} lock, {opened} of them come out of it");
    locked > 0 && locked == opened
}

/// Where owners change the claims are kept; where a condition is missing it is found out.
fn handed(steps: u64, seed: u64) -> bool {
    let (safe, unsafe_kinds) = HANDED;
    let (look, mut counts) = (Look { rule: true, claims: true }, Counts::default());
    let outcome = search(safe, look, steps, seed, &mut counts);
    counts.say(safe);
    if let Err((claim, at)) = &outcome {
        println!("{safe:?}: FAILS after {at} steps: {claim}");
    }
    let mut good = outcome.is_ok();
    for kind in unsafe_kinds {
        match search(kind, look, 10 * steps, seed, &mut Counts::default()) {
            Err((claim, at)) => println!("{kind:?}: fails, as it must, after {at} steps: {claim}"),
            Ok(()) => {
                println!("{kind:?}: NOT FOUND");
                good = false;
            }
        }
    }
    good
}

/// Of so many stars: whether demand 3's count brings every follower up. Err: the first that it does not, and what it is at.
fn stars_of(kind: Kind, nets: u64, seed: u64, counts: &mut Counts) -> Result<(), (String, u64)> {
    for index in 0..nets {
        let mut random = Random::new(seed, index * 16 + kind as u64);
        let length = 10 + random.below(110);
        let mut net = Net::new(kind, Look { rule: true, claims: true }, random, counts);
        (0..length).try_for_each(|_| net.step()).and_then(|()| net.star()).map_err(|claim| (claim, index))?;
    }
    Ok(())
}

fn stars(nets: u64, seed: u64) -> bool {
    let mut counts = Counts::default();
    let outcome = stars_of(Kind::Star, nets, seed, &mut counts);
    println!(
        "{} stars, {} steps; {} followers of an owner, {} of them behind; {} whole exchanges",
        counts.nets, counts.steps, counts.pairs, counts.behind, counts.exchanges
    );
    if let Err((claim, at)) = &outcome {
        println!("FAILS: {claim} (net {at})");
    }
    match stars_of(Kind::Mingled, nets, seed, &mut Counts::default()) {
        Err((claim, at)) => println!("nobody excludes anything: fails, as it must, in net {at}: {claim}"),
        Ok(()) => {
            println!("nobody excludes anything: NOT FOUND");
            return false;
        }
    }
    outcome.is_ok()
}

fn main() {
    let mut words = std::env::args().skip(1).peekable();
    for (name, play) in [("handed", handed as fn(u64, u64) -> bool), ("stars", stars)] {
        if words.peek().map(String::as_str) == Some(name) {
            words.next();
            std::process::exit(i32::from(!play(number(words.next()), number(words.next()))));
        }
    }
    if words.peek().map(String::as_str) == Some("locks") {
        words.next();
        std::process::exit(i32::from(!locks(number(words.next()), number(words.next()))));
    }
    let look = match words.peek().map(String::as_str) {
        Some("rule") => Some(Look { rule: true, claims: false }),
        Some("claims") => Some(Look { rule: false, claims: true }),
        _ => None,
    };
    if look.is_some() {
        words.next();
    }
    let (steps, seed) = (number(words.next()), number(words.next()));
    match look {
        None => std::process::exit(i32::from(!both(steps, seed))),
        Some(look) => println!("{}", found(look, steps, seed).unwrap_or_else(|| "not found".into())),
    }
}
