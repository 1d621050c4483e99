//! Hubs and nets that are not what is claimed. The check must find each, and each claim must be broken by one of them.

use kevdarosh::Mode;

use crate::claims::{BACK, Breaches, CLAIMS, FALL, MAX, OWNER, SAME, WRITTEN};
use crate::plan::{Plan, Wrong};
use crate::port::Port;
use crate::report;
use crate::story;

/// What is wrong, and the claims that must be found broken.
const WRONGS: [(Wrong, &str, &[usize]); 7] = [
    (Wrong::AllPlain, "plain hubs where guarded ones are claimed", &[BACK, SAME]),
    (Wrong::SomePlain, "one hub in ten is plain", &[BACK]),
    (Wrong::OwnerLost, "an owner comes back without its last writes", &[MAX, OWNER]),
    (Wrong::Silent, "a follower is restored in silence", &[FALL]),
    (Wrong::Version, "a version of a follower's record is another", &[BACK, SAME, WRITTEN]),
    (Wrong::Value, "a value of a follower's record is another", &[SAME, WRITTEN]),
    (Wrong::Record, "a follower loses a record", &[SAME]),
];

/// How many are not found.
pub fn all(seed: u64) -> usize {
    let mut missed = 0;
    let mut found = Breaches::default();
    for (wrong, what, claims) in WRONGS {
        let mut plan = Plan::new(100, 32, 508, Mode::Guarded, seed);
        plan.wrong = Some(wrong);
        let report = story::whole::<Port>(plan);
        for (sum, times) in found.iter_mut().zip(report.breaches) {
            *sum += times;
        }
        let said = report::broken(&report);
        let unseen: Vec<&str> =
            claims.iter().filter(|&&claim| report.breaches[claim] == 0).map(|&claim| CLAIMS[claim]).collect();
        println!("{what}: {}", if said.is_empty() { "nothing is found".into() } else { said.join("; ") });
        for claim in unseen {
            println!("{what}: NOT FOUND: {claim}");
            missed += 1;
        }
    }
    for (claim, _) in CLAIMS.iter().zip(found).filter(|(_, times)| *times == 0) {
        println!("NO wrong hub breaks: {claim}");
        missed += 1;
    }
    println!("wrong hubs that were not found: {missed}");
    missed
}
