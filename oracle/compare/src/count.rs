//! What was asked and answered, by kind.

use std::collections::BTreeMap;
use std::fmt::{Display, Formatter, Result};

#[derive(Default)]
pub struct Counts {
    pub scripts: usize,
    calls: BTreeMap<String, usize>,
    answers: BTreeMap<String, usize>,
}

impl Counts {
    pub fn add(&mut self, calls: &[String], answers: &[String]) {
        for (call, answer) in calls.iter().zip(answers) {
            *self.calls.entry(asked(call)).or_default() += 1;
            for kind in kinds(answer) {
                *self.answers.entry(kind).or_default() += 1;
            }
        }
    }
}

/// A write counts by its wanted status, another call by its name.
fn asked(call: &str) -> String {
    let words: Vec<&str> = call.split(' ').collect();
    match words[..] {
        ["write", _, _, _, "0", _] => "write-set".into(),
        ["write", _, _, _, "2", _] => "write-ttl".into(),
        ["write", ..] => "write-other".into(),
        [verb, ..] => verb.into(),
        [] => String::new(),
    }
}

/// `refused N` counts by number, an applied delta by each of its verdicts, other answers by their first word.
fn kinds(answer: &str) -> Vec<String> {
    let words: Vec<&str> = answer.split(' ').collect();
    match words[..] {
        ["refused", number, ..] => vec![format!("refused{number:0>2}")],
        ["answers", verdicts, ..] => verdicts.split(',').map(|verdict| verdict.replace('-', "nothing")).collect(),
        [word, ..] if word.starts_with("ops=") => {
            vec![if words[1].starts_with("nodes") { "delta-read" } else { "delta-written" }.to_string()]
        }
        [word, ..] => vec![word.to_string()],
        [] => vec![],
    }
}

impl Display for Counts {
    fn fmt(&self, f: &mut Formatter) -> Result {
        let list = |counts: &BTreeMap<String, usize>| {
            counts.iter().map(|(kind, count)| format!("{kind}={count}")).collect::<Vec<_>>().join(" ")
        };
        let calls: usize = self.calls.values().sum();
        write!(f, "scripts={} calls={calls} [{}] answers [{}]", self.scripts, list(&self.calls), list(&self.answers))
    }
}
