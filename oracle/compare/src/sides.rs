//! The two programs that answer.

use std::io::Write;
use std::process::{Command, Stdio};

pub struct Sides {
    judge: Vec<String>,
    other: Vec<String>,
}

impl Sides {
    pub fn new(judge: &str, other: &[&str]) -> Sides {
        Sides { judge: vec![judge.into()], other: other.iter().map(|word| word.to_string()).collect() }
    }

    /// What the judge and the other side answer to the script.
    pub fn answers(&self, script: &[String]) -> (Vec<String>, Vec<String>) {
        (answers_of(&self.judge, script), answers_of(&self.other, script))
    }

    pub fn differ(&self, script: &[String]) -> bool {
        let (judge, other) = self.answers(script);
        judge != other || judge.len() != script.len()
    }
}

/// A program that fails ends its answers with a line that says so.
fn answers_of(program: &[String], script: &[String]) -> Vec<String> {
    let mut child = Command::new(&program[0])
        .args(&program[1..])
        .stdin(Stdio::piped())
        .stdout(Stdio::piped())
        .spawn()
        .unwrap_or_else(|error| panic!("{} does not start: {error}", program[0]));
    let mut input = child.stdin.take().expect("a pipe to the program");
    let text: String = script.iter().flat_map(|line| [line.as_str(), "\n"]).collect();
    // A program that ends early reads no further; its missing answers tell.
    let writer = std::thread::spawn(move || input.write_all(text.as_bytes()));
    let output = child.wait_with_output().expect("the program's answers");
    let _ = writer.join().expect("the writing thread");
    let mut lines: Vec<String> = String::from_utf8_lossy(&output.stdout).lines().map(String::from).collect();
    if !output.status.success() {
        lines.push(format!("{} ended with {}", program[0], output.status));
    }
    lines
}
