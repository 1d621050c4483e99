//! Answers a script by document 01: standard input to standard output.

use std::io::{BufWriter, Write, stdin, stdout};

fn main() -> std::io::Result<()> {
    let mut output = BufWriter::new(stdout().lock());
    let answered = script::answer_script::<plain::side::Lent>(stdin().lock(), &mut output);
    output.flush()?;
    answered.inspect_err(|error| eprintln!("{error}"))
}
