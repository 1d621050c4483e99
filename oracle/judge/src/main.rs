//! Answers a script by the original Rust: standard input to standard output.

use std::io::{BufWriter, Write, stdin, stdout};

fn main() -> std::io::Result<()> {
    // Number 6 is a panic of the original, which is no news.
    std::panic::set_hook(Box::new(|_| {}));
    let mut output = BufWriter::new(stdout().lock());
    let answered = script::answer_script::<judge::hub::Hub>(stdin().lock(), &mut output);
    output.flush()?;
    answered.inspect_err(|error| eprintln!("{error}"))
}
