//! Reads a call script on standard input and prints the Rust's answers.

use std::io::{self, BufWriter, Read, Write};

fn main() -> io::Result<()> {
    let mut script = Vec::new();
    io::stdin().lock().read_to_end(&mut script)?;
    let run = oracle::driver::run(&script);
    let mut out = BufWriter::new(io::stdout().lock());
    for answer in &run.answers {
        out.write_all(answer.text.as_bytes())?;
    }
    out.write_all(run.last_line().unwrap_or_default().as_bytes())?;
    out.flush()
}
