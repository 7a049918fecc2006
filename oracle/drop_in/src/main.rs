//! Call scripts (docs/CALLS.md) on hal: the product's block in place, behind the interface of the Rust's endpoints.
//!
//!     drop_in                             a script on standard input, answered as `replay` answers it
//!     drop_in SCRIPT ANSWERS ..           lists with the answers that are kept
//!     drop_in --two-fillings SCRIPT ..    scripts over two fillings of guest memory and device data: alike but for SUM

mod handles;
mod in_place;

use std::{
    env,
    fmt::Display,
    fs,
    io::{self, BufWriter, Read, Write},
    process::exit,
};

use in_place::InPlace;
use oracle::{driver, lists, two_fillings};

fn main() -> io::Result<()> {
    let files: Vec<String> = env::args().skip(1).collect();
    if files.is_empty() {
        let mut script = Vec::new();
        io::stdin().lock().read_to_end(&mut script)?;
        let run = driver::run_on::<InPlace>(&script);
        let mut out = BufWriter::new(io::stdout().lock());
        run.answers.iter().try_for_each(|answer| out.write_all(answer.text.as_bytes()))?;
        out.write_all(run.last_line().unwrap_or_default().as_bytes())?;
        return out.flush();
    }
    if files[0] == "--two-fillings" {
        for script in &files[1..] {
            told(script, two_fillings::alike::<InPlace>(&fs::read(script)?));
        }
        return Ok(());
    }
    for list in files.chunks(2) {
        let [script, answers] = list else {
            eprintln!("usage: drop_in [SCRIPT ANSWERS ..] | drop_in --two-fillings SCRIPT ..");
            exit(2);
        };
        told(script, lists::answered::<InPlace>(&fs::read(script)?, &fs::read_to_string(answers)?));
    }
    Ok(())
}

/// Prints how a list compares; a difference ends the program.
fn told(script: &str, compared: Result<impl Display, String>) {
    match compared {
        Ok(alike) => println!("{script}: {alike}"),
        Err(difference) => {
            println!("{script}: {difference}");
            exit(1);
        }
    }
}
