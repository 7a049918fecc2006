//! Compares the captures of the product with the Rust's, on scripts.

use std::{env, fs, io, path::PathBuf, process::exit};

use oracle::{captured::CaptureFile, compare::Product, exhaustive, generate};

const USAGE: &str = "\
compare_captures FIRST LAST COUNT    for each seed from FIRST to LAST, COUNT calls, or rows, with times
compare_captures NAME FIRST LAST     exhaustive-control or exhaustive-in, the parts from FIRST to LAST
compare_captures FILE ..             call scripts
The product's program is named by REPLAY_CAPTURE.
";

struct Comparison {
    product: Product,
    capture: CaptureFile,
    scripts: usize,
    records: usize,
}

impl Comparison {
    /// Says nothing when the two agree; otherwise shows what differs, and ends the program.
    fn take(&mut self, name: &str, script: &str) -> io::Result<()> {
        let expected = self.capture.of_script(script)?;
        let made = self.product.output(script)?;
        if !made.status.success() && made.status.code().is_none() {
            println!("{name}: the product ended by {}", made.status);
            exit(1);
        }
        if let Some(difference) = self.capture.difference(&made.stdout, &expected) {
            println!("{name}: {difference}; {} records of the scripts before it were equal", self.records);
            exit(1);
        }
        self.scripts += 1;
        self.records += expected.len();
        Ok(())
    }
}

fn wrong() -> ! {
    eprint!("{USAGE}");
    exit(2)
}

fn number(text: &str) -> u64 {
    text.parse().unwrap_or_else(|_| wrong())
}

fn main() -> io::Result<()> {
    let arguments: Vec<String> = env::args().skip(1).collect();
    let fields: Vec<&str> = arguments.iter().map(String::as_str).collect();
    let program = PathBuf::from(env::var_os("REPLAY_CAPTURE").unwrap_or_else(|| wrong()));
    let mut comparison =
        Comparison { product: Product { program }, capture: CaptureFile::new()?, scripts: 0, records: 0 };
    match fields[..] {
        [] => wrong(),
        [first, last, count] if first.parse::<u64>().is_ok() => {
            for seed in number(first)..=number(last) {
                let script = generate::captured_script(seed, number(count) as usize);
                comparison.take(&format!("seed {seed}"), &script)?;
            }
        }
        [name, first, last] if exhaustive::family(name).is_some() => {
            let family = exhaustive::family(name).unwrap_or_else(|| wrong());
            for part in number(first) as usize..=number(last) as usize {
                if part >= family.parts {
                    wrong();
                }
                comparison.take(&format!("{name} {part}"), &(family.script)(part))?;
            }
        }
        ref files => {
            for file in files {
                comparison.take(file, &fs::read_to_string(file)?)?;
            }
        }
    }
    println!("{} records equal in {} scripts, none differs", comparison.records, comparison.scripts);
    Ok(())
}
