//! Compares the product with the Rust on scripts, and shows the first call that differs.

use std::{
    env, fs, io,
    panic::{catch_unwind, AssertUnwindSafe},
    path::PathBuf,
    process::exit,
};

use oracle::{
    compare::{Outcome, Product},
    exhaustive, generate,
};

const USAGE: &str = "\
compare FIRST LAST COUNT       for each seed from FIRST to LAST, COUNT calls
compare raw FIRST LAST COUNT   the same with each TRB raw
compare rows FIRST LAST COUNT  the same, of rows of TDs
compare captured FIRST LAST COUNT  calls or rows, with times and what captures say of the endpoint
compare NAME [FIRST LAST]      exhaustive-control, exhaustive-in or wrap, all parts or those from FIRST to LAST
compare FILE.calls ..          call scripts
The product's program is named by REPLAY.
";

struct Comparison {
    product: Product,
    scripts: usize,
    equal: usize,
}

impl Comparison {
    /// Says no more than that when the two agree; otherwise shows why not, and ends the program.
    fn take(&mut self, name: &str, script: &str) -> io::Result<()> {
        self.scripts += 1;
        let compared = catch_unwind(AssertUnwindSafe(|| self.product.compare(script)));
        let Ok(outcome) = compared else {
            println!("{name}: the Rust panicked on this script");
            exit(2);
        };
        match outcome? {
            Outcome::Equal(calls) => self.equal += calls,
            Outcome::Unasked(why) => {
                println!("{name}: the Rust cannot be asked this script: {why}");
                exit(2);
            }
            Outcome::Differ { equal, difference } => {
                self.equal += equal;
                println!("{name}: line {} differs; {} calls before it were equal", difference.line, self.equal);
                let (shortest, difference) = self.product.cut_down(script, difference)?;
                println!("--- a script that shows it\n{shortest}--- the Rust answers its last line");
                println!("{}--- the product answers\n{}---", difference.by_rust, difference.by_product);
                exit(1);
            }
        }
        Ok(())
    }
}

fn wrong() -> ! {
    eprint!("{USAGE}");
    exit(2)
}

fn number(text: &str) -> u64 {
    text.parse().unwrap_or_else(|_| wrong())
}

fn main() -> io::Result<()> {
    let arguments: Vec<String> = env::args().skip(1).collect();
    let fields: Vec<&str> = arguments.iter().map(String::as_str).collect();
    let program = PathBuf::from(env::var_os("REPLAY").unwrap_or_else(|| wrong()));
    let mut comparison = Comparison { product: Product { program }, scripts: 0, equal: 0 };
    let mut parts_of = |family: &exhaustive::Family, first: usize, last: usize| {
        (first..=last).try_for_each(|part| comparison.take(&format!("{} {part}", family.name), &(family.script)(part)))
    };
    match fields[..] {
        [] => wrong(),
        [name] if exhaustive::family(name).is_some() => {
            let family = exhaustive::family(name).unwrap_or_else(|| wrong());
            parts_of(family, 0, family.parts - 1)?;
        }
        [name, first, last] if exhaustive::family(name).is_some() => {
            let family = exhaustive::family(name).unwrap_or_else(|| wrong());
            let last = number(last) as usize;
            if last >= family.parts {
                wrong();
            }
            parts_of(family, number(first) as usize, last)?;
        }
        [first, last, count] if first.parse::<u64>().is_ok() => {
            for seed in number(first)..=number(last) {
                comparison.take(&format!("seed {seed}"), &generate::script(seed, number(count) as usize))?;
            }
        }
        ["raw", first, last, count] => {
            for seed in number(first)..=number(last) {
                let script = generate::raw_script(seed, number(count) as usize);
                comparison.take(&format!("raw seed {seed}"), &script)?;
            }
        }
        ["rows", first, last, count] => {
            for seed in number(first)..=number(last) {
                let script = generate::row_script(seed, number(count) as usize);
                comparison.take(&format!("rows seed {seed}"), &script)?;
            }
        }
        ["captured", first, last, count] => {
            for seed in number(first)..=number(last) {
                let script = generate::captured_script(seed, number(count) as usize);
                comparison.take(&format!("captured seed {seed}"), &script)?;
            }
        }
        ref files => {
            for file in files {
                comparison.take(file, &fs::read_to_string(file)?)?;
            }
        }
    }
    println!("{} calls equal in {} scripts, none differs", comparison.equal, comparison.scripts);
    Ok(())
}
