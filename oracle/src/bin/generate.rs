//! Prints call scripts of accepted calls.

use std::{env, io, io::Write, process::exit};

use oracle::{exhaustive, generate};

const USAGE: &str = "\
generate SEED COUNT                 a random script of COUNT calls
generate raw SEED COUNT             the same with each TRB raw
generate rows SEED COUNT            rows of TDs, COUNT calls
generate captured SEED COUNT        COUNT calls, or rows, with times and what captures say of the endpoint
generate exhaustive-control [PART]  all control chains of up to five TRBs
generate exhaustive-in [PART]       all IN TDs of up to three TRBs
generate wrap                       the request length past 2^32 by Unrecognized TRBs
generate parts NAME                 how many parts an exhaustive script has
";

fn main() -> io::Result<()> {
    let arguments: Vec<String> = env::args().skip(1).collect();
    let fields: Vec<&str> = arguments.iter().map(String::as_str).collect();
    let mut out = io::stdout().lock();
    let wrong = || -> ! {
        eprint!("{USAGE}");
        exit(2)
    };
    let number = |text: &str| text.parse::<u64>().unwrap_or_else(|_| wrong());
    let family_named = |name: &str| exhaustive::family(name).unwrap_or_else(|| wrong());
    match fields[..] {
        ["parts", name] => writeln!(out, "{}", family_named(name).parts),
        [seed, count] if seed.bytes().all(|digit| digit.is_ascii_digit()) => {
            out.write_all(generate::script(number(seed), number(count) as usize).as_bytes())
        }
        ["raw", seed, count] => out.write_all(generate::raw_script(number(seed), number(count) as usize).as_bytes()),
        ["rows", seed, count] => out.write_all(generate::row_script(number(seed), number(count) as usize).as_bytes()),
        ["captured", seed, count] => {
            out.write_all(generate::captured_script(number(seed), number(count) as usize).as_bytes())
        }
        [name] => {
            let family = family_named(name);
            (0..family.parts).try_for_each(|part| out.write_all((family.script)(part).as_bytes()))
        }
        [name, part] => {
            let family = family_named(name);
            let part = number(part) as usize;
            if part >= family.parts {
                wrong();
            }
            out.write_all((family.script)(part).as_bytes())
        }
        _ => wrong(),
    }
}
