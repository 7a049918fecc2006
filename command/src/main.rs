//! `polvihe`: stored logs and captures of any length. It opens files, lends buffers to the proved functions and prints.
//!
//! A further command is a row of `COMMANDS` and a function.

mod arguments;
mod call;
mod captures;
mod logs;
mod output;
mod progress;

use arguments::Asked;
use call::{Call, Failure};
use std::process::ExitCode;

/// A command: its name, what may follow it, and the function that does it.
struct Command {
    name: &'static str,
    usage: &'static str,
    does: &'static str,
    /// Whether it takes `-o FILE`.
    has_output: bool,
    /// Files that must be named, and files that may be. Where none must be, standard input stands in for a file.
    least_files: usize,
    most_files: usize,
    run: fn(&Call) -> Result<(), Failure>,
}

const COMMANDS: &[Command] = &[
    Command {
        name: "compact",
        usage: "[-o FILE] [FILE]",
        does: "keeps of a log what matters: drops writes of 0 bytes, joins writes that go on from each other",
        has_output: true,
        least_files: 0,
        most_files: 1,
        run: logs::compact,
    },
    Command {
        name: "print",
        usage: "[FILE]",
        does: "prints a log, a line to a record",
        has_output: false,
        least_files: 0,
        most_files: 1,
        run: logs::print,
    },
    Command {
        name: "read",
        usage: "[FILE]",
        does: "prints a capture that the product wrote, a line to a record",
        has_output: false,
        least_files: 0,
        most_files: 1,
        run: captures::read,
    },
    Command {
        name: "convert",
        usage: "[-o FILE] [FILE]",
        does: "converts a capture from link type 189 to 220, or from 220 to 189",
        has_output: true,
        least_files: 0,
        most_files: 1,
        run: captures::convert,
    },
    Command {
        name: "merge",
        usage: "[-o FILE] FILE FILE",
        does: "makes two captures one, ordered by time; at equal times the first one's records come first",
        has_output: true,
        least_files: 2,
        most_files: 2,
        run: captures::merge,
    },
];

/// What was asked for was refused by its questions.
const REFUSED: u8 = 1;

/// It could not be asked, or its answer not be written.
const FAILED: u8 = 2;

fn help() -> String {
    let mut text = String::from("polvihe: stored logs and captures of any length\n\n");
    for command in COMMANDS {
        text += &format!("  polvihe {} {}\n      {}\n", command.name, command.usage, command.does);
    }
    text + "
Without FILE standard input is read, and without -o the result goes to standard output; - names either.
A file behind -o is written whole or not at all, and may be the one that was read.

  polvihe --help      this text
  polvihe --version

Exit status: 0; 1 where the input is refused, with `refused N: WHY` on standard error and nothing
written; 2 for a wrong use, or a file that cannot be read or written.
"
}

fn run() -> Result<(), Failure> {
    match arguments::parse(COMMANDS, std::env::args_os().skip(1))? {
        Asked::Help => output::print(&help()),
        Asked::Version => output::print(concat!("polvihe ", env!("CARGO_PKG_VERSION"), "\n")),
        Asked::Run(command, call) => (command.run)(&call),
    }
}

fn main() -> ExitCode {
    let Err(failure) = run() else {
        return ExitCode::SUCCESS;
    };
    match failure {
        Failure::Refused(refusal) => {
            eprintln!("{refusal}");
            ExitCode::from(REFUSED)
        }
        Failure::WrongUse(why) => {
            eprintln!("polvihe: {why}; polvihe --help says more");
            ExitCode::from(FAILED)
        }
        Failure::NotRead(name, error) => {
            eprintln!("polvihe: {name} cannot be read: {error}");
            ExitCode::from(FAILED)
        }
        Failure::NotWritten(name, error) => {
            eprintln!("polvihe: {name} cannot be written: {error}");
            ExitCode::from(FAILED)
        }
    }
}
