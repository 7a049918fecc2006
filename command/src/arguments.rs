//! The command line: a command of the table, its files and its options.

use crate::call::{Call, Failure};
use crate::output::Target;
use crate::Command;
use std::ffi::{OsStr, OsString};
use std::path::PathBuf;

/// What the command line asks for.
pub enum Asked<'c> {
    Help,
    Version,
    Run(&'c Command, Call),
}

fn wrong<T>(why: String) -> Result<T, Failure> {
    Err(Failure::WrongUse(why))
}

/// Standard input where the name is `-`.
fn input(name: OsString) -> Option<PathBuf> {
    if name == "-" {
        None
    } else {
        Some(PathBuf::from(name))
    }
}

/// Standard output where the name is `-`.
fn output(name: OsString) -> Target {
    match input(name) {
        None => Target::StandardOutput,
        Some(path) => Target::File(path),
    }
}

/// Reads the words behind the program's name. `--` ends the options.
pub fn parse(commands: &[Command], words: impl Iterator<Item = OsString>) -> Result<Asked<'_>, Failure> {
    let mut words = words;
    let Some(name) = words.next() else {
        return wrong("no command is given".into());
    };
    match name.to_str() {
        Some("--help" | "-h") => return Ok(Asked::Help),
        Some("--version" | "-V") => return Ok(Asked::Version),
        _ => {}
    }
    let Some(command) = commands.iter().find(|command| name == OsStr::new(command.name)) else {
        return wrong(format!("{} is no command", name.display()));
    };
    let mut files = Vec::new();
    let mut target = None;
    let mut options = true;
    while let Some(word) = words.next() {
        if !options || word == "-" || !word.as_encoded_bytes().starts_with(b"-") {
            files.push(input(word));
        } else if word == "--" {
            options = false;
        } else if word == "--help" || word == "-h" {
            return Ok(Asked::Help);
        } else if word == "-o" && command.has_output {
            let Some(file) = words.next().filter(|file| !file.is_empty()) else {
                return wrong("-o is to be followed by a file".into());
            };
            if target.replace(output(file)).is_some() {
                return wrong("-o is given twice".into());
            }
        } else {
            return wrong(format!("{} has no option {}", command.name, word.display()));
        }
    }
    if files.len() < command.least_files || files.len() > command.most_files {
        return wrong(format!("polvihe {} {}", command.name, command.usage));
    }
    if files.is_empty() {
        files.push(None);
    }
    Ok(Asked::Run(command, Call { files, target: target.unwrap_or(Target::StandardOutput) }))
}
