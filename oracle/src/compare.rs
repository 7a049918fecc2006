//! Runs a script on the Rust and on the product, and cuts a script down to what makes them differ.

use std::{
    io::{self, Write},
    path::PathBuf,
    process::{Command, Output, Stdio},
    thread,
};

use crate::driver;

/// The first answer that differs.
#[derive(Debug, Clone, PartialEq, Eq)]
pub struct Difference {
    /// The script's line, counted from 1.
    pub line: usize,
    pub by_rust: String,
    pub by_product: String,
}

#[derive(Debug)]
pub enum Outcome {
    /// How many answers were equal.
    Equal(usize),
    Differ {
        equal: usize,
        difference: Difference,
    },
    /// The Rust cannot be asked this script: the run's last line says why.
    Unasked(String),
}

/// The program that is compared with the Rust.
pub struct Product {
    pub program: PathBuf,
}

impl Product {
    /// What the program makes of a script.
    pub fn output(&self, script: &str) -> io::Result<Output> {
        let mut child = Command::new(&self.program).stdin(Stdio::piped()).stdout(Stdio::piped()).spawn()?;
        let mut input = child.stdin.take().expect("standard input is piped");
        let script = script.as_bytes().to_vec();
        // A program that stops reading early has said why in its answers, so a broken pipe is no error.
        let writer = thread::spawn(move || input.write_all(&script));
        let output = child.wait_with_output()?;
        let _ = writer.join().expect("the writer does not panic");
        Ok(output)
    }

    fn answers(&self, script: &str) -> io::Result<String> {
        let output = self.output(script)?;
        let mut answers = String::from_utf8_lossy(&output.stdout).into_owned();
        if let (None, false) = (output.status.code(), output.status.success()) {
            answers.push_str(&format!("ended by {}\n", output.status));
        }
        Ok(answers)
    }

    pub fn compare(&self, script: &str) -> io::Result<Outcome> {
        let run = driver::run(script.as_bytes());
        if let Some(why) = run.last_line() {
            return Ok(Outcome::Unasked(why));
        }
        let answers = self.answers(script)?;
        let mut rest = &answers[..];
        for (equal, answer) in run.answers.iter().enumerate() {
            match rest.strip_prefix(&answer.text) {
                Some(next) => rest = next,
                None => {
                    let difference =
                        Difference { line: answer.line, by_rust: answer.text.clone(), by_product: first_answer(rest) };
                    return Ok(Outcome::Differ { equal, difference });
                }
            }
        }
        let equal = run.answers.len();
        if rest.is_empty() {
            return Ok(Outcome::Equal(equal));
        }
        let difference =
            Difference { line: script.lines().count(), by_rust: String::new(), by_product: first_answer(rest) };
        Ok(Outcome::Differ { equal, difference })
    }

    /// Where these lines differ, if they do; without the lines after it, if those do not matter.
    fn cut_of<'a>(&self, lines: Vec<&'a str>) -> io::Result<Option<Cut<'a>>> {
        let difference = match self.compare(&text_of(&lines))? {
            Outcome::Differ { difference, .. } => difference,
            Outcome::Equal(_) | Outcome::Unasked(_) => return Ok(None),
        };
        if difference.line < lines.len() {
            let through_it = lines[..difference.line].to_vec();
            if let Some(cut) = self.cut_of(through_it)? {
                return Ok(Some(cut));
            }
        }
        Ok(Some(Cut { lines, difference }))
    }

    /// Leaves out lines, first many at a time, as long as the rest still differs and can be asked of the Rust.
    /// A submission and its completion go together, so the last passes try a few lines from every place on.
    pub fn cut_down(&self, script: &str, difference: Difference) -> io::Result<(String, Difference)> {
        let lines: Vec<&str> = script.lines().collect();
        let mut cut = self.cut_of(lines.clone())?.unwrap_or(Cut { lines, difference });
        let mut piece = cut.lines.len();
        while piece > FEW {
            piece = piece.div_ceil(2);
            self.leave_out(&mut cut, piece, piece)?;
        }
        loop {
            let before = cut.lines.len();
            for piece in (1..=FEW).rev() {
                self.leave_out(&mut cut, piece, 1)?;
            }
            if cut.lines.len() == before {
                return Ok((text_of(&cut.lines), cut.difference));
            }
        }
    }

    /// Leaves out `piece` lines wherever that can be, going on by `step` where it cannot.
    fn leave_out(&self, cut: &mut Cut<'_>, piece: usize, step: usize) -> io::Result<()> {
        let mut from = 0;
        while from < cut.lines.len() {
            let to = cut.lines.len().min(from + piece);
            let shorter = [&cut.lines[..from], &cut.lines[to..]].concat();
            match self.cut_of(shorter)? {
                Some(shorter) => *cut = shorter,
                None => from += step,
            }
        }
        Ok(())
    }
}

const FEW: usize = 6;

/// A script as far as it is cut down, and what differs at its end.
struct Cut<'a> {
    lines: Vec<&'a str>,
    difference: Difference,
}

fn text_of(lines: &[&str]) -> String {
    lines.iter().map(|line| format!("{line}\n")).collect()
}

/// The lines through the state line that ends an answer.
pub(crate) fn first_answer(text: &str) -> String {
    let mut answer = String::new();
    for line in text.split_inclusive('\n') {
        answer.push_str(line);
        if line.starts_with("st ") {
            break;
        }
    }
    answer
}
