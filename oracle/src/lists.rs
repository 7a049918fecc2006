//! A list of calls with answers that are kept: an engine's answers beside these.

use std::fmt::{self, Display, Formatter};

use crate::{
    call::Call,
    compare::first_answer,
    driver::{call_of, Driver, Stop},
    engine::Engine,
    filling::Filling,
};

/// How an engine answered a list.
#[derive(Debug, Default, PartialEq, Eq)]
pub struct Answered {
    /// As it is kept.
    pub equal: usize,
    /// The engine cannot be asked these: the calls on a block that its layout cannot say.
    pub passed_over: usize,
}

impl Display for Answered {
    fn fmt(&self, f: &mut Formatter<'_>) -> fmt::Result {
        write!(f, "{} calls equal, {} passed over", self.equal, self.passed_over)
    }
}

/// What a line of a list came to, if it is one that is answered.
#[derive(Debug, PartialEq, Eq)]
pub(crate) enum Came {
    Answered(String),
    PassedOver,
    Bad,
}

/// An engine that answers a list, over a filling of guest memory and device data.
pub(crate) struct Answering<E> {
    driver: Driver<E>,
    /// The endpoint's block is not the script's, until the next is made.
    is_unlike: bool,
}

impl<E: Engine> Answering<E> {
    pub(crate) fn over(filling: Filling) -> Self {
        Self { driver: Driver::over(filling), is_unlike: false }
    }

    /// Takes a line, and goes on behind what the engine cannot be asked.
    pub(crate) fn take(&mut self, line: &[u8]) -> Option<Came> {
        let Some(call) = call_of(line) else { return Some(Came::Bad) };
        self.is_unlike &= !matches!(call, Call::CreateIn { .. } | Call::CreateControl { .. });
        let is_asked = !(self.is_unlike && call.is_on_endpoint());
        match if is_asked { self.driver.call(call) } else { Err(Stop::Unasked(String::new())) } {
            Ok(text) => text.map(Came::Answered),
            Err(Stop::Unasked(_)) => {
                self.is_unlike |= !call.is_on_endpoint() || !call.is_answered();
                call.is_answered().then_some(Came::PassedOver)
            }
            Err(Stop::BadLine) => Some(Came::Bad),
        }
    }
}

/// A script's lines, each with its line feed, counted from 1.
pub(crate) fn lines(script: &[u8]) -> impl Iterator<Item = (usize, &[u8])> {
    (1..).zip(script.split_inclusive(|byte| *byte == b'\n'))
}

/// The engine's answers to a list, or the first that is another than the one kept.
pub fn answered<E: Engine>(script: &[u8], kept: &str) -> Result<Answered, String> {
    let mut answering = Answering::<E>::over(Filling::OfScripts);
    let mut answered = Answered::default();
    let mut rest = kept;
    for (line, bytes) in lines(script) {
        let Some(came) = answering.take(bytes) else { continue };
        let expected = first_answer(rest);
        match came {
            Came::Answered(text) if text == expected => answered.equal += 1,
            Came::Answered(text) => {
                return Err(format!("line {line}\n--- is kept\n{expected}--- the engine answers\n{text}---"))
            }
            Came::PassedOver => answered.passed_over += 1,
            Came::Bad if rest == format!("bad line {line}\n") => return Ok(answered),
            Came::Bad => return Err(format!("line {line} is bad")),
        }
        rest = &rest[expected.len()..];
    }
    if rest.is_empty() {
        return Ok(answered);
    }
    Err(format!("the list ends, and answers are left:\n{}", first_answer(rest)))
}
