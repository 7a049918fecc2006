//! A list of calls over two fillings of guest memory and device data: document 02, R-8, lets SUM alone differ.

use std::fmt::{self, Display, Formatter};

use crate::{
    engine::Engine,
    filling::Filling,
    lists::{lines, Answering, Came},
};

/// How the answers of both runs compare, where nothing but SUM differs.
#[derive(Debug, Default, PartialEq, Eq)]
pub struct Alike {
    pub answers: usize,
    /// Answers in which SUM differs.
    pub sums: usize,
    /// The engine cannot be asked these: the calls on a block that its layout cannot say.
    pub passed_over: usize,
}

impl Display for Alike {
    fn fmt(&self, f: &mut Formatter<'_>) -> fmt::Result {
        let Self { answers, sums, passed_over } = self;
        write!(f, "{answers} answers alike, {sums} sums differ, nothing else; {passed_over} passed over")
    }
}

/// Words of a control endpoint's state line before SUM: `st control PHASE STATE HELD DIRECTION LENGTH COLLECTED`.
const WORDS_BEFORE_SUM: usize = 8;

/// An answer without SUM, and SUM, where its state line has one.
fn but_for_sum(answer: &str) -> (String, Option<&str>) {
    let mut words: Vec<&str> = answer.split_inclusive([' ', '\n']).collect();
    let state_line = words.windows(2).position(|two| two == ["st ", "control "]);
    let sum = state_line.map(|at| words.remove(at + WORDS_BEFORE_SUM));
    (words.concat(), sum)
}

/// Whether SUM differs, if nothing else does.
pub fn sum_differs(first: &str, second: &str) -> Option<bool> {
    let (first, first_sum) = but_for_sum(first);
    let (second, second_sum) = but_for_sum(second);
    (first == second).then_some(first_sum != second_sum)
}

/// The engine's answers to a list over both fillings, or the first in which more than SUM differs. A bad line ends the list.
pub fn alike<E: Engine>(script: &[u8]) -> Result<Alike, String> {
    let [mut first, mut second] = [Filling::OfScripts, Filling::Complement].map(Answering::<E>::over);
    let mut alike = Alike::default();
    for (line, bytes) in lines(script) {
        match (first.take(bytes), second.take(bytes)) {
            (Some(Came::Answered(first)), Some(Came::Answered(second))) => {
                let sum_differs = sum_differs(&first, &second).ok_or_else(|| {
                    format!("line {line}\n--- over the first filling\n{first}--- over the second\n{second}---")
                })?;
                alike.answers += 1;
                alike.sums += usize::from(sum_differs);
            }
            (first, second) if first != second => return Err(format!("line {line}: {first:?}, {second:?}")),
            (Some(Came::PassedOver), _) => alike.passed_over += 1,
            (Some(Came::Bad), _) => break,
            _ => {}
        }
    }
    Ok(alike)
}
