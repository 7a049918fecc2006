//! The row that is being written down.

use crate::call::{Status, Trb, CHAIN};

#[derive(Debug, Default, Clone)]
pub struct Row {
    pub trbs: Vec<Trb>,
    /// What each TD is given.
    pub results: Vec<(Status, u32)>,
}

impl Row {
    /// Its TDs: a TRB with its chain bit off ends one.
    pub fn tds(&self) -> Vec<&[Trb]> {
        self.trbs.split_inclusive(|trb| !trb.has(CHAIN)).collect()
    }
}
