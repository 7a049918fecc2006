//! What guest memory and the device's data are filled with.

use crate::call::Region;

#[derive(Debug, Clone, Copy, PartialEq, Eq)]
pub enum Filling {
    /// By the rule of docs/CALLS.md.
    OfScripts,
    /// Every bit of every byte is another.
    Complement,
}

impl Filling {
    fn byte(self, number: u64) -> u8 {
        match self {
            Self::OfScripts => number as u8,
            Self::Complement => !number as u8,
        }
    }

    pub fn of_region(self, region: Region) -> Vec<u8> {
        let number_at = |offset: u64| region.base.wrapping_add(offset).wrapping_mul(7).wrapping_add(13);
        (0..region.length).map(|offset| self.byte(number_at(offset))).collect()
    }

    pub fn of_device(self, length: u64) -> Vec<u8> {
        (0..length).map(|k| self.byte(k.wrapping_mul(11).wrapping_add(5))).collect()
    }
}
