//! Stands in for the Rust's `Interval`, which `bus.rs` asks of address ranges.

use std::ops::Range;

pub trait Interval {
    fn overlaps(&self, other: &Self) -> bool;
    fn contains_interval(&self, other: &Self) -> bool;
}

impl Interval for Range<u64> {
    fn overlaps(&self, other: &Self) -> bool {
        self.start < other.end && other.start < self.end
    }

    fn contains_interval(&self, other: &Self) -> bool {
        self.start <= other.start && other.end <= self.end
    }
}
