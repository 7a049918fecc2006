//! Stands in for the Rust's `interrupter`: an event that is sent becomes a record.

use crate::{device::xhci::trb::EventTrb, surroundings::Records};

#[derive(Debug, Clone)]
pub struct EventSender {
    records: Records,
}

impl EventSender {
    pub fn new(records: Records) -> Self {
        Self { records }
    }

    pub fn send(&self, event: EventTrb) -> anyhow::Result<()> {
        let bytes = event.to_bytes(false);
        let word = |at: usize| u64::from_le_bytes(bytes[at..at + 8].try_into().unwrap());
        self.records.push([2, word(0), word(8), 0]);
        Ok(())
    }
}
