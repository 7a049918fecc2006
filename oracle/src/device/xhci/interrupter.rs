//! Stands in for the Rust's `interrupter`: an event that is sent goes into the log of effects.

use crate::{
    device::xhci::trb::EventTrb,
    effects::{Effect, EffectLog},
};

#[derive(Debug, Clone)]
pub struct EventSender {
    effects: EffectLog,
}

impl EventSender {
    pub fn new(effects: EffectLog) -> Self {
        Self { effects }
    }

    pub fn send(&self, event: EventTrb) -> anyhow::Result<()> {
        self.effects.push(Effect::Event(event.to_bytes(false)));
        Ok(())
    }
}
