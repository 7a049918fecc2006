//! One log of all that the endpoints do, in the order in which they do it.

use std::sync::{Arc, Mutex};

use crate::device::xhci::{trb::RawTrbBuffer, usbrequest::UsbRequest};

#[derive(Debug)]
pub enum Effect {
    /// A write to guest memory, of 0 bytes too.
    Write { address: u64, bytes: Vec<u8> },
    /// A transfer event, as its TRB.
    Event(RawTrbBuffer),
    /// A request to the device of an IN endpoint.
    InRequest { length: usize },
    /// A request to the device of a control endpoint.
    ControlRequest(UsbRequest),
}

#[derive(Debug, Clone, Default)]
pub struct EffectLog(Arc<Mutex<Vec<Effect>>>);

impl EffectLog {
    pub fn push(&self, effect: Effect) {
        self.0.lock().unwrap().push(effect);
    }

    /// Empties the log.
    pub fn take(&self) -> Vec<Effect> {
        std::mem::take(&mut self.0.lock().unwrap())
    }
}
