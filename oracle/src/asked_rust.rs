//! The Rust, asked what documents 01 and 02 accept of the endpoint as it was ported.

use std::sync::Arc;

use crate::{
    call::{Captured, Trb},
    device::xhci::{endpoint_handle::TrbProcessingResult, trb::RawTrb},
    driver::Stop,
    effects::Effect,
    endpoint::Endpoint,
    engine::{Connections, Engine, No},
    guest_memory::GuestMemory,
    questions::{self, Buffers, MAX_TRB_LENGTH},
    raw_trb::{has_reserved_bit, parsed},
    record::{records, Record, Surroundings},
    scripted_device::{DeviceResult, ScriptedDevice},
};

pub struct AskedRust {
    endpoint: Endpoint,
    device: ScriptedDevice,
    memory: Arc<GuestMemory>,
}

/// A call that is refused is none that the Rust can be asked.
pub(crate) fn asked(question: Option<u8>) -> Result<(), Stop> {
    question.map_or(Ok(()), |number| Err(Stop::Unasked(format!("question {number}"))))
}

impl AskedRust {
    fn created(endpoint: Endpoint, to: Connections) -> (Self, Option<u8>) {
        (Self { endpoint, device: to.device, memory: to.memory }, None)
    }
}

impl Engine for AskedRust {
    fn new_in(
        endpoint: u8,
        slot: u8,
        mode: u8,
        captured: Captured,
        to: Connections,
    ) -> Result<(Self, Option<u8>), Stop> {
        if mode != 0 {
            return Err(Stop::Unasked("the Rust has no strict mode".to_string()));
        }
        asked(questions::of_creation(endpoint, slot))?;
        Ok(Self::created(Endpoint::new_in(endpoint, slot, captured, to.clone()), to))
    }

    fn new_control(
        endpoint: u8,
        slot: u8,
        release: u8,
        captured: Captured,
        to: Connections,
    ) -> Result<(Self, Option<u8>), Stop> {
        if release != 4 {
            return Err(Stop::Unasked("the Rust has the rule of release 4 alone".to_string()));
        }
        asked(questions::of_creation(endpoint, slot))?;
        Ok(Self::created(Endpoint::new_control(endpoint, slot, captured, to.clone()), to))
    }

    fn is_control(&self) -> bool {
        matches!(self.endpoint, Endpoint::Control(_))
    }

    fn submit(&mut self, trb: &Trb, lent: Buffers) -> Result<(), No> {
        asked(questions::of_submission(&mut self.endpoint, trb, lent, &self.memory))?;
        self.endpoint.submit(trb);
        Ok(())
    }

    /// The Rust's own parser decodes the TRB.
    fn submit_raw(&mut self, raw: RawTrb, lent: Buffers) -> Result<(), No> {
        if has_reserved_bit(&raw.buffer) {
            return Err(Stop::Unasked("the Rust asks no reserved bit".to_string()).into());
        }
        asked(questions::of_submission(&mut self.endpoint, &parsed(&raw), lent, &self.memory))?;
        self.endpoint.submit_raw(raw);
        Ok(())
    }

    fn complete(
        &mut self,
        result: Option<DeviceResult>,
        _data: &[u8],
        lent: Buffers,
    ) -> Result<TrbProcessingResult, No> {
        asked(questions::of_completion(&mut self.endpoint, result.is_some(), lent))?;
        if let Some(result) = result {
            self.device.script(result);
        }
        Ok(self.endpoint.complete())
    }

    fn cancel(&mut self) {
        self.endpoint.cancel();
    }

    fn held(&mut self) -> usize {
        self.endpoint.held()
    }

    fn hold(&mut self, trb: &Trb) -> Result<(), Stop> {
        if trb.length > MAX_TRB_LENGTH {
            return Err(Stop::Unasked("the Rust decodes no such length".to_string()));
        }
        let no_place = |_| Stop::Unasked("the Rust cannot hold this TRB in this state".to_string());
        self.endpoint.hold(trb).map_err(no_place)
    }

    fn make_up_in(&mut self, state: u8) {
        if let Endpoint::In(endpoint) = &mut self.endpoint {
            endpoint.make_up(state);
        }
    }

    fn make_up_control(&mut self, phase: u8, state: u8, direction: bool, length: u32) {
        if let Endpoint::Control(endpoint) = &mut self.endpoint {
            endpoint.make_up(phase, state, direction, length);
        }
    }

    fn is_sound(&mut self) -> bool {
        questions::is_sound(&mut self.endpoint)
    }

    fn submission_is_due(&self) -> bool {
        questions::submission_is_due(&self.endpoint)
    }

    fn records(&mut self, effects: &[Effect], data: &[u8]) -> Vec<Record> {
        let (endpoint, slot) = self.endpoint.ids();
        records(effects, &Surroundings { endpoint, slot, first_address: self.endpoint.first_address(), data })
    }

    fn carry_out(&self, records: &[Record], data: &[u8]) -> u8 {
        self.memory.carry_out(records.iter().filter_map(|record| record.write(data)))
    }

    fn state_line(&mut self) -> String {
        self.endpoint.state_line()
    }

    fn capture_as(&mut self, captured: Captured) {
        self.endpoint.capture_as(captured);
    }
}
