//! What stands behind the driver: the Rust, or an engine in its place.

use std::sync::Arc;

use crate::{
    call::{Captured, Trb},
    device::xhci::{endpoint_handle::TrbProcessingResult, interrupter::EventSender, trb::RawTrb},
    driver::Stop,
    effects::Effect,
    guest_memory::GuestMemory,
    questions::Buffers,
    record::Record,
    row::Row,
    scripted_device::{DeviceResult, ScriptedDevice},
};

/// What every endpoint is connected to.
#[derive(Clone)]
pub struct Connections {
    pub device: ScriptedDevice,
    pub memory: Arc<GuestMemory>,
    pub events: EventSender,
}

/// Why a call was not accepted.
#[derive(Debug)]
pub enum No {
    /// By the number of the question.
    Refused(u8),
    Stopped(Stop),
}

impl From<Stop> for No {
    fn from(stop: Stop) -> Self {
        Self::Stopped(stop)
    }
}

/// What an accepted row of TDs came to.
#[derive(Debug, PartialEq, Eq)]
pub struct RowCompleted {
    pub records: Vec<Record>,
    pub result: TrbProcessingResult,
    /// TDs that were finished well.
    pub finished: usize,
}

/// An endpoint of the engine. What its calls do goes to the connections that it was made with.
pub trait Engine: Sized {
    /// A fresh endpoint; where its creation is refused, the number of the question stands beside it.
    fn new_in(
        endpoint: u8,
        slot: u8,
        mode: u8,
        captured: Captured,
        to: Connections,
    ) -> Result<(Self, Option<u8>), Stop>;
    fn new_control(
        endpoint: u8,
        slot: u8,
        release: u8,
        captured: Captured,
        to: Connections,
    ) -> Result<(Self, Option<u8>), Stop>;
    fn is_control(&self) -> bool;

    fn submit(&mut self, trb: &Trb, lent: Buffers) -> Result<(), No>;
    fn submit_raw(&mut self, raw: RawTrb, lent: Buffers) -> Result<(), No>;
    /// `data` is the device's, whether a result is given or not.
    fn complete(&mut self, result: Option<DeviceResult>, data: &[u8], lent: Buffers)
        -> Result<TrbProcessingResult, No>;
    fn cancel(&mut self);
    /// A row of TDs in one call, if the engine has such a call. It leaves the endpoint as it was, and nothing goes to the connections.
    fn complete_row(&mut self, _row: &Row, _data: &[u8], _lent: Buffers) -> Option<Result<RowCompleted, No>> {
        None
    }

    fn held(&mut self) -> usize;
    fn hold(&mut self, trb: &Trb) -> Result<(), Stop>;
    /// `state` as in a script's `p`.
    fn make_up_in(&mut self, state: u8);
    /// `phase` and `state` as in a script's `p`.
    fn make_up_control(&mut self, phase: u8, state: u8, direction: bool, length: u32);

    /// Question 2.
    fn is_sound(&mut self) -> bool;
    fn submission_is_due(&self) -> bool;

    /// The records of the calls that had these effects.
    fn records(&mut self, effects: &[Effect], data: &[u8]) -> Vec<Record>;
    /// Carries records out on guest memory; 0, or the number of the question.
    fn carry_out(&self, records: &[Record], data: &[u8]) -> u8;
    fn state_line(&mut self) -> String;
    /// What captures say of the endpoint from here on.
    fn capture_as(&mut self, _captured: Captured) {}
}
