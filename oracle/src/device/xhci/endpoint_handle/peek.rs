//! Reads the endpoints' private state and makes it up. A child of the unchanged file, which is why it may.

use super::*;

type InTrbs = Vec<SupportedEndpointTrb<SupportedNormalEndpointTrb>>;

/// The Rust's `TdBasedNormalSubmissionState` without its TRBs.
#[derive(Debug, Clone, Copy, PartialEq, Eq)]
pub enum InState {
    CollectingTd,
    AwaitingRealTransfer,
    AwaitingLocalCompletion,
    UnsupportedTrb(u64),
}

/// The Rust's `ControlSubmissionState` without the unexpected TRB's content.
#[derive(Debug, Clone, Copy, PartialEq, Eq)]
pub enum ControlState {
    NoTrbSubmitted,
    CollectingTd,
    ParserError(u64),
    UnexpectedTrb(u64),
    AwaitingControlRequest,
}

/// The state cannot be made up because the Rust has no place for it.
#[derive(Debug)]
pub struct CannotHold;

impl<RIEH: RealInEndpointHandle> TdBasedInEndpointHandle<RIEH> {
    pub fn state(&self) -> InState {
        match &self.submission_state {
            TdBasedNormalSubmissionState::CollectingTd(_) => InState::CollectingTd,
            TdBasedNormalSubmissionState::AwaitingRealTransfer(_) => InState::AwaitingRealTransfer,
            TdBasedNormalSubmissionState::AwaitingLocalCompletion(_) => InState::AwaitingLocalCompletion,
            TdBasedNormalSubmissionState::UnsupportedTrb(address) => InState::UnsupportedTrb(*address),
        }
    }

    fn trbs(&mut self) -> Option<&mut InTrbs> {
        match &mut self.submission_state {
            TdBasedNormalSubmissionState::CollectingTd(trbs)
            | TdBasedNormalSubmissionState::AwaitingRealTransfer(trbs)
            | TdBasedNormalSubmissionState::AwaitingLocalCompletion(trbs) => Some(trbs),
            TdBasedNormalSubmissionState::UnsupportedTrb(_) => None,
        }
    }

    pub fn held(&mut self) -> usize {
        self.trbs().map_or(0, |trbs| trbs.len())
    }

    pub fn holds_normal(&mut self) -> bool {
        self.trbs().is_some_and(|trbs| trbs.iter().any(|trb| trb.transfer_length().is_some()))
    }

    /// The address by which the Rust's captures name the TD.
    pub fn first_address(&mut self) -> Option<u64> {
        self.trbs().and_then(|trbs| trbs.first()).map(|trb| trb.addr)
    }

    pub fn hold(&mut self, trb: RawTrb) -> Result<(), CannotHold> {
        let supported = SupportedEndpointTrb::new(trb.address, trb.buffer).map_err(|_| CannotHold)?;
        self.trbs().ok_or(CannotHold)?.push(supported);
        Ok(())
    }

    /// Keeps the TRBs held. `UnsupportedTrb` cannot hold any.
    pub fn make_up(&mut self, state: InState) {
        let trbs = self.trbs().map(mem::take).unwrap_or_default();
        self.submission_state = match state {
            InState::CollectingTd => TdBasedNormalSubmissionState::CollectingTd(trbs),
            InState::AwaitingRealTransfer => TdBasedNormalSubmissionState::AwaitingRealTransfer(trbs),
            InState::AwaitingLocalCompletion => TdBasedNormalSubmissionState::AwaitingLocalCompletion(trbs),
            InState::UnsupportedTrb(address) => TdBasedNormalSubmissionState::UnsupportedTrb(address),
        };
    }

    pub fn ids(&self) -> (u8, u8) {
        (self.endpoint_id, self.slot_id)
    }

    pub fn capture_as(&mut self, meta: EndpointPcapMeta) {
        self.pcap_meta = meta;
    }
}

impl<RCEH: RealControlEndpointHandle> ControlEndpointHandle<RCEH> {
    pub fn state(&self) -> ControlState {
        match &self.submission_state.state {
            ControlSubmissionState::NoTrbSubmitted => ControlState::NoTrbSubmitted,
            ControlSubmissionState::CollectingTd => ControlState::CollectingTd,
            ControlSubmissionState::ParserError(address) => ControlState::ParserError(*address),
            ControlSubmissionState::UnexpectedTrb(address, _) => ControlState::UnexpectedTrb(*address),
            ControlSubmissionState::AwaitingControlRequest => ControlState::AwaitingControlRequest,
        }
    }

    pub fn transfer(&self) -> &ControlTransfer {
        &self.transfer_state
    }

    pub fn held(&self) -> usize {
        self.submission_state.trbs.len()
    }

    pub fn hold(&mut self, trb: RawTrb) -> Result<(), CannotHold> {
        let supported = SupportedEndpointTrb::new(trb.address, trb.buffer).map_err(|_| CannotHold)?;
        self.submission_state.trbs.push(supported);
        Ok(())
    }

    pub fn make_up(&mut self, phase: ControlTransferState, awaits: MadeUpControlState, direction: bool, length: u32) {
        self.transfer_state.state = phase;
        self.transfer_state.direction = direction;
        self.transfer_state.usb_request.length = length;
        self.submission_state.state = match awaits {
            MadeUpControlState::NoTrbSubmitted => ControlSubmissionState::NoTrbSubmitted,
            MadeUpControlState::CollectingTd => ControlSubmissionState::CollectingTd,
            MadeUpControlState::AwaitingControlRequest => ControlSubmissionState::AwaitingControlRequest,
        };
    }

    pub fn ids(&self) -> (u8, u8) {
        (self.endpoint_id, self.slot_id)
    }

    pub fn capture_as(&mut self, meta: EndpointPcapMeta) {
        self.pcap_meta = meta;
    }
}

/// The control states that a call script can make up.
#[derive(Debug, Clone, Copy, PartialEq, Eq)]
pub enum MadeUpControlState {
    NoTrbSubmitted,
    CollectingTd,
    AwaitingControlRequest,
}
