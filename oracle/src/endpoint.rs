//! One endpoint of the Rust, and the calls on it.

use std::{
    fmt::{self, Display, Formatter},
    future::Future,
    pin::pin,
    task::{Context, Poll, Waker},
};

use crate::{
    call::{Captured, Trb},
    device::{
        pcap::EndpointPcapMeta,
        xhci::{
            endpoint_handle::{
                peek::{CannotHold, ControlState, InState, MadeUpControlState},
                ControlEndpointHandle, ControlTransferState, EndpointHandle, TdBasedInEndpointHandle,
                TrbProcessingResult,
            },
            hotplug_endpoint_handle::BaseEndpointHandle,
            trb::RawTrb,
        },
    },
    engine::Connections,
    raw_trb::encode,
    record::request_bytes,
    scripted_device::ScriptedDevice,
};

/// The Rust's `CollectingTd` is both 'a submission is due' and 'collecting'; whose turn it is is kept beside it.
pub struct In {
    pub handle: TdBasedInEndpointHandle<ScriptedDevice>,
    pub submission_due: bool,
}

pub struct Control {
    pub handle: ControlEndpointHandle<ScriptedDevice>,
}

pub enum Endpoint {
    In(In),
    Control(Control),
}

/// The scripted device answers at once, so one poll completes every future.
fn completed<T>(future: impl Future<Output = anyhow::Result<T>>) -> T {
    match pin!(future).poll(&mut Context::from_waker(Waker::noop())) {
        Poll::Ready(answer) => answer.expect("the Rust reports no error of its own"),
        Poll::Pending => unreachable!("the scripted device answers at once"),
    }
}

fn in_meta(endpoint: u8, captured: Captured) -> EndpointPcapMeta {
    let Captured { bus, device, is_interrupt } = captured;
    match is_interrupt {
        true => EndpointPcapMeta::interrupt(bus, device, endpoint),
        false => EndpointPcapMeta::bulk(bus, device, endpoint),
    }
}

fn control_meta(endpoint: u8, captured: Captured) -> EndpointPcapMeta {
    EndpointPcapMeta::control(captured.bus, captured.device, endpoint)
}

impl Endpoint {
    pub fn new_in(endpoint: u8, slot: u8, captured: Captured, to: Connections) -> Self {
        let meta = in_meta(endpoint, captured);
        Self::In(In {
            handle: TdBasedInEndpointHandle::new(slot, endpoint, meta, to.device, to.memory, to.events),
            submission_due: true,
        })
    }

    pub fn new_control(endpoint: u8, slot: u8, captured: Captured, to: Connections) -> Self {
        let meta = control_meta(endpoint, captured);
        Self::Control(Control {
            handle: ControlEndpointHandle::new(slot, endpoint, meta, to.device, to.memory, to.events),
        })
    }

    /// What the Rust's captures say of the endpoint from here on.
    pub fn capture_as(&mut self, captured: Captured) {
        let (endpoint, _) = self.ids();
        match self {
            Self::In(In { handle, .. }) => handle.capture_as(in_meta(endpoint, captured)),
            Self::Control(Control { handle }) => handle.capture_as(control_meta(endpoint, captured)),
        }
    }

    pub fn submit(&mut self, trb: &Trb) {
        self.submit_raw(encode(trb));
    }

    pub fn submit_raw(&mut self, raw: RawTrb) {
        let submitted = match self {
            Self::In(In { handle, submission_due }) => {
                *submission_due = false;
                handle.submit_trb(raw)
            }
            Self::Control(Control { handle }) => handle.submit_trb(raw),
        };
        submitted.expect("the Rust reports no error of its own");
    }

    pub fn complete(&mut self) -> TrbProcessingResult {
        match self {
            Self::In(In { handle, submission_due }) => {
                *submission_due = true;
                completed(handle.next_completion())
            }
            Self::Control(Control { handle }) => completed(handle.next_completion()),
        }
    }

    pub fn cancel(&mut self) {
        match self {
            Self::In(In { handle, submission_due }) => {
                *submission_due = true;
                completed(handle.cancel());
            }
            Self::Control(Control { handle }) => completed(handle.cancel()),
        }
    }

    pub fn held(&mut self) -> usize {
        match self {
            Self::In(In { handle, .. }) => handle.held(),
            Self::Control(Control { handle }) => handle.held(),
        }
    }

    pub fn hold(&mut self, trb: &Trb) -> Result<(), CannotHold> {
        match self {
            Self::In(In { handle, .. }) => handle.hold(encode(trb)),
            Self::Control(Control { handle }) => handle.hold(encode(trb)),
        }
    }

    pub fn ids(&self) -> (u8, u8) {
        match self {
            Self::In(In { handle, .. }) => handle.ids(),
            Self::Control(Control { handle }) => handle.ids(),
        }
    }

    pub fn first_address(&mut self) -> Option<u64> {
        match self {
            Self::In(In { handle, .. }) => handle.first_address(),
            Self::Control(_) => None,
        }
    }

    pub fn state_line(&mut self) -> String {
        match self {
            Self::In(endpoint) => endpoint.state_line(),
            Self::Control(endpoint) => endpoint.state_line(),
        }
    }
}

impl In {
    /// `state` as in a script's `p`.
    pub fn make_up(&mut self, state: u8) {
        self.submission_due = state == 0;
        self.handle.make_up(match state {
            0 | 1 => InState::CollectingTd,
            2 => InState::AwaitingRealTransfer,
            _ => InState::AwaitingLocalCompletion,
        });
    }

    fn state_line(&mut self) -> String {
        let state = match self.handle.state() {
            InState::CollectingTd if self.submission_due => "submit".to_string(),
            InState::CollectingTd => "collecting".to_string(),
            InState::AwaitingRealTransfer => "real".to_string(),
            InState::AwaitingLocalCompletion => "local".to_string(),
            InState::UnsupportedTrb(address) => format!("unsupported:{address:x}"),
        };
        format!("st in {state} {}", self.handle.held())
    }
}

impl Control {
    /// `phase` and `state` as in a script's `p`.
    pub fn make_up(&mut self, phase: u8, state: u8, direction: bool, length: u32) {
        let phase = match phase {
            0 => ControlTransferState::ExpectSetupStageTrb,
            1 => ControlTransferState::MaybeDataStageTrb,
            2 => ControlTransferState::MoreData,
            3 => ControlTransferState::ExpectStatusStageTrb,
            _ => ControlTransferState::ExpectFinalEventDataTrb,
        };
        let state = match state {
            0 => MadeUpControlState::NoTrbSubmitted,
            1 => MadeUpControlState::CollectingTd,
            _ => MadeUpControlState::AwaitingControlRequest,
        };
        self.handle.make_up(phase, state, direction, length);
    }

    fn state_line(&self) -> String {
        let transfer = self.handle.transfer();
        let phase = match transfer.state {
            ControlTransferState::ExpectSetupStageTrb => "setup",
            ControlTransferState::MaybeDataStageTrb => "maybe",
            ControlTransferState::MoreData => "more",
            ControlTransferState::ExpectStatusStageTrb => "status",
            ControlTransferState::ExpectFinalEventDataTrb => "final",
        };
        let state = match self.handle.state() {
            ControlState::NoTrbSubmitted => "submit".to_string(),
            ControlState::CollectingTd => "collecting".to_string(),
            ControlState::ParserError(address) => format!("parser:{address:x}"),
            ControlState::UnexpectedTrb(address) => format!("unexpected:{address:x}"),
            ControlState::AwaitingControlRequest => "request".to_string(),
        };
        let direction = if transfer.direction { "in" } else { "out" };
        let request = &transfer.usb_request;
        let request_hex: String = request_bytes(request).iter().map(|byte| format!("{byte:02x}")).collect();
        format!(
            "st control {phase} {state} {} {direction} {} {} {:x} {:x} {request_hex}",
            self.handle.held(),
            request.length,
            request.data.len(),
            weighted_sum(&request.data),
            request.address,
        )
    }
}

/// SUM of a state line: the sum of (k + 1) times byte k, modulo 2^32.
pub fn weighted_sum(bytes: &[u8]) -> u32 {
    let weighted = bytes.iter().zip(1u32..).map(|(byte, weight)| weight.wrapping_mul(u32::from(*byte)));
    weighted.fold(0, u32::wrapping_add)
}

/// RESULT, ADDR and CYCLE of an answer.
pub struct ResultFields(pub TrbProcessingResult);

impl Display for ResultFields {
    fn fmt(&self, f: &mut Formatter<'_>) -> fmt::Result {
        let (name, place) = match self.0 {
            TrbProcessingResult::Ok => ("ok", None),
            TrbProcessingResult::Stall(place) => ("stall", place),
            TrbProcessingResult::TrbError => ("trb", None),
            TrbProcessingResult::TransactionError(place) => ("transaction", place),
            TrbProcessingResult::Disconnect => ("disconnect", None),
        };
        match place {
            Some((address, cycle)) => write!(f, "{name} {address:x} {}", u8::from(cycle)),
            None => write!(f, "{name} - -"),
        }
    }
}
