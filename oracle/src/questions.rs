//! The questions of documents 01 and 02, asked of the Rust's own state, as the Rust itself refuses nothing.
//! Each function gives the number of the first question whose answer is no.

use crate::{
    call::{Kind, Status, Trb, CHAIN, IMMEDIATE_DATA},
    device::xhci::endpoint_handle::{
        peek::{ControlState, InState},
        ControlTransferState,
    },
    endpoint::{Control, Endpoint, In},
    engine::Engine,
    guest_memory::GuestMemory,
    row::Row,
};

pub const MIN_COLLECT: u64 = 65_535;
pub const MAX_TRB_LENGTH: u32 = 131_071;
pub const MAX_HELD: usize = 512;
/// Two records of 32 bytes for each TRB held.
pub const MIN_LOG: u64 = 32 * 2 * MAX_HELD as u64;
pub const MAX_ROW: usize = MAX_HELD;
/// A request for each TD and two records for each TRB.
pub const MIN_ROW_LOG: u64 = 32 * 3 * MAX_ROW as u64;
pub const MAX_COLLECTED: usize = 65_535;
pub const MAX_ENDPOINT: u8 = 31;

/// Lengths of the lent buffers.
#[derive(Debug, Clone, Copy)]
pub struct Buffers {
    pub log: u64,
    pub collect: u64,
}

/// The first question that is not met.
fn first_no(questions: &[(u8, bool)]) -> Option<u8> {
    questions.iter().find(|(_, met)| !met).map(|(number, _)| *number)
}

pub fn of_creation(endpoint: u8, slot: u8) -> Option<u8> {
    first_no(&[(12, (1..=MAX_ENDPOINT).contains(&endpoint) && slot >= 1)])
}

/// Ids, kinds, lengths and counts are sound by what the driver lets in; this is what is left of question 2.
pub fn is_sound(endpoint: &mut Endpoint) -> bool {
    match endpoint {
        Endpoint::In(In { handle, .. }) => handle.state() != InState::AwaitingRealTransfer || handle.holds_normal(),
        Endpoint::Control(_) => true,
    }
}

pub fn submission_is_due(endpoint: &Endpoint) -> bool {
    match endpoint {
        Endpoint::In(In { submission_due, .. }) => *submission_due,
        Endpoint::Control(Control { handle }) => handle.state() == ControlState::NoTrbSubmitted,
    }
}

fn awaits_device(endpoint: &Endpoint) -> bool {
    match endpoint {
        Endpoint::In(In { handle, .. }) => handle.state() == InState::AwaitingRealTransfer,
        Endpoint::Control(Control { handle }) => handle.state() == ControlState::AwaitingControlRequest,
    }
}

/// How many are held once this TRB is, or None if it would not be held.
fn held_with(endpoint: &mut Endpoint, kind: Kind) -> Option<usize> {
    use ControlTransferState::*;
    match endpoint {
        Endpoint::In(In { handle, .. }) => {
            matches!(kind, Kind::Normal | Kind::EventData | Kind::NoOp).then(|| handle.held() + 1)
        }
        Endpoint::Control(Control { handle }) => match (&handle.transfer().state, kind) {
            (ExpectSetupStageTrb, Kind::SetupStage) => Some(handle.held() + 1),
            (_, Kind::SetupStage) => Some(1),
            (MaybeDataStageTrb, Kind::DataStage | Kind::StatusStage)
            | (MoreData, Kind::Normal | Kind::EventData)
            | (ExpectStatusStageTrb, Kind::StatusStage)
            | (ExpectFinalEventDataTrb, Kind::EventData) => Some(handle.held() + 1),
            _ => None,
        },
    }
}

/// The bytes collected so far, if this is a control OUT transfer.
fn collected_out(endpoint: &Endpoint) -> Option<usize> {
    match endpoint {
        Endpoint::In(_) => None,
        Endpoint::Control(Control { handle }) => {
            let transfer = handle.transfer();
            (!transfer.direction).then_some(transfer.usb_request.data.len())
        }
    }
}

pub fn of_submission(endpoint: &mut Endpoint, trb: &Trb, buffers: Buffers, memory: &GuestMemory) -> Option<u8> {
    let is_control = matches!(endpoint, Endpoint::Control(_));
    let held = held_with(endpoint, trb.kind);
    let holds_data = held.is_some() && trb.kind.has_length();
    let out = collected_out(endpoint);
    let immediate_out = out.is_some() && trb.has(IMMEDIATE_DATA);
    let collected = out.map_or(0, |count| match (holds_data, immediate_out) {
        (false, _) => count,
        (true, true) => count + trb.length.min(8) as usize,
        (true, false) => count + trb.length as usize,
    });
    first_no(&[
        (1, buffers.log >= MIN_LOG && (!is_control || buffers.collect >= MIN_COLLECT)),
        (13, !memory.share_an_address()),
        (2, is_sound(endpoint)),
        (3, submission_is_due(endpoint)),
        (4, trb.length <= MAX_TRB_LENGTH),
        (21, !holds_data || out.is_some() || !trb.has(IMMEDIATE_DATA)),
        (5, held.unwrap_or(0) <= MAX_HELD),
        (6, !holds_data || trb.length == 0 || immediate_out || memory.contains(trb.a, trb.length as usize)),
        (7, collected <= MAX_COLLECTED),
    ])
}

/// A script's data is shorter than question 9 asks.
pub fn of_completion(endpoint: &mut Endpoint, has_result: bool, buffers: Buffers) -> Option<u8> {
    first_no(&[
        (1, buffers.log >= MIN_LOG),
        (2, is_sound(endpoint)),
        (3, !submission_is_due(endpoint)),
        (8, awaits_device(endpoint) == has_result),
    ])
}

/// 15: at most 512 TRBs of the kinds that an IN endpoint holds, whole TDs, a result for each, lengths that add up to the data, and
/// nothing but Success and no bytes for a TD without a Normal.
fn is_shaped(row: &Row, data_length: u64) -> bool {
    let kinds = |trb: &Trb| matches!(trb.kind, Kind::Normal | Kind::EventData | Kind::NoOp);
    let whole = row.trbs.last().is_none_or(|trb| !trb.has(CHAIN));
    let tds = row.tds();
    let given: u64 = row.results.iter().map(|(_, length)| u64::from(*length)).sum();
    let rightly = |(trbs, given): (&&[Trb], &(Status, u32))| {
        trbs.iter().any(|trb| trb.kind == Kind::Normal) || *given == (Status::Success, 0)
    };
    row.trbs.len() <= MAX_ROW
        && row.trbs.iter().all(kinds)
        && whole
        && tds.len() == row.results.len()
        && given == data_length
        && tds.iter().zip(&row.results).all(rightly)
}

/// A script's data is shorter than question 9 asks.
pub fn of_row(
    endpoint: &mut impl Engine,
    row: &Row,
    data_length: u64,
    buffers: Buffers,
    memory: &GuestMemory,
) -> Option<u8> {
    let of_trb = |trb: &Trb| {
        let holds_data = trb.kind.has_length();
        first_no(&[
            (4, trb.length <= MAX_TRB_LENGTH),
            (21, !holds_data || !trb.has(IMMEDIATE_DATA)),
            (6, !holds_data || trb.length == 0 || memory.contains(trb.a, trb.length as usize)),
        ])
    };
    first_no(&[
        (1, buffers.log >= MIN_ROW_LOG),
        (13, !memory.share_an_address()),
        (2, endpoint.is_sound()),
        (3, endpoint.submission_is_due() && endpoint.held() == 0),
        (15, is_shaped(row, data_length)),
    ])
    .or_else(|| row.trbs.iter().find_map(of_trb))
}
