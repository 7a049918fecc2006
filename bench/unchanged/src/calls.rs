//! The work that is timed: the same calls, in the same order and with the same checksum, as the product's sides.
//! A TRB goes in as its 16 bytes, which `submit_trb` parses.

use std::{
    future::Future,
    pin::pin,
    sync::Arc,
    task::{Context, Poll, Waker},
};

use lending::LentData;

use crate::{
    device::{
        pcap::EndpointPcapMeta,
        xhci::{
            endpoint_handle::{ControlEndpointHandle, EndpointHandle, TdBasedInEndpointHandle, TrbProcessingResult},
            interrupter::EventSender,
            trb::{RawTrb, TransferTrbVariant},
        },
    },
    surroundings::{Device, Memory, Records},
};

const FAILED: u64 = 1 << 20;
const FIRST_TRB: u64 = 4096;
const TRB_BYTES: u64 = 16;

const NORMAL: u8 = 1;
const SETUP_STAGE: u8 = 2;
const DATA_STAGE: u8 = 3;
const STATUS_STAGE: u8 = 4;

const CYCLE: u8 = 0x01;
const INTERRUPT_ON_SHORT: u8 = 0x04;
const CHAIN: u8 = 0x10;
const INTERRUPT_ON_COMPLETION: u8 = 0x20;
const IMMEDIATE_DATA: u8 = 0x40;
const DIRECTION_IN: u8 = 0x01;

const ENDPOINT: u8 = 3;
const SLOT: u8 = 2;
const CAPTURE_BUS: u16 = 1;

/// See xHCI 1.2, 6.4.1.
fn raw_trb(i: u32, kind: u8, pointer: u64, length: u32, flags: u8, direction: u8) -> RawTrb {
    let mut buffer = [0; 16];
    buffer[0..8].copy_from_slice(&pointer.to_le_bytes());
    buffer[8..12].copy_from_slice(&length.to_le_bytes());
    buffer[12] = flags | CYCLE;
    buffer[13] = kind << 2;
    buffer[14] = direction;
    RawTrb { address: FIRST_TRB + TRB_BYTES * u64::from(i), buffer }
}

/// The device answers at once, so one poll completes every future.
fn completed<T>(future: impl Future<Output = anyhow::Result<T>>) -> T {
    match pin!(future).poll(&mut Context::from_waker(Waker::noop())) {
        Poll::Ready(answer) => answer.expect("the Rust reports no error of its own"),
        Poll::Pending => unreachable!("the device answers at once"),
    }
}

fn sum_of(result: TrbProcessingResult) -> u64 {
    if result == TrbProcessingResult::Ok {
        0
    } else {
        FAILED
    }
}

/// Submits the TRBs of a TD, each followed by its completion; where the TD is not to complete, it is cancelled in the place of
/// its last completion.
fn run_td<E: EndpointHandle>(
    endpoint: &mut E,
    records: &Records,
    trbs: u32,
    completes: bool,
    mut trb: impl FnMut(u32, bool) -> RawTrb,
) -> u64 {
    let mut sum = 0;
    for i in 0..trbs {
        let ends = i + 1 == trbs;
        endpoint.submit_trb(trb(i, ends)).expect("the Rust reports no error of its own");
        sum += records.take_count();
        if ends && !completes {
            completed(endpoint.cancel());
        } else {
            let result = completed(endpoint.next_completion());
            sum += sum_of(result) + records.take_count();
        }
    }
    sum
}

/// What the device gives for a TD: its data, and 0 Success, 1 Stall, 2 transaction error or any other number for a disconnect.
#[derive(Clone, Copy)]
pub struct Given {
    pub data: &'static [u8],
    pub status: u8,
}

/// Rows of `tds` TDs of `trbs` Normals by single calls; the buffers of a TD lie end to end.
pub struct InRows {
    records: Records,
    /// One for the last TD of a row, whose device gives something else, behind one for those before it.
    endpoints: [TdBasedInEndpointHandle<Device>; 2],
    tds: u32,
    trbs: u32,
    transfer_length: u32,
}

impl InRows {
    /// The data of both begin at the same byte.
    pub fn new(others: Given, last: Given, tds: u32, trbs: u32, transfer_length: u32) -> Self {
        let records = Records::new();
        let endpoints = [others, last].map(|given| {
            TdBasedInEndpointHandle::new(
                SLOT,
                ENDPOINT,
                EndpointPcapMeta::bulk(CAPTURE_BUS, SLOT, ENDPOINT),
                Device { records: records.clone(), status: given.status, data: LentData::new(given.data) },
                Arc::new(Memory(records.clone())),
                EventSender::new(records.clone()),
            )
        });
        Self { records, endpoints, tds, trbs, transfer_length }
    }

    /// Not inlined, so that each timed function of the Rust has one call site.
    #[inline(never)]
    pub fn run(&mut self, completes: bool, repeats: u32) -> u64 {
        let Self { records, endpoints, tds, trbs, transfer_length } = self;
        let normal = |i: u32, ends: bool| {
            let flags = INTERRUPT_ON_SHORT | if ends { INTERRUPT_ON_COMPLETION } else { CHAIN };
            raw_trb(i, NORMAL, u64::from(i) * u64::from(*transfer_length), *transfer_length, flags, 0)
        };
        let mut sum = 0;
        for _ in 0..repeats {
            for left in (0..*tds).rev() {
                sum += run_td(&mut endpoints[usize::from(left == 0)], records, *trbs, completes, normal);
            }
        }
        sum
    }
}

/// `repeats` control transfers: Setup 80 06, Data IN of `length` bytes, Status.
pub fn control_transfer(data: &'static [u8], length: u32, repeats: u32) -> u64 {
    let records = Records::new();
    let mut endpoint = ControlEndpointHandle::new(
        SLOT,
        1,
        EndpointPcapMeta::control(CAPTURE_BUS, SLOT, 1),
        Device { records: records.clone(), status: 0, data: LentData::new(data) },
        Arc::new(Memory(records.clone())),
        EventSender::new(records.clone()),
    );
    let setup_packet = u64::from_le_bytes([0x80, 0x06, 0x00, 0x01, 0, 0, 64, 0]);
    let stage = |i: u32, _ends: bool| match i {
        0 => raw_trb(i, SETUP_STAGE, setup_packet, 8, IMMEDIATE_DATA, 0),
        1 => raw_trb(i, DATA_STAGE, 0, length, INTERRUPT_ON_SHORT, DIRECTION_IN),
        _ => raw_trb(i, STATUS_STAGE, 0, 0, INTERRUPT_ON_COMPLETION, 0),
    };
    (0..repeats).map(|_| run_td(&mut endpoint, &records, 3, true, stage)).sum()
}

/// Parses a row of raw TRBs, 16 bytes each, and sums what the product's side sums.
pub fn parse(trbs: &[u8], repeats: u32) -> u64 {
    let mut sum = 0u64;
    for _ in 0..repeats {
        for bytes in std::hint::black_box(trbs).chunks_exact(16) {
            let buffer: [u8; 16] = bytes.try_into().expect("a TRB has 16 bytes");
            let cycle_bit = buffer[12] & 0x1 != 0;
            let number = match TransferTrbVariant::parse(buffer) {
                TransferTrbVariant::SetupStage(t) => u64::from(t.length),
                TransferTrbVariant::DataStage(t) => t.data_pointer.wrapping_add(t.transfer_length.into()),
                TransferTrbVariant::StatusStage(t) => u64::from(t.direction),
                TransferTrbVariant::Normal(t) => t.data_pointer.wrapping_add(t.transfer_length.into()),
                TransferTrbVariant::EventData(t) => t.event_data,
                TransferTrbVariant::NoOp(t) => u64::from(t.interrupt_on_completion),
                TransferTrbVariant::Isoch => 5,
                TransferTrbVariant::Unrecognized(..) => 6,
            };
            sum = sum.wrapping_add(number).wrapping_add(u64::from(cycle_bit));
        }
    }
    sum
}
