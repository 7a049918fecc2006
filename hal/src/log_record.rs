//! The records of a log: device requests, guest memory writes and transfer events, in the order of effect.

use crate::{EndpointId, SlotId};
use core::slice::ChunksExact;

/// Bytes of a log record.
pub const RECORD_LENGTH: usize = 32;

/// One record of a log.
#[derive(Clone, Copy, Debug, PartialEq, Eq)]
pub struct Record {
    /// The endpoint that it is of.
    pub endpoint_id: EndpointId,
    /// The endpoint's slot.
    pub slot_id: SlotId,
    /// What is to happen.
    pub effect: Effect,
}

/// What a record asks for.
#[derive(Clone, Copy, Debug, PartialEq, Eq)]
pub enum Effect {
    /// `length` bytes of the device's data, from `start` on, go to guest memory at `address`.
    Write {
        /// The guest address.
        address: u64,
        /// How many bytes.
        length: u32,
        /// Where in the device's data they start.
        start: u32,
    },
    /// A transfer event for the guest.
    Event {
        /// xHCI's completion code: 1 Success, 4 USB Transaction Error, 5 TRB Error, 6 Stall Error, 13 Short Packet.
        code: u8,
        /// Where the event points, and what its length means.
        about: EventAbout,
    },
    /// A request to the device.
    Request {
        /// The Setup TRB's address, or on IN that of the TD's first TRB.
        address: u64,
        /// How many bytes are asked for.
        length: u32,
        /// Request type, request, value and index, of a control transfer; zeros on IN.
        setup: [u8; 6],
    },
    /// A record of a kind that no call writes; `kind` is none of 1, 2 and 3.
    Unknown {
        /// The kind.
        kind: u8,
    },
}

/// What a transfer event tells of.
#[derive(Clone, Copy, Debug, PartialEq, Eq)]
pub enum EventAbout {
    /// A TRB: its address, and the bytes of it that did not come.
    Trb {
        /// The TRB's address.
        address: u64,
        /// The bytes that are missing.
        residual: u32,
    },
    /// An Event Data TRB: its value, and the bytes since the last one (EDTLA).
    EventData {
        /// The value of the Event Data TRB.
        value: u64,
        /// The event data transfer length accumulator.
        edtla: u32,
    },
}

impl Record {
    /// The record that 32 bytes of a log are.
    pub fn of(bytes: &[u8; RECORD_LENGTH]) -> Self {
        let word = |at: usize| u32::from_le_bytes(bytes[at..at + 4].try_into().expect("4 bytes"));
        let address = u64::from_le_bytes(bytes[8..16].try_into().expect("8 bytes"));
        let length = word(16);
        let effect = match bytes[0] {
            1 => Effect::Write { address, length, start: word(20) },
            2 => Effect::Event {
                code: bytes[1],
                about: match bytes[2] {
                    0 => EventAbout::Trb { address, residual: length },
                    _ => EventAbout::EventData { value: address, edtla: length },
                },
            },
            3 => Effect::Request { address, length, setup: bytes[24..30].try_into().expect("6 bytes") },
            kind => Effect::Unknown { kind },
        };
        Self { endpoint_id: EndpointId(bytes[3]), slot_id: SlotId(bytes[4]), effect }
    }
}

/// The records of a log, one after the other. Bytes behind the last whole record are left out.
///
/// ```
/// use polvihe_hal::{Effect, EventAbout, Records};
///
/// let mut log = [0u8; 32];
/// log[..5].copy_from_slice(&[2, 13, 0, 3, 2]);
/// log[8] = 0x10;
/// log[16] = 88;
/// let record = Records::of(&log).next().unwrap();
/// let about = EventAbout::Trb { address: 0x10, residual: 88 };
/// assert_eq!(record.effect, Effect::Event { code: 13, about });
/// ```
#[derive(Clone, Debug)]
pub struct Records<'l>(ChunksExact<'l, u8>);

impl<'l> Records<'l> {
    /// The records of a log, or of whole records of one.
    pub fn of(log: &'l [u8]) -> Self {
        Self(log.chunks_exact(RECORD_LENGTH))
    }
}

impl Iterator for Records<'_> {
    type Item = Record;

    fn next(&mut self) -> Option<Record> {
        self.0.next().map(|bytes| Record::of(bytes.try_into().expect("32 bytes")))
    }

    fn size_hint(&self) -> (usize, Option<usize>) {
        self.0.size_hint()
    }
}

impl ExactSizeIterator for Records<'_> {}
