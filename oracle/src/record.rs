//! Log records, made from the effects, and their lines. Document 01 decides both.

use std::fmt::{self, Display, Formatter};

use crate::{
    device::xhci::{trb::RawTrbBuffer, usbrequest::UsbRequest},
    effects::Effect,
};

#[derive(Debug, Default, Clone, PartialEq, Eq)]
pub struct Record {
    kind: u8,
    code: u8,
    event_data: u8,
    endpoint: u8,
    slot: u8,
    address: u64,
    length: u32,
    start: usize,
    request: [u8; 8],
}

impl Display for Record {
    fn fmt(&self, f: &mut Formatter<'_>) -> fmt::Result {
        let Self { kind, code, event_data, endpoint, slot, address, length, start, request } = self;
        write!(f, "{kind} {code} {event_data} {endpoint} {slot} {address:x} {length} {start} ")?;
        request.iter().try_for_each(|byte| write!(f, "{byte:02x}"))
    }
}

/// Bytes of a record in a log.
pub const RECORD_LENGTH: usize = 32;

impl Record {
    /// The record that 32 bytes of a log are.
    pub fn of(bytes: &[u8; RECORD_LENGTH]) -> Self {
        let number = |at: usize| u32::from_le_bytes(bytes[at..at + 4].try_into().unwrap());
        let record = Self {
            kind: bytes[0],
            code: bytes[1],
            event_data: bytes[2],
            endpoint: bytes[3],
            slot: bytes[4],
            address: u64::from_le_bytes(bytes[8..16].try_into().unwrap()),
            length: number(16),
            start: number(20) as usize,
            request: bytes[24..].try_into().unwrap(),
        };
        assert_eq!(record.bytes(), *bytes, "bytes 5 to 7 of a record are zero");
        record
    }

    pub fn bytes(&self) -> [u8; RECORD_LENGTH] {
        let mut bytes = [0; RECORD_LENGTH];
        bytes[..5].copy_from_slice(&[self.kind, self.code, self.event_data, self.endpoint, self.slot]);
        bytes[8..16].copy_from_slice(&self.address.to_le_bytes());
        bytes[16..20].copy_from_slice(&self.length.to_le_bytes());
        bytes[20..24].copy_from_slice(&(self.start as u32).to_le_bytes());
        bytes[24..].copy_from_slice(&self.request);
        bytes
    }

    /// The guest address of a write and its bytes, which are the device's.
    pub fn write<'a>(&self, data: &'a [u8]) -> Option<(u64, &'a [u8])> {
        (self.kind == 1).then(|| (self.address, &data[self.start..][..self.length as usize]))
    }

    /// With its start, if it is a write's, moved by so many bytes.
    pub fn moved_by(self, bytes: usize) -> Self {
        let start = if self.kind == 1 { self.start + bytes } else { self.start };
        Self { start, ..self }
    }
}

/// Request type, request, value and index, as at offset 24 of a request record.
pub fn request_bytes(request: &UsbRequest) -> [u8; 6] {
    let [value_low, value_high] = request.value.to_le_bytes();
    let [index_low, index_high] = request.index.to_le_bytes();
    [request.request_type, request.request, value_low, value_high, index_low, index_high]
}

/// See xHCI 1.2, 6.4.2.1.
fn event_record(event: &RawTrbBuffer) -> Record {
    Record {
        kind: 2,
        code: event[11],
        event_data: event[12] >> 2 & 1,
        endpoint: event[14],
        slot: event[15],
        address: u64::from_le_bytes(event[0..8].try_into().unwrap()),
        length: u32::from_le_bytes([event[8], event[9], event[10], 0]),
        ..Record::default()
    }
}

/// What the Rust's effects do not carry along.
pub struct Surroundings<'a> {
    pub endpoint: u8,
    pub slot: u8,
    /// The address of the first TRB held by an IN endpoint.
    pub first_address: Option<u64>,
    /// The bytes that the device returned.
    pub data: &'a [u8],
}

/// The records of one call. The Rust does not say where in the device's data a write starts: it starts
/// where the one before ended, and its bytes are those found there.
pub fn records(effects: &[Effect], around: &Surroundings) -> Vec<Record> {
    let mut start = 0;
    let own = |kind, address, length| Record {
        kind,
        endpoint: around.endpoint,
        slot: around.slot,
        address,
        length,
        ..Record::default()
    };
    let record_of = |effect: &Effect| match effect {
        Effect::Write { address, bytes } => {
            let record = Record { start, ..own(1, *address, bytes.len() as u32) };
            assert_eq!(around.data.get(start..start + bytes.len()), Some(&bytes[..]), "not the device's bytes");
            start += bytes.len();
            record
        }
        Effect::Event(event) => event_record(event),
        Effect::InRequest { length } => {
            let address = around.first_address.expect("a TD that is requested has a TRB");
            own(3, address, u32::try_from(*length).unwrap())
        }
        Effect::ControlRequest(request) => {
            let mut record = own(3, request.address, request.length);
            record.request[..6].copy_from_slice(&request_bytes(request));
            record
        }
    };
    effects.iter().map(record_of).collect()
}
