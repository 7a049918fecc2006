//! Capture files of requests and completions: written record by record, and read again.

use crate::exported::{self, accepted};
use crate::Refusal;

/// Bytes of a file header, behind which the first record stands.
pub const FILE_HEADER_LENGTH: usize = 24;

/// Bytes of a record without its payload.
pub const RECORD_HEADERS_LENGTH: usize = 64;

/// Whose transfers are captured.
#[derive(Clone, Copy, Debug, PartialEq, Eq)]
pub struct Device {
    /// The bus that it is on.
    pub bus_number: u16,
    /// Its address on that bus.
    pub address: u8,
}

/// When something happened. Microseconds are at most 999,999 in what is written.
#[derive(Clone, Copy, Debug, PartialEq, Eq)]
pub struct Time {
    /// Whole seconds.
    pub seconds: u32,
    /// And microseconds.
    pub microseconds: u32,
}

/// The pipe of an IN endpoint, by its xHCI id.
#[derive(Clone, Copy, Debug, PartialEq, Eq)]
pub struct InPipe {
    /// Its xHCI endpoint id: an odd one is IN.
    pub id: u8,
    /// Are its transfers interrupt transfers? Otherwise they are bulk ones.
    pub interrupt: bool,
}

/// A device result on an IN endpoint.
#[derive(Clone, Copy, Debug, PartialEq, Eq)]
#[repr(u8)]
#[allow(missing_docs)]
pub enum InStatus {
    Success = 0,
    Stall = 1,
    TransactionError = 2,
    Disconnect = 3,
}

/// How a control transfer failed.
#[derive(Clone, Copy, Debug, PartialEq, Eq)]
#[repr(u8)]
#[allow(missing_docs)]
pub enum TransferError {
    Stall = 1,
    TransactionError = 2,
    Disconnect = 3,
}

/// A control request: the address of its Setup TRB, its setup fields, and the request length.
#[derive(Clone, Copy, Debug, PartialEq, Eq)]
#[allow(missing_docs)]
pub struct Request {
    pub address: u64,
    pub request_type: u8,
    pub request: u8,
    pub value: u16,
    pub index: u16,
    pub length: u32,
}

/// What is captured. An `id` is the address of a TRB: that of the TD's first, of the transfer's Setup, or of the one that is reported.
#[derive(Clone, Copy, Debug, PartialEq, Eq)]
#[allow(missing_docs)]
pub enum Event<'p> {
    InSubmission {
        endpoint: InPipe,
        id: u64,
        length: u32,
    },
    InCompletion {
        endpoint: InPipe,
        id: u64,
        status: InStatus,
        data: &'p [u8],
    },
    /// Of an IN request, nothing is collected.
    ControlSubmission {
        request: Request,
        collected: &'p [u8],
    },
    ControlCompletionIn {
        id: u64,
        data: &'p [u8],
    },
    /// With the request length.
    ControlCompletionOut {
        id: u64,
        length: u32,
    },
    /// With the number of bytes that were collected.
    ControlError {
        is_in: bool,
        error: TransferError,
        request: Request,
        collected: u32,
    },
    TrbError {
        id: u64,
    },
}

/// Writes the header of a capture file to the start of `output` and gives its length. Refused with 14 where `output` is too short; it is
/// unchanged then.
pub fn write_file_header(output: &mut [u8]) -> Result<usize, Refusal> {
    // SAFETY: the pointer stands with the length of its slice, which is lent for the call alone.
    unsafe { exported::polvihe_write_file_header(output.as_mut_ptr(), output.len()) }.count()
}

/// Writes the record of an event to the start of `output` and gives its length, at most `RECORD_HEADERS_LENGTH` more than the payload's.
/// Refused with 24 where the microseconds are above 999,999 or the record is longer than the snap length, then with 14 where `output` is too
/// short; it is unchanged then.
///
/// ```
/// use polvihe_hal::record::{self, Capture, Device, Event, InPipe, InStatus, Time};
/// use polvihe_hal::Refusal;
///
/// let device = Device { bus_number: 2, address: 5 };
/// let time = Time { seconds: 1_700_000_000, microseconds: 7 };
/// let endpoint = InPipe { id: 3, interrupt: false };
/// let data = [5, 16, 27];
/// let mut file = [0; 256];
/// let mut end = record::write_file_header(&mut file)?;
/// end += record::write_record(&mut file[end..], device, time, Event::InSubmission { endpoint, id: 0x1000, length: 8 })?;
/// let completion = Event::InCompletion { endpoint, id: 0x1000, status: InStatus::Stall, data: &data };
/// end += record::write_record(&mut file[end..], device, time, completion)?;
///
/// let records: Vec<_> = Capture::of(&file[..end])?.collect();
/// assert_eq!(records.len(), 2);
/// assert_eq!((records[1].time, records[1].header.status, records[1].payload), (time, -32, &data[..]));
///
/// let late = Time { seconds: 0, microseconds: 1_000_000 };
/// assert_eq!(record::write_record(&mut file, device, late, completion), Err(Refusal::CaptureOutOfRange));
/// assert_eq!(record::write_record(&mut file[..66], device, time, completion), Err(Refusal::OutputTooShort));
/// assert_eq!(Capture::of(&file[..end - 1]).err(), Some(Refusal::UnknownCapture));
/// # Ok::<(), Refusal>(())
/// ```
pub fn write_record(output: &mut [u8], device: Device, time: Time, event: Event<'_>) -> Result<usize, Refusal> {
    let (start, room) = (output.as_mut_ptr(), output.len());
    let Device { bus_number: bus, address } = device;
    let Time { seconds, microseconds } = time;
    // SAFETY: each pointer stands with the length of its slice, lent for the call alone; `output` cannot share bytes with a payload.
    let answered = unsafe {
        match event {
            Event::InSubmission { endpoint, id, length } => exported::polvihe_write_in_submission(
                start,
                room,
                bus,
                address,
                seconds,
                microseconds,
                endpoint.id,
                endpoint.interrupt,
                id,
                length,
            ),
            Event::InCompletion { endpoint, id, status, data } => exported::polvihe_write_in_completion(
                start,
                room,
                bus,
                address,
                seconds,
                microseconds,
                endpoint.id,
                endpoint.interrupt,
                id,
                status as u8,
                data.as_ptr(),
                data.len(),
            ),
            Event::ControlSubmission { request: r, collected } => exported::polvihe_write_control_submission(
                start,
                room,
                bus,
                address,
                seconds,
                microseconds,
                r.address,
                r.request_type,
                r.request,
                r.value,
                r.index,
                r.length,
                collected.as_ptr(),
                collected.len(),
            ),
            Event::ControlCompletionIn { id, data } => exported::polvihe_write_control_completion_in(
                start,
                room,
                bus,
                address,
                seconds,
                microseconds,
                id,
                data.as_ptr(),
                data.len(),
            ),
            Event::ControlCompletionOut { id, length } => exported::polvihe_write_control_completion_out(
                start,
                room,
                bus,
                address,
                seconds,
                microseconds,
                id,
                length,
            ),
            Event::ControlError { is_in, error, request: r, collected } => exported::polvihe_write_control_error(
                start,
                room,
                bus,
                address,
                seconds,
                microseconds,
                is_in,
                error as u8,
                r.address,
                r.request_type,
                r.request,
                r.value,
                r.index,
                r.length,
                collected,
            ),
            Event::TrbError { id } => {
                exported::polvihe_write_trb_error(start, room, bus, address, seconds, microseconds, id)
            }
        }
    };
    answered.count()
}

/// The usbmon header of a record.
#[derive(Clone, Copy, Debug, PartialEq, Eq)]
#[allow(missing_docs)]
pub struct Header {
    pub id: u64,
    /// `S`, `C` or `E`.
    pub event_type: u8,
    pub transfer_type: u8,
    pub endpoint_address: u8,
    pub device_address: u8,
    pub bus_number: u16,
    pub setup_flag: u8,
    pub data_flag: u8,
    pub seconds: u64,
    pub microseconds: u32,
    pub status: i32,
    pub length: u32,
    /// Bytes of the payload.
    pub delivered: u32,
    pub setup: [u8; 8],
}

/// A record of a capture.
#[derive(Clone, Copy, Debug, PartialEq, Eq)]
pub struct Record<'f> {
    /// That of the record header.
    pub time: Time,
    /// The fields behind it.
    pub header: Header,
    /// The bytes behind those.
    pub payload: &'f [u8],
}

/// The records of a capture that `write_file_header` and `write_record` make, one after the other.
#[derive(Clone, Debug)]
pub struct Capture<'f> {
    file: &'f [u8],
    read: usize,
    left: usize,
}

impl<'f> Capture<'f> {
    /// A capture that the writer makes; any other file is refused with 22, and no record is given.
    pub fn of(file: &'f [u8]) -> Result<Self, Refusal> {
        // SAFETY: the pointer stands with the length of its slice, and the library neither writes to it nor keeps it.
        let left = unsafe { exported::polvihe_read_capture(file.as_ptr(), file.len()) }.count()?;
        Ok(Self { file, read: FILE_HEADER_LENGTH, left })
    }

    /// Bytes of the file that were read.
    pub fn read(&self) -> usize {
        self.read
    }
}

impl<'f> Iterator for Capture<'f> {
    type Item = Record<'f>;

    fn next(&mut self) -> Option<Record<'f>> {
        self.left = self.left.checked_sub(1)?;
        // SAFETY: as for `of`.
        let read = unsafe { exported::polvihe_read_record(self.file.as_ptr(), self.file.len(), self.read) };
        accepted(read.number).expect("the file was read to its end before");
        self.read = read.next;
        let mut setup = [read.request_type, read.request, 0, 0, 0, 0, 0, 0];
        setup[2..4].copy_from_slice(&read.value.to_le_bytes());
        setup[4..6].copy_from_slice(&read.index.to_le_bytes());
        setup[6..8].copy_from_slice(&read.setup_length.to_le_bytes());
        Some(Record {
            time: Time { seconds: read.seconds, microseconds: read.microseconds },
            header: Header {
                id: read.id,
                event_type: read.event_type,
                transfer_type: read.transfer_type,
                endpoint_address: read.endpoint_address,
                device_address: read.device_address,
                bus_number: read.bus_number,
                setup_flag: read.setup_flag,
                data_flag: read.data_flag,
                seconds: read.header_seconds,
                microseconds: read.header_microseconds,
                status: read.status as i32,
                length: read.length,
                delivered: read.delivered,
                setup,
            },
            payload: &self.file[read.payload_start..][..read.payload_length],
        })
    }

    fn size_hint(&self) -> (usize, Option<usize>) {
        (self.left, Some(self.left))
    }
}
