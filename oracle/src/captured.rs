//! The Rust's captures of call scripts, and the product's beside them.

use std::{
    env,
    fs::{self, File},
    io::{self, Read},
    path::PathBuf,
    process,
};

use crate::{
    asked_rust::AskedRust,
    call::{parse, Call},
    device::pcap::UsbPcapManager,
    driver::{Driver, Stop},
    filling::Filling,
};

const FILE_HEADER: usize = 24;
/// The record header and the usbmon header.
const HEADERS: usize = 16 + 48;
/// Document 02's, where the Rust has 65,535.
const SNAP_LENGTH: u32 = 134_217_728;
const MAX_MICROSECONDS: u32 = 999_999;

/// Both headers of a record, and its payload.
struct Record {
    headers: [u8; HEADERS],
    payload: Vec<u8>,
}

impl Record {
    /// A number of 32 bits.
    fn number(&self, at: usize) -> u32 {
        u32::from_le_bytes(self.headers[at..at + 4].try_into().expect("four bytes"))
    }

    fn set(&mut self, at: usize, bytes: &[u8]) {
        self.headers[at..at + bytes.len()].copy_from_slice(bytes);
    }
}

/// The records of a capture without its file header; None where it does not end with a record's end.
fn records(mut bytes: &[u8]) -> Option<Vec<Record>> {
    let mut records = vec![];
    while !bytes.is_empty() {
        let (headers, rest) = bytes.split_at_checked(HEADERS)?;
        let mut record = Record { headers: headers.try_into().expect("both headers"), payload: vec![] };
        let length = (record.number(8) as usize).checked_sub(HEADERS - 16)?;
        let (payload, rest) = rest.split_at_checked(length)?;
        record.payload = payload.to_vec();
        records.push(record);
        bytes = rest;
    }
    Some(records)
}

/// A record as document 02 has it, made of the Rust's, and the script's line that it belongs to. Of the payload there is what the Rust's snap length leaves.
pub struct Expected {
    line: usize,
    record: Record,
}

impl Expected {
    /// The Rust's record with the script's time, both lengths of the record header equal, and 0 as the length of a control OUT submission; no record where 24 is
    /// answered.
    fn new(line: usize, seconds: u32, microseconds: u32, mut record: Record) -> Option<Self> {
        record.set(0, &seconds.to_le_bytes());
        record.set(4, &microseconds.to_le_bytes());
        record.set(8, &record.number(12).to_le_bytes());
        record.set(16 + 16, &u64::from(seconds).to_le_bytes());
        record.set(16 + 24, &microseconds.to_le_bytes());
        if record.headers[16 + 8..16 + 11] == [b'S', 2, 0] {
            record.set(16 + 32, &[0; 4]);
        }
        (microseconds <= MAX_MICROSECONDS).then_some(Self { line, record })
    }

    fn is_cut(&self) -> bool {
        self.record.payload.len() < self.record.number(16 + 36) as usize
    }

    /// What differs, if anything does.
    fn difference(&self, made: &Record) -> Option<String> {
        let line = self.line;
        if let Some(at) = (0..HEADERS).find(|at| made.headers[*at] != self.record.headers[*at]) {
            let (is, expected) = (made.headers[at], self.record.headers[at]);
            return Some(format!("line {line}: byte {at} of the record is {is:02x}, expected {expected:02x}"));
        }
        let (kept, cut) = made.payload.split_at(self.record.payload.len());
        // byte k of the device's data is 11k + 5
        let goes_on = |pair: &[u8]| pair[1] == pair[0].wrapping_add(11);
        let is_completion = self.record.headers[16 + 8] == b'C';
        let from = kept.len().saturating_sub(1);
        if kept != self.record.payload
            || (is_completion && !cut.is_empty() && !made.payload[from..].windows(2).all(goes_on))
        {
            return Some(format!("line {line}: another payload"));
        }
        None
    }
}

/// The file that the Rust writes its captures to, one for the whole process.
pub struct CaptureFile {
    path: PathBuf,
    file: File,
    file_header: Vec<u8>,
}

impl CaptureFile {
    pub fn new() -> io::Result<Self> {
        let path = env::temp_dir().join(format!("oracle-{}.pcap", process::id()));
        File::create(&path)?;
        UsbPcapManager::init(Some(path.clone()));
        Ok(Self { file: File::open(&path)?, path, file_header: vec![] })
    }

    /// The records that were written since this was asked last.
    fn new_records(&mut self) -> io::Result<Vec<Record>> {
        let mut bytes = vec![];
        self.file.read_to_end(&mut bytes)?;
        if self.file_header.is_empty() && !bytes.is_empty() {
            let rest = bytes.split_off(FILE_HEADER);
            self.file_header = std::mem::replace(&mut bytes, rest);
            self.file_header[16..20].copy_from_slice(&SNAP_LENGTH.to_le_bytes());
        }
        Ok(records(&bytes).expect("the Rust flushes whole records"))
    }

    /// The records of a script. A call that the Rust cannot be asked has none in the product either, and is left out; so are the calls on a block that it
    /// cannot have. Release 5 changes events alone, and strict mode events and where a row ends, so that captures are those of the endpoint as ported.
    pub fn of_script(&mut self, script: &str) -> io::Result<Vec<Expected>> {
        let mut driver = Driver::<AskedRust>::over(Filling::OfScripts);
        let (mut seconds, mut microseconds) = (0, 0);
        let mut is_unlike = false;
        let mut found = vec![];
        for (line, text) in (1..).zip(script.split_inclusive('\n')) {
            let call = match text.strip_suffix('\n').and_then(parse) {
                None => break,
                Some(Call::CreateIn { endpoint, slot, mode }) => {
                    driver.is_strict = mode == Some(1);
                    Call::CreateIn { endpoint, slot, mode: None }
                }
                Some(Call::CreateControl { endpoint, slot, .. }) => {
                    Call::CreateControl { endpoint, slot, release: None }
                }
                Some(call) => call,
            };
            if let Call::Time { seconds: whole, microseconds: parts } = call {
                (seconds, microseconds) = (whole, parts);
            }
            let creates = matches!(call, Call::CreateIn { .. } | Call::CreateControl { .. });
            is_unlike &= !creates;
            if is_unlike && call.is_on_endpoint() {
                continue;
            }
            match driver.call(call) {
                Ok(_) => {}
                Err(Stop::BadLine) => break,
                Err(Stop::Unasked(_)) => is_unlike |= creates || matches!(call, Call::Hold(_)),
            }
            let written = self.new_records()?.into_iter();
            found.extend(written.filter_map(|record| Expected::new(line, seconds, microseconds, record)));
        }
        Ok(found)
    }

    /// The capture that has these records; None where the Rust cut a payload.
    pub fn bytes(&self, expected: &[Expected]) -> Option<Vec<u8>> {
        let mut bytes = self.file_header.clone();
        for expected in expected {
            if expected.is_cut() {
                return None;
            }
            bytes.extend(expected.record.headers);
            bytes.extend(&expected.record.payload);
        }
        Some(bytes)
    }

    /// The product's capture beside the records expected: what differs, if anything does.
    pub fn difference(&self, made: &[u8], expected: &[Expected]) -> Option<String> {
        let Some((file_header, rest)) = made.split_at_checked(FILE_HEADER) else {
            return Some("no file header".to_string());
        };
        if !self.file_header.is_empty() && file_header != self.file_header {
            return Some(format!("the file header is {file_header:02x?}"));
        }
        let Some(made) = records(rest) else {
            return Some("the capture does not end with a record".to_string());
        };
        let pairs = made.iter().zip(expected);
        pairs.filter_map(|(made, expected)| expected.difference(made)).next().or_else(|| {
            (made.len() != expected.len()).then(|| format!("{} records, expected {}", made.len(), expected.len()))
        })
    }
}

impl Drop for CaptureFile {
    fn drop(&mut self) {
        // Nothing reads it any more, and the folder is for such files.
        let _ = fs::remove_file(&self.path);
    }
}
