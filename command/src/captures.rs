//! Captures: `convert`, `merge` and `read`.

use crate::call::{Call, Failure};
use polvihe_hal::capture;
use polvihe_hal::record::{Capture, Record};
use std::fmt::Write;

/// Writes a capture with the other link type.
pub fn convert(call: &Call) -> Result<(), Failure> {
    let input = call.read(0)?;
    let mut output = call.buffer(capture::converted_length(&input)?)?;
    capture::convert(&input, &mut output)?;
    call.write(&output)
}

/// Writes two captures as one, ordered by time.
pub fn merge(call: &Call) -> Result<(), Failure> {
    let (first, second) = (call.read(0)?, call.read(1)?);
    let mut output = call.buffer(capture::merged_length(&first, &second)?)?;
    capture::merge(&first, &second, &mut output)?;
    call.write(&output)
}

/// Writes a line for each record of a capture that the product writes.
pub fn read(call: &Call) -> Result<(), Failure> {
    let file = call.read(0)?;
    let mut records = Capture::of(&file)?;
    let mut output = call.output()?;
    let mut progress = output.progress("printing", file.len() as u64);
    let mut line = String::new();
    while let Some(record) = records.next() {
        line.clear();
        print(&mut line, &record);
        output.write_all(line.as_bytes())?;
        progress.at(records.read() as u64);
    }
    output.finish()
}

/// `SEC USEC ID EVENT TRANSFER ENDPOINT DEVICE BUS SETUPFLAG DATAFLAG HSEC HUSEC STATUS LENGTH COUNT SETUP PAYLOAD`
fn print(line: &mut String, record: &Record<'_>) {
    let (time, header) = (record.time, record.header);
    let written = write!(
        line,
        "{} {} {:x} {:02x} {:02x} {:02x} {:02x} {} {:02x} {:02x} {} {} {} {} {} ",
        time.seconds,
        time.microseconds,
        header.id,
        header.event_type,
        header.transfer_type,
        header.endpoint_address,
        header.device_address,
        header.bus_number,
        header.setup_flag,
        header.data_flag,
        header.seconds,
        header.microseconds,
        header.status,
        header.length,
        header.delivered,
    );
    written.expect("a string takes every line");
    hex(line, &header.setup);
    line.push(' ');
    if record.payload.is_empty() {
        line.push('-');
    }
    hex(line, record.payload);
    line.push('\n');
}

/// Two digits for each byte.
fn hex(line: &mut String, bytes: &[u8]) {
    const DIGITS: &[u8; 16] = b"0123456789abcdef";
    line.reserve(2 * bytes.len());
    for byte in bytes {
        line.push(DIGITS[usize::from(byte >> 4)].into());
        line.push(DIGITS[usize::from(byte & 15)].into());
    }
}
