//! Playback through the proved input path: a guest that asks for frames by a ring of raw TRBs, a device that sends them, with short packets and
//! a stall now and then, and between the two what a hardware abstraction layer does: submit, complete and carry out, show the events.
//!
//! `cargo run --release --example playback -- [FRAMES [FILE]]` prints frames a second and how many frames the guest found torn, and writes a
//! capture of the requests and completions to FILE, for Wireshark.

use polvihe_hal::record::{self, Device, Event, InPipe, InStatus, Time};
use polvihe_hal::{
    DeviceResult, Effect, EndpointId, EventAbout, GuestMemory, InEndpoint, Mode, Normal, Outcome, Refusal, SlotId, Trb,
};
use std::fs::File;
use std::io::{BufWriter, Write};
use std::time::Instant;

/// A frame of picture essence: twenty Normal TRBs of 64 KiB.
const TRBS: usize = 20;
const TRB_LENGTH: usize = 65_536;
const FRAME: usize = TRBS * TRB_LENGTH;
/// Where the guest has its ring and its frame buffer.
const RING: u64 = 0x1000;
const BUFFER: u64 = 0x10_0000;

/// The address of a TRB of the ring.
fn trb_address(index: usize) -> u64 {
    RING + 16 * index as u64
}

/// The guest's ring: one TD, interrupt-on-short on every TRB and interrupt-on-completion on the last.
fn ring() -> Result<Vec<[u8; 16]>, Refusal> {
    (0..TRBS)
        .map(|index| {
            let last = index + 1 == TRBS;
            let trb = Trb::Normal(Normal {
                pointer: BUFFER + (index * TRB_LENGTH) as u64,
                length: TRB_LENGTH as u32,
                chain: !last,
                interrupt_on_completion: last,
                interrupt_on_short: true,
                immediate_data: false,
            });
            trb.encode(true)
        })
        .collect()
}

/// What the device sends for a frame: every seventh is short, every fiftieth stalls on the way.
fn device(frame: usize, data: &mut [u8]) -> (DeviceResult, usize) {
    for (at, byte) in data.iter_mut().enumerate() {
        *byte = (frame * 31 + at * 11 + at / 4096) as u8;
    }
    match frame {
        frame if frame % 50 == 49 => (DeviceResult::Stall, (frame * 7919) % FRAME),
        frame if frame % 7 == 6 => (DeviceResult::Success, (frame * 104_729) % FRAME),
        _ => (DeviceResult::Success, FRAME),
    }
}

/// The guest: it sums the lengths through the TRB that the first event other than Success names, and subtracts the residual.
#[derive(Default)]
struct Guest {
    told: Option<usize>,
}

impl Guest {
    /// An event comes in. Where the guest relies on it, it looks at its frame at once: is what it is told of there?
    fn event(&mut self, code: u8, about: EventAbout, last: bool, buffer: &[u8], sent: &[u8]) -> Option<bool> {
        let EventAbout::Trb { address, residual } = about else { return None };
        let count = match code {
            1 if last => FRAME,
            1 => return None,
            _ => ((address - RING) / 16 + 1) as usize * TRB_LENGTH - residual as usize,
        };
        if self.told.is_some() {
            return None;
        }
        self.told = Some(count);
        Some(count == sent.len() && buffer[..count] == *sent)
    }
}

/// A capture, written record by record.
struct Capture {
    file: BufWriter<File>,
    record: Vec<u8>,
}

impl Capture {
    const DEVICE: Device = Device { bus_number: 1, address: 5 };
    const PIPE: InPipe = InPipe { id: 3, interrupt: false };

    fn create(name: &str) -> Result<Self, Box<dyn std::error::Error>> {
        let mut capture =
            Self { file: BufWriter::new(File::create(name)?), record: vec![0; record::RECORD_HEADERS_LENGTH + FRAME] };
        let length = record::write_file_header(&mut capture.record)?;
        capture.file.write_all(&capture.record[..length])?;
        Ok(capture)
    }

    /// A frame's request and its completion, 24 frames a second.
    fn frame(&mut self, frame: usize, result: DeviceResult, data: &[u8]) -> Result<(), Box<dyn std::error::Error>> {
        let status = if result == DeviceResult::Stall { InStatus::Stall } else { InStatus::Success };
        let (endpoint, id) = (Self::PIPE, RING);
        let submission = Event::InSubmission { endpoint, id, length: FRAME as u32 };
        let completion = Event::InCompletion { endpoint, id, status, data };
        for (event, after) in [(submission, 0), (completion, 20_000)] {
            let time = Time { seconds: (frame / 24) as u32, microseconds: (frame % 24 * 41_667 + after) as u32 };
            let length = record::write_record(&mut self.record, Self::DEVICE, time, event)?;
            self.file.write_all(&self.record[..length])?;
        }
        Ok(())
    }
}

fn main() -> Result<(), Box<dyn std::error::Error>> {
    let mut words = std::env::args().skip(1);
    let frames: usize = words.next().map_or(Ok(480), |word| word.parse())?;
    let mut capture = words.next().map(|name| Capture::create(&name)).transpose()?;
    let ring = ring()?;
    let mut buffer = vec![0u8; FRAME];
    let mut data = vec![0u8; FRAME];
    let mut log = vec![0u8; InEndpoint::LOG_LENGTH];
    let mut endpoint = InEndpoint::create(EndpointId(3), SlotId(2), Mode::Strict)?;
    let (mut whole, mut short, mut stalled, mut torn) = (0, 0, 0, 0);
    let mut spent = std::time::Duration::ZERO;
    for frame in 0..frames {
        let (result, sent) = device(frame, &mut data);
        buffer.fill(0xa5);
        let mut guest = Guest::default();
        let began = Instant::now();
        // The ring walker: each TRB is submitted; within the TD nothing completes.
        for (index, raw) in ring.iter().enumerate() {
            let memory = GuestMemory::one(BUFFER, &mut buffer);
            let submitted = endpoint.submit_raw(trb_address(index), raw, &memory, &mut log)?;
            if submitted.records().len() == 0 {
                endpoint.complete(None, &[], &mut log)?;
            }
        }
        // The device answered. Its bytes are at their places before any event is shown; the events come in the order of effect.
        let mut memory = GuestMemory::one(BUFFER, &mut buffer);
        let completed = endpoint.complete_and_carry_out(Some(result), &data[..sent], &mut memory, &mut log)?;
        let last = completed.records().len() - 1;
        let mut seen = true;
        for (index, record) in completed.records().enumerate() {
            if let Effect::Event { code, about } = record.effect {
                seen &= guest.event(code, about, index == last, &buffer, &data[..sent]).unwrap_or(true);
            }
        }
        spent += began.elapsed();
        match completed.outcome {
            Outcome::Ok if sent == FRAME => whole += 1,
            Outcome::Ok => short += 1,
            _ => stalled += 1,
        }
        if !seen || guest.told != Some(sent) {
            torn += 1;
        }
        if let Some(capture) = &mut capture {
            capture.frame(frame, result, &data[..sent])?;
        }
    }
    if let Some(capture) = &mut capture {
        capture.file.flush()?;
    }
    let rate = frames as f64 / spent.as_secs_f64();
    println!("{frames} frames of {FRAME} bytes: {whole} whole, {short} short, {stalled} stalled; {torn} torn");
    println!("{rate:.0} frames a second");
    Ok(())
}
