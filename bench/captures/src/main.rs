//! Times writing, reading, converting and merging beside `memcpy` of the file made or read, in one run, and prints a table: nanoseconds for each record,
//! the best of the runs. The output buffer is touched before the first one.

use polvihe_hal::record::{self, Capture, Device, Event, InPipe, InStatus, Time};
use polvihe_hal::{capture as product, Refusal};
use std::hint::black_box;
use std::time::Instant;

const RUNS: usize = 25;

fn main() {
    println!("Nanoseconds for each record, the best of {RUNS} runs.\n");
    println!(
        "| Call | records | data of each | memcpy of the output | proved call | ratio |\n|---|---|---|---|---|---|"
    );
    for (records, payload) in [(16, 65536), (1000, 65536), (4578, 65536), (4000, 64)] {
        let data = data_of(payload);
        let completions = completions(records, &data);
        row("written, record by record", records, payload, &completions, |output| written(records, &data, output));
        row("read, record by record", records, payload, &completions, |_| read(&completions, records));
        let short = capture(189, records, payload, 0, 1);
        let long = capture(220, records, payload, 0, 1);
        row("189 to 220", records, payload, &long, |output| product::convert(&short, output));
        row("220 to 189", records, payload, &short, |output| product::convert(&long, output));
        let (even, odd) = (capture(189, records / 2, payload, 0, 2), capture(189, records / 2, payload, 1, 2));
        row("two merged, record by record", records, payload, &woven(&even, &odd, records / 2), |output| {
            product::merge(&even, &odd, output)
        });
    }
}

fn data_of(payload: usize) -> Vec<u8> {
    (0..payload).map(|i| (i * 11 + 5) as u8).collect()
}

const DEVICE: Device = Device { bus_number: 2, address: 5 };
const ENDPOINT: InPipe = InPipe { id: 3, interrupt: false };

/// A capture of bulk completions with these data, a second apart, written by the product.
fn written(records: usize, data: &[u8], output: &mut [u8]) -> Result<(), Refusal> {
    let mut end = record::write_file_header(output)?;
    for k in 0..records as u32 {
        let time = Time { seconds: k, microseconds: 7 };
        let event = Event::InCompletion { endpoint: ENDPOINT, id: k.into(), status: InStatus::Success, data };
        end += record::write_record(&mut output[end..], DEVICE, time, event)?;
    }
    Ok(())
}

/// The same file, byte by byte as document 02 has it.
fn completions(records: usize, data: &[u8]) -> Vec<u8> {
    let mut file = vec![0xD4, 0xC3, 0xB2, 0xA1, 2, 0, 4, 0, 0, 0, 0, 0, 0, 0, 0, 0, 0, 0, 0, 8, 189, 0, 0, 0];
    let (captured, length) = ((48 + data.len()) as u32, data.len() as u32);
    for k in 0..records as u32 {
        for number in [k, 7, captured, captured] {
            file.extend(number.to_le_bytes());
        }
        file.extend(u64::from(k).to_le_bytes());
        file.extend([b'C', 3, 0x81, 5, 2, 0, b'-', 0]);
        file.extend(u64::from(k).to_le_bytes());
        for number in [7, 0, length, length, 0, 0] {
            file.extend(number.to_le_bytes());
        }
        file.extend(data);
    }
    file
}

/// Every record read, with its payload in place.
fn read(file: &[u8], records: usize) -> Result<(), Refusal> {
    let delivered: usize = Capture::of(file)?.map(|record| black_box(record).payload.len()).sum();
    assert_eq!(file.len(), 24 + 64 * records + delivered);
    Ok(())
}

/// Two captures of so many records each, of equal sizes, taken in turn.
fn woven(first: &[u8], second: &[u8], records: usize) -> Vec<u8> {
    let size = (first.len() - 24) / records;
    let mut file = first[..24].to_vec();
    for k in 0..records {
        file.extend(&first[24 + k * size..][..size]);
        file.extend(&second[24 + k * size..][..size]);
    }
    file
}

/// One row: the call makes `made`, byte for byte, and is timed beside a copy of it.
fn row(name: &str, records: usize, payload: usize, made: &[u8], call: impl Fn(&mut [u8]) -> Result<(), Refusal>) {
    let mut output = vec![0xAA; made.len()];
    assert_eq!(call(&mut output), Ok(()), "{name}");
    assert!(output == made || name.starts_with("read"), "{name}: another file");
    let (mut copied, mut called) = (f64::MAX, f64::MAX);
    for _ in 0..RUNS {
        copied = copied.min(timed(records, || output.copy_from_slice(black_box(made))));
        called = called.min(timed(records, || assert_eq!(call(black_box(&mut output)), Ok(()))));
    }
    println!("| {name} | {records} | {payload} | {copied:.0} | {called:.0} | {:.2} |", called / copied);
}

fn timed(records: usize, work: impl FnOnce()) -> f64 {
    let start = Instant::now();
    work();
    start.elapsed().as_nanos() as f64 / records as f64
}

/// A capture of bulk records, `step` seconds apart from second `first` on.
fn capture(link: u32, records: usize, payload: usize, first: u32, step: u32) -> Vec<u8> {
    let added = if link == 220 { 16 } else { 0 };
    let captured = (48 + added + payload) as u32;
    let mut file = Vec::new();
    file.extend([0xD4, 0xC3, 0xB2, 0xA1, 2, 0, 4, 0, 0, 0, 0, 0, 0, 0, 0, 0]);
    file.extend(134217728u32.to_le_bytes());
    file.extend(link.to_le_bytes());
    for k in 0..records as u32 {
        let mut usbmon = [7; 48];
        usbmon[9] = 3;
        usbmon[36..40].copy_from_slice(&(payload as u32).to_le_bytes());
        file.extend((first + k * step).to_le_bytes());
        file.extend(k.to_le_bytes());
        file.extend(captured.to_le_bytes());
        file.extend(captured.to_le_bytes());
        file.extend(usbmon);
        file.resize(file.len() + added, 0);
        file.extend((0..payload).map(|i| (i as u32 * 11 + k) as u8));
    }
    file
}
