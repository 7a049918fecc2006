//! Calls over capture files, for oracle/damage_captures: reads one after the other from standard input, makes each on the
//! proved functions, and writes its answer to standard output.
//!
//! A call is one letter, three lengths (file, second file, output buffer; 32 bits, little-endian) and the bytes of the files.
//! `c` converts, `m` merges. An answer is the number (one byte), the length that the product measures (64 bits) and the whole output
//! buffer, which every byte of was 0xAA before.

use polvihe_hal::capture;
use std::io::{self, BufReader, BufWriter, Read, Write};

fn main() -> io::Result<()> {
    let mut calls = BufReader::with_capacity(1 << 20, io::stdin().lock());
    let mut answers = BufWriter::with_capacity(1 << 20, io::stdout().lock());
    loop {
        let mut letter = [0; 1];
        if calls.read(&mut letter)? == 0 {
            return answers.flush();
        }
        let (first_length, second_length, room) = (length(&mut calls)?, length(&mut calls)?, length(&mut calls)?);
        let first = bytes(&mut calls, first_length)?;
        let second = bytes(&mut calls, second_length)?;
        let mut output = vec![0xAA; room];
        let (answer, measured) = match letter[0] {
            b'c' => (capture::convert(&first, &mut output), capture::converted_length(&first)),
            b'm' => (capture::merge(&first, &second, &mut output), capture::merged_length(&first, &second)),
            letter => return Err(io::Error::other(format!("no call: {letter}"))),
        };
        let number = answer.err().map_or(0, |refusal| refusal.number() as u8);
        answers.write_all(&[number])?;
        answers.write_all(&(measured.unwrap_or(0) as u64).to_le_bytes())?;
        answers.write_all(&output)?;
        if calls.buffer().is_empty() {
            answers.flush()?;
        }
    }
}

fn length(calls: &mut impl Read) -> io::Result<usize> {
    let mut bytes = [0; 4];
    calls.read_exact(&mut bytes)?;
    Ok(u32::from_le_bytes(bytes) as usize)
}

fn bytes(calls: &mut impl Read, count: usize) -> io::Result<Vec<u8>> {
    let mut bytes = vec![0; count];
    calls.read_exact(&mut bytes)?;
    Ok(bytes)
}
