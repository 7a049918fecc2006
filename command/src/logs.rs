//! Stored logs: `compact` and `print`.

use crate::call::{Call, Failure};
use polvihe_hal::log::{self, Text};

/// Records that are printed at a time.
const RECORDS_AT_A_TIME: usize = 2048;

/// Writes the records that are kept of a log.
pub fn compact(call: &Call) -> Result<(), Failure> {
    let mut stored = call.read(0)?;
    let kept = log::compact(&mut stored)?;
    call.write(kept)
}

/// Writes a line for each record of a log.
pub fn print(call: &Call) -> Result<(), Failure> {
    let stored = call.read(0)?;
    let mut text = Text::of(&stored)?;
    let mut buffer = vec![0; RECORDS_AT_A_TIME * log::line_room()];
    let mut output = call.output()?;
    let mut progress = output.progress("printing", stored.len() as u64);
    while let Some(lines) = text.next_piece(&mut buffer)? {
        output.write_all(lines)?;
        progress.at(text.printed() as u64);
    }
    output.finish()
}
