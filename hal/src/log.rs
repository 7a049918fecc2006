//! Stored logs, of any length: checked, compacted, printed.

use crate::exported::{self, accepted};
use crate::Refusal;

pub use crate::RECORD_LENGTH;

/// Question 10: is the log a multiple of 32 bytes with every kind 1, 2 or 3?
///
/// ```
/// use polvihe_hal::{log, Refusal};
///
/// assert_eq!(log::check(&[]), Ok(()));
/// assert_eq!(log::check(&[1; 33]), Err(Refusal::MalformedLog));
/// assert_eq!(log::check(&[4; 32]), Err(Refusal::MalformedLog));
/// ```
pub fn check(log: &[u8]) -> Result<(), Refusal> {
    // SAFETY: the pointer stands with the length of its slice, and the library neither writes to it nor keeps it.
    accepted(unsafe { exported::polvihe_check_log(log.as_ptr(), log.len()) })
}

/// Compacts a log in its own buffer and gives the records kept; the bytes behind them are zeroed. A malformed log is refused with
/// 10, unchanged.
///
/// Writes of 0 bytes are dropped, then a write that goes on where the one before it ends is joined to it. Carrying out what is kept
/// does what carrying out the log does.
///
/// ```
/// use polvihe_hal::{log, Refusal};
///
/// // Two writes: 512 bytes to 8000 from the data's start, 88 bytes to 8200 from its byte 512.
/// let write = |address: u16, length: u16, start: u16| {
///     let mut record = [0u8; log::RECORD_LENGTH];
///     record[0] = 1;
///     record[8..10].copy_from_slice(&address.to_le_bytes());
///     record[16..18].copy_from_slice(&length.to_le_bytes());
///     record[20..22].copy_from_slice(&start.to_le_bytes());
///     record
/// };
/// let mut stored = [write(0x8000, 512, 0), write(0x8200, 88, 512)].concat();
/// assert_eq!(log::compact(&mut stored)?, write(0x8000, 600, 0));
/// assert_eq!(stored[log::RECORD_LENGTH..], [0; log::RECORD_LENGTH]);
/// # Ok::<(), Refusal>(())
/// ```
pub fn compact(log: &mut [u8]) -> Result<&mut [u8], Refusal> {
    // SAFETY: the pointer stands with the length of its slice, which is lent for the call alone.
    let kept = unsafe { exported::polvihe_compact(log.as_mut_ptr(), log.len()) }.count()?;
    Ok(&mut log[..RECORD_LENGTH * kept])
}

/// Characters that the line of a record takes at most.
pub fn line_room() -> usize {
    // SAFETY: it takes nothing.
    unsafe { exported::polvihe_line_room() }
}

/// Writes a line for each record to the start of `text` and gives these lines, in ASCII. `records` is a log, or whole records of one.
///
/// Refused with 1 where `text` has no room for `line_room()` characters a record, with 10 where the records are malformed; `text` is
/// unchanged then.
///
/// ```
/// use polvihe_hal::{log, Refusal};
///
/// let mut event = [0u8; log::RECORD_LENGTH];
/// event[..5].copy_from_slice(&[2, 13, 0, 3, 2]);
/// let mut text = vec![0; log::line_room()];
/// assert_eq!(log::print(&event, &mut text)?, b"2 13 0 3 2 0 0 0 0000000000000000\n");
/// assert_eq!(log::print(&event, &mut text[1..]), Err(Refusal::BufferTooShort));
/// # Ok::<(), Refusal>(())
/// ```
pub fn print<'t>(records: &[u8], text: &'t mut [u8]) -> Result<&'t [u8], Refusal> {
    // SAFETY: each pointer stands with the length of its slice, lent for the call alone; `text` cannot share bytes with `records`.
    let printed =
        unsafe { exported::polvihe_print(records.as_ptr(), records.len(), text.as_mut_ptr(), text.len()) }.count()?;
    Ok(&text[..printed])
}

/// The text of a log, piece by piece, in a buffer of any length from `line_room()` on. Question 10 is asked of the whole log first.
///
/// ```
/// use polvihe_hal::log::{self, Text};
/// use polvihe_hal::Refusal;
///
/// let stored = [3u8; 3 * log::RECORD_LENGTH];
/// let mut buffer = vec![0; 2 * log::line_room()];
/// let mut text = Text::of(&stored)?;
/// let mut lines = 0;
/// while let Some(piece) = text.next_piece(&mut buffer)? {
///     lines += piece.split_inclusive(|&byte| byte == b'\n').count();
/// }
/// assert_eq!((lines, text.printed()), (3, stored.len()));
/// # Ok::<(), Refusal>(())
/// ```
#[derive(Clone, Debug)]
pub struct Text<'l> {
    log: &'l [u8],
    printed: usize,
}

impl<'l> Text<'l> {
    /// The text of a log that is well formed; any other is refused with 10.
    pub fn of(log: &'l [u8]) -> Result<Self, Refusal> {
        check(log)?;
        Ok(Self { log, printed: 0 })
    }

    /// The lines of as many further records as the buffer has room for; none behind the last record. A buffer without room for a
    /// line is refused with 1.
    pub fn next_piece<'t>(&mut self, buffer: &'t mut [u8]) -> Result<Option<&'t [u8]>, Refusal> {
        let rest = &self.log[self.printed..];
        if rest.is_empty() {
            return Ok(None);
        }
        let records = (buffer.len() / line_room()).max(1);
        let piece = &rest[..rest.len().min(records.saturating_mul(RECORD_LENGTH))];
        let lines = print(piece, buffer)?;
        self.printed += piece.len();
        Ok(Some(lines))
    }

    /// Bytes of the log whose lines were given.
    pub fn printed(&self) -> usize {
        self.printed
    }
}

/// The whole text of a log.
///
/// ```
/// use polvihe_hal::{log, Refusal};
///
/// assert_eq!(log::text(&[]), Ok(String::new()));
/// assert_eq!(log::text(&[1]), Err(Refusal::MalformedLog));
/// ```
#[cfg(feature = "std")]
pub fn text(log: &[u8]) -> Result<std::string::String, Refusal> {
    check(log)?;
    let mut buffer = std::vec![0; log.len() / RECORD_LENGTH * line_room()];
    let lines = print(log, &mut buffer)?.len();
    buffer.truncate(lines);
    Ok(std::string::String::from_utf8(buffer).expect("a line is ASCII"))
}

#[cfg(test)]
mod tests {
    use super::*;

    #[test]
    fn a_record_has_32_bytes() {
        assert_eq!(check(&[1; RECORD_LENGTH]), Ok(()));
        assert_eq!(check(&[1; RECORD_LENGTH - 1]), Err(Refusal::MalformedLog));
        assert_eq!(check(&[1; RECORD_LENGTH + 1]), Err(Refusal::MalformedLog));
    }

    #[test]
    fn a_refused_log_is_unchanged() {
        let mut log = [1; RECORD_LENGTH + 1];
        assert_eq!(compact(&mut log), Err(Refusal::MalformedLog));
        assert_eq!(log, [1; RECORD_LENGTH + 1]);
    }

    #[test]
    fn pieces_joined_are_the_text() {
        let log: std::vec::Vec<u8> =
            (0..100 * RECORD_LENGTH).map(|at| if at % 32 == 0 { 1 } else { at as u8 }).collect();
        let whole = text(&log).unwrap();
        for lines in [1, 2, 3, 99, 100, 101] {
            let mut buffer = std::vec![0; lines * line_room() + 1];
            let mut joined = std::vec::Vec::new();
            let mut pieces = Text::of(&log).unwrap();
            while let Some(piece) = pieces.next_piece(&mut buffer).unwrap() {
                joined.extend_from_slice(piece);
            }
            assert_eq!(joined, whole.as_bytes());
        }
        assert_eq!(Text::of(&log).unwrap().next_piece(&mut [0; 1]), Err(Refusal::BufferTooShort));
    }
}
