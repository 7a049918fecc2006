//! Captures: pcap files of link type 189 or 220, converted from one to the other, and two made one.

use crate::exported::{self, accepted};
use crate::Refusal;

/// The length that a capture has once it is converted. Refused with 17 where the input is no capture, with 18 where a record cannot
/// be converted.
pub fn converted_length(input: &[u8]) -> Result<usize, Refusal> {
    // SAFETY: the pointer stands with the length of its slice, and the library neither writes to it nor keeps it.
    let length = unsafe { exported::polvihe_converted_length(input.as_ptr(), input.len()) };
    if length == 0 {
        // What is refused has no length, and a file is never empty: an output of 0 bytes is asked for to learn why.
        convert(input, &mut [])?;
    }
    Ok(length)
}

/// Converts a capture from link type 189 to 220 or back, into the start of `output`, of which `converted_length(input)` bytes are the
/// file then. Refused with 17, 18 or, where `output` is too short, 14; `output` is unchanged then.
///
/// ```
/// use polvihe_hal::{capture, Refusal};
///
/// // A file header and no record: pcap 2.4, link type 189.
/// let mut old = vec![0xd4, 0xc3, 0xb2, 0xa1, 2, 0, 4, 0];
/// old.extend([0; 12]);
/// old.extend([189, 0, 0, 0]);
/// let mut new = vec![0; capture::converted_length(&old)?];
/// capture::convert(&old, &mut new)?;
/// assert_eq!((new.len(), new[20]), (24, 220));
/// assert_eq!(capture::convert(&old, &mut new[1..]), Err(Refusal::OutputTooShort));
/// assert_eq!(capture::converted_length(&old[1..]), Err(Refusal::NotACapture));
/// # Ok::<(), Refusal>(())
/// ```
pub fn convert(input: &[u8], output: &mut [u8]) -> Result<(), Refusal> {
    // SAFETY: each pointer stands with the length of its slice, lent for the call alone; `output` cannot share bytes with `input`.
    let number = unsafe { exported::polvihe_convert(input.as_ptr(), input.len(), output.as_mut_ptr(), output.len()) };
    accepted(number.into())
}

/// The length of two captures made one. Refused with 17 where one of them is no capture, with 19 where their link types differ, with
/// 20 where the times of one go backwards.
pub fn merged_length(first: &[u8], second: &[u8]) -> Result<usize, Refusal> {
    // SAFETY: each pointer stands with the length of its slice, and the library neither writes to it nor keeps it.
    let length = unsafe { exported::polvihe_merged_length(first.as_ptr(), first.len(), second.as_ptr(), second.len()) };
    if length == 0 {
        // As for converting: what is refused has no length, and a file is never empty.
        merge(first, second, &mut [])?;
    }
    Ok(length)
}

/// Makes two captures one, ordered by time, into the start of `output`, of which `merged_length(first, second)` bytes are the file then.
/// At equal times the first capture's records come first. Refused with 17, 19, 20 or, where `output` is too short, 14; `output` is unchanged
/// then.
///
/// ```
/// use polvihe_hal::{capture, Refusal};
///
/// // File headers and no records: pcap 2.4, link type 189, and a snap length.
/// let header = |snap: u8| {
///     let mut file = vec![0xd4, 0xc3, 0xb2, 0xa1, 2, 0, 4, 0];
///     file.extend([0, 0, 0, 0, 0, 0, 0, 0, snap, 0, 0, 0, 189, 0, 0, 0]);
///     file
/// };
/// let (first, second) = (header(100), header(200));
/// let mut one = vec![0; capture::merged_length(&first, &second)?];
/// capture::merge(&first, &second, &mut one)?;
/// assert_eq!(one, second); // the larger snap length
/// let mut other_link = second.clone();
/// other_link[20] = 220;
/// assert_eq!(capture::merged_length(&first, &other_link), Err(Refusal::LinkTypesDiffer));
/// assert_eq!(capture::merge(&first, &second, &mut one[1..]), Err(Refusal::OutputTooShort));
/// # Ok::<(), Refusal>(())
/// ```
pub fn merge(first: &[u8], second: &[u8], output: &mut [u8]) -> Result<(), Refusal> {
    // SAFETY: each pointer stands with the length of its slice, lent for the call alone; `output` shares no bytes with the others.
    let number = unsafe {
        exported::polvihe_merge(
            first.as_ptr(),
            first.len(),
            second.as_ptr(),
            second.len(),
            output.as_mut_ptr(),
            output.len(),
        )
    };
    accepted(number.into())
}
