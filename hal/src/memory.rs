//! Guest memory in two regions, and a log carried out on it.

use crate::exported::{self, accepted};
use crate::Refusal;

/// A region of guest memory: the guest address of its first byte, and its bytes.
#[derive(Debug)]
pub struct Region<'m> {
    /// The guest address of the first byte.
    pub start_addr: u64,
    /// The bytes, lent.
    pub bytes: &'m mut [u8],
}

impl<'m> Region<'m> {
    /// A region from a guest address on.
    pub fn new(start_addr: u64, bytes: &'m mut [u8]) -> Self {
        Self { start_addr, bytes }
    }
}

impl Default for Region<'_> {
    /// An empty region, which shares an address with no other.
    fn default() -> Self {
        Self { start_addr: 0, bytes: &mut [] }
    }
}

/// Guest memory: two regions, in any order, either of which may be empty. Every call that takes it asks that they share no address
/// (question 13).
#[derive(Debug, Default)]
pub struct GuestMemory<'m> {
    /// One region.
    pub low: Region<'m>,
    /// The other.
    pub high: Region<'m>,
}

impl<'m> GuestMemory<'m> {
    /// Guest memory in one region.
    pub fn one(start_addr: u64, bytes: &'m mut [u8]) -> Self {
        Self { low: Region::new(start_addr, bytes), high: Region::default() }
    }

    /// Guest memory in two regions.
    pub fn two(low: Region<'m>, high: Region<'m>) -> Self {
        Self { low, high }
    }

    /// Performs the writes of a log in its order: each puts bytes of the device's data to its guest address. Refused with 13, 10 or 11
    /// (`RegionsOverlap`, `MalformedLog`, `WriteOutOfRange`), guest memory being unchanged then.
    ///
    /// The log's order is the order of effect: the events that follow a write may be shown to the guest once the write is carried out.
    ///
    /// ```
    /// use polvihe_hal::{GuestMemory, Refusal};
    ///
    /// let mut log = [0u8; 32];
    /// log[0] = 1; // a write
    /// log[8..10].copy_from_slice(&0x8002u16.to_le_bytes());
    /// log[16] = 3; // of three bytes, from the data's start
    /// let mut bytes = [0u8; 8];
    /// GuestMemory::one(0x8000, &mut bytes).carry_out(&log, b"abcd")?;
    /// assert_eq!(bytes, *b"\0\0abc\0\0\0");
    /// let refused = GuestMemory::one(0x8000, &mut bytes[..4]).carry_out(&log, b"abcd");
    /// assert_eq!(refused, Err(Refusal::WriteOutOfRange));
    /// # Ok::<(), Refusal>(())
    /// ```
    pub fn carry_out(&mut self, log: &[u8], data: &[u8]) -> Result<(), Refusal> {
        let Self { low, high } = self;
        // SAFETY: each pointer stands with the length of its slice, lent for the call alone; what is written to is borrowed as `&mut`.
        accepted(unsafe {
            exported::polvihe_carry_out(
                log.as_ptr(),
                log.len(),
                data.as_ptr(),
                data.len(),
                low.start_addr,
                low.bytes.as_mut_ptr(),
                low.bytes.len(),
                high.start_addr,
                high.bytes.as_mut_ptr(),
                high.bytes.len(),
            )
        })
    }
}
