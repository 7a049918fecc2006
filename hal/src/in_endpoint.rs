//! The IN endpoint: TRBs are submitted, the device's answer completes the TD.

use crate::exported::{self, accepted, TrbNumbers};
use crate::{
    Completed, DeviceResult, EndpointId, GuestMemory, Refusal, RowCompleted, RowTrb, SlotId, Submitted, TdResult, Trb,
};

/// How an IN endpoint reports a transfer that failed after all its bytes had come.
#[derive(Clone, Copy, Debug, Default, PartialEq, Eq)]
pub enum Mode {
    /// As a good one: the engine as it was ported.
    #[default]
    AsPorted,
    /// By an event with the failure's code at the TD's last Normal TRB.
    Strict,
}

const BLOCK: usize = InEndpoint::BLOCK_LENGTH;

/// An IN endpoint. It owns its block and nothing else: log, guest memory and data are lent for a call.
///
/// ```
/// use polvihe_hal::{DeviceResult, Effect, EndpointId, GuestMemory, InEndpoint, Mode, Normal, Outcome, Refusal, SlotId, Trb};
///
/// let mut log = vec![0; InEndpoint::LOG_LENGTH];
/// let mut bytes = [0u8; 0x400];
/// let mut memory = GuestMemory::one(0x8000, &mut bytes);
/// let mut endpoint = InEndpoint::create(EndpointId(3), SlotId(2), Mode::AsPorted)?;
///
/// // A TD of one Normal TRB of 512 bytes: its request goes to the device.
/// let read = Trb::Normal(Normal { pointer: 0x8000, length: 512, interrupt_on_completion: true, ..Normal::default() });
/// let submitted = endpoint.submit(0x1000, read, true, &memory, &mut log)?;
/// let request = submitted.records().next().unwrap();
/// assert_eq!(request.effect, Effect::Request { address: 0x1000, length: 512, setup: [0; 6] });
///
/// // The device sends 512 bytes: first they are carried out, then the guest may see the event.
/// let data = [7; 512];
/// let completed = endpoint.complete(Some(DeviceResult::Success), &data, &mut log)?;
/// memory.carry_out(completed.log, &data)?;
/// assert_eq!((completed.outcome, completed.records().count()), (Outcome::Ok, 2));
/// assert_eq!(bytes[..512], data);
/// # Ok::<(), Refusal>(())
/// ```
#[derive(Clone)]
pub struct InEndpoint {
    block: [u8; BLOCK],
}

impl InEndpoint {
    /// Bytes of its block.
    pub const BLOCK_LENGTH: usize = 12_304;

    /// Bytes that a lent log must have, or a call is refused with 1.
    pub const LOG_LENGTH: usize = 32_768;

    /// Bytes that a log lent for a row must have.
    pub const ROW_LOG_LENGTH: usize = 49_152;

    /// A fresh endpoint: it holds nothing, and a submission is due. Refused with 12 where an id is out of range.
    pub fn create(endpoint_id: EndpointId, slot_id: SlotId, mode: Mode) -> Result<Self, Refusal> {
        // SAFETY: it takes nothing.
        debug_assert_eq!(unsafe { exported::polvihe_in_block_length() }, BLOCK);
        let mut block = [0; BLOCK];
        // SAFETY: the pointer stands with the length of its array, which is lent for the call alone.
        accepted(unsafe {
            exported::polvihe_in_create(block.as_mut_ptr(), BLOCK, endpoint_id.0, slot_id.0, mode as u8)
        })?;
        Ok(Self { block })
    }

    /// The endpoint whose block was stored. Any bytes are a block (`docs/CALLS.md` has its layout): one that is not sound is refused with 2
    /// at the next call.
    pub fn from_block(block: [u8; Self::BLOCK_LENGTH]) -> Self {
        Self { block }
    }

    /// The block, all that there is of the endpoint, to be stored.
    pub fn block(&self) -> &[u8; Self::BLOCK_LENGTH] {
        &self.block
    }

    /// Submits a TRB that stands at `address` on the ring. The last TRB of a TD logs its request to the device, if it has one.
    pub fn submit<'l>(
        &mut self,
        address: u64,
        trb: Trb,
        cycle: bool,
        memory: &GuestMemory<'_>,
        log: &'l mut [u8],
    ) -> Result<Submitted<'l>, Refusal> {
        self.submit_numbers(address, trb.numbers(cycle), memory, log)
    }

    /// Submits the TRB that 16 bytes of the ring, at `address`, are.
    pub fn submit_raw<'l>(
        &mut self,
        address: u64,
        raw: &[u8; 16],
        memory: &GuestMemory<'_>,
        log: &'l mut [u8],
    ) -> Result<Submitted<'l>, Refusal> {
        // SAFETY: the library neither writes to the 16 bytes nor keeps them.
        let numbers = unsafe { exported::polvihe_decode_trb(raw) };
        self.submit_numbers(address, numbers, memory, log)
    }

    fn submit_numbers<'l>(
        &mut self,
        address: u64,
        numbers: TrbNumbers,
        memory: &GuestMemory<'_>,
        log: &'l mut [u8],
    ) -> Result<Submitted<'l>, Refusal> {
        // SAFETY: log and block are lent with their lengths, for the call alone. Of guest memory only its place is passed.
        let answered = unsafe {
            exported::polvihe_in_submit(
                log.as_mut_ptr(),
                log.len(),
                self.block.as_mut_ptr(),
                BLOCK,
                numbers.kind,
                numbers.flags,
                address,
                numbers.value,
                numbers.transfer_length,
                memory.low.start_addr,
                memory.low.bytes.len(),
                memory.high.start_addr,
                memory.high.bytes.len(),
            )
        };
        Ok(Submitted::of(answered.count()?, log))
    }

    /// Completes what was submitted. A device result is given exactly where the last submission logged a request; `data` is what the
    /// device sent. The log has the writes and events in the order in which they take effect: carry the log out before its events are
    /// shown to the guest.
    pub fn complete<'l>(
        &mut self,
        result: Option<DeviceResult>,
        data: &[u8],
        log: &'l mut [u8],
    ) -> Result<Completed<'l>, Refusal> {
        // SAFETY: log and block are lent with their lengths, for the call alone. Of the data only its length is passed.
        let answered = unsafe {
            exported::polvihe_in_complete(
                log.as_mut_ptr(),
                log.len(),
                self.block.as_mut_ptr(),
                BLOCK,
                DeviceResult::number(result),
                data.len(),
            )
        };
        Completed::of(answered, log)
    }

    /// Completes what was submitted, as [`complete`](Self::complete) does, and carries the log out on guest memory. That every write lies in
    /// guest memory is asked last and before anything changes: where one does not, the call is refused with 11 (`WriteOutOfRange`) and
    /// endpoint, log and guest memory are as they were.
    ///
    /// Afterwards every event of the log may be shown to the guest, in the log's order: the device's bytes are at their places.
    ///
    /// ```
    /// use polvihe_hal::{DeviceResult, EndpointId, GuestMemory, InEndpoint, Mode, Normal, Outcome, Refusal, SlotId, Trb};
    ///
    /// let mut log = vec![0; InEndpoint::LOG_LENGTH];
    /// let mut bytes = [0u8; 0x400];
    /// let mut memory = GuestMemory::one(0x8000, &mut bytes);
    /// let mut endpoint = InEndpoint::create(EndpointId(3), SlotId(2), Mode::Strict)?;
    /// let read = Trb::Normal(Normal { pointer: 0x8000, length: 512, interrupt_on_short: true, ..Normal::default() });
    /// endpoint.submit(0x1000, read, true, &memory, &mut log)?;
    ///
    /// // Guest memory that has no place for the 300 bytes: nothing changes.
    /// let data = [7; 300];
    /// let refused = endpoint.complete_and_carry_out(Some(DeviceResult::Success), &data, &mut GuestMemory::default(), &mut log);
    /// assert_eq!(refused.unwrap_err(), Refusal::WriteOutOfRange);
    ///
    /// // A short frame: a write and an event, and the bytes are there.
    /// let completed = endpoint.complete_and_carry_out(Some(DeviceResult::Success), &data, &mut memory, &mut log)?;
    /// assert_eq!((completed.outcome, completed.records().count()), (Outcome::Ok, 2));
    /// assert_eq!(bytes[..300], data);
    /// assert_eq!(bytes[300..], [0; 0x400 - 300]);
    /// # Ok::<(), Refusal>(())
    /// ```
    pub fn complete_and_carry_out<'l>(
        &mut self,
        result: Option<DeviceResult>,
        data: &[u8],
        memory: &mut GuestMemory<'_>,
        log: &'l mut [u8],
    ) -> Result<Completed<'l>, Refusal> {
        let GuestMemory { low, high } = memory;
        // SAFETY: each pointer stands with the length of its slice, lent for the call alone; what is written to is borrowed as `&mut`.
        let answered = unsafe {
            exported::polvihe_in_complete_and_carry_out(
                log.as_mut_ptr(),
                log.len(),
                self.block.as_mut_ptr(),
                BLOCK,
                DeviceResult::number(result),
                data.as_ptr(),
                data.len(),
                low.start_addr,
                low.bytes.as_mut_ptr(),
                low.bytes.len(),
                high.start_addr,
                high.bytes.as_mut_ptr(),
                high.bytes.len(),
            )
        };
        Completed::of(answered, log)
    }

    /// Completes a row of whole TDs in one call, on an endpoint that holds nothing: `row` has their TRBs in order, `results` what the device
    /// gave for each TD, and `data` its bytes, joined. The log has each TD's request and completion, one behind the other, as single calls
    /// would log them; the starts of its writes count from the joined data's first byte. A TD that fails ends the row.
    ///
    /// ```
    /// use polvihe_hal::{DeviceResult, EndpointId, GuestMemory, InEndpoint, Mode, Normal, Outcome, Refusal, RowTrb, SlotId, TdResult, Trb};
    ///
    /// let mut log = vec![0; InEndpoint::ROW_LOG_LENGTH];
    /// let mut bytes = [0u8; 0x400];
    /// let mut memory = GuestMemory::one(0x8000, &mut bytes);
    /// let endpoint = InEndpoint::create(EndpointId(3), SlotId(2), Mode::AsPorted)?;
    ///
    /// // Two TDs of one Normal TRB each; the device sends 512 bytes for the first and 100 for the second.
    /// let read = |pointer| Trb::Normal(Normal { pointer, length: 512, interrupt_on_completion: true, ..Normal::default() });
    /// let row = [RowTrb::new(0x1000, read(0x8000), true), RowTrb::new(0x1010, read(0x8200), true)];
    /// let results = [TdResult::new(DeviceResult::Success, 512), TdResult::new(DeviceResult::Success, 100)];
    /// let data = [7; 612];
    /// let completed = endpoint.complete_row(&row, &results, &data, &memory, &mut log)?;
    /// assert_eq!((completed.outcome, completed.finished), (Outcome::Ok, 2));
    /// assert_eq!(completed.records().count(), 6); // a request, a write and an event for each
    /// memory.carry_out(completed.log, &data)?;
    /// assert_eq!(bytes[..612], data);
    /// # Ok::<(), Refusal>(())
    /// ```
    pub fn complete_row<'l>(
        &self,
        row: &[RowTrb],
        results: &[TdResult],
        data: &[u8],
        memory: &GuestMemory<'_>,
        log: &'l mut [u8],
    ) -> Result<RowCompleted<'l>, Refusal> {
        // SAFETY: log, block, row and results are lent with their lengths in bytes, for the call alone; the library writes to the log alone.
        // Of the data only its length is passed, of guest memory only its place.
        let answered = unsafe {
            exported::polvihe_in_complete_row(
                log.as_mut_ptr(),
                log.len(),
                self.block.as_ptr(),
                BLOCK,
                row.as_ptr().cast(),
                RowTrb::LENGTH * row.len(),
                results.as_ptr().cast(),
                TdResult::LENGTH * results.len(),
                data.len(),
                memory.low.start_addr,
                memory.low.bytes.len(),
                memory.high.start_addr,
                memory.high.bytes.len(),
            )
        };
        RowCompleted::of(answered, log)
    }

    /// Empties the endpoint: a submission is due.
    pub fn cancel(&mut self) {
        // SAFETY: the pointer stands with the length of its array, which is lent for the call alone.
        let number = unsafe { exported::polvihe_in_cancel(self.block.as_mut_ptr(), BLOCK) };
        accepted(number).expect("a whole block is never refused");
    }
}

impl core::fmt::Debug for InEndpoint {
    fn fmt(&self, f: &mut core::fmt::Formatter<'_>) -> core::fmt::Result {
        f.debug_struct("InEndpoint").finish_non_exhaustive()
    }
}

#[cfg(test)]
mod tests {
    use super::*;

    const LOG: usize = InEndpoint::LOG_LENGTH;

    fn endpoint() -> InEndpoint {
        InEndpoint::create(EndpointId(3), SlotId(2), Mode::Strict).unwrap()
    }

    #[test]
    fn refused_calls_change_nothing() {
        let mut endpoint = endpoint();
        let before = endpoint.block;
        let mut log = [0xaa; LOG];
        assert_eq!(endpoint.complete(None, &[], &mut log).unwrap_err(), Refusal::OutOfTurn);
        let memory = GuestMemory::default();
        assert_eq!(endpoint.submit(0, Trb::Isoch, true, &memory, &mut log[1..]).unwrap_err(), Refusal::BufferTooShort);
        assert_eq!((endpoint.block, log), (before, [0xaa; LOG]));
    }

    #[test]
    fn the_log_is_just_long_enough() {
        let (mut endpoint, memory) = (endpoint(), GuestMemory::default());
        let mut log = [0; LOG];
        let (short, just) = (LOG - 1, LOG);
        let mut submit = |length: usize| endpoint.submit(0, Trb::Isoch, true, &memory, &mut log[..length]).err();
        assert_eq!((submit(short), submit(just)), (Some(Refusal::BufferTooShort), None));
        let mut complete = |length: usize| endpoint.complete(None, &[], &mut log[..length]).err();
        assert_eq!((complete(short), complete(just)), (Some(Refusal::BufferTooShort), None));
    }

    #[test]
    fn the_block_is_just_long_enough() {
        let mut block = *endpoint().block();
        let mut log = [0; LOG];
        let (log, block) = (log.as_mut_ptr(), block.as_mut_ptr());
        // SAFETY: log and block have at least the lengths that stand with them.
        let numbers = |length: usize| unsafe {
            [
                accepted(exported::polvihe_in_create(block, length, 3, 2, 0)).err(),
                exported::polvihe_in_submit(log, LOG, block, length, 8, 0, 0, 0, 0, 0, 0, 0, 0).count().err(),
                exported::polvihe_in_complete(log, LOG, block, length, 255, 0).outcome().err(),
                accepted(exported::polvihe_in_cancel(block, length)).err(),
            ]
        };
        assert_eq!(numbers(BLOCK - 1), [Some(Refusal::BufferTooShort); 4]);
        assert_eq!(numbers(BLOCK), [None; 4]);
        // SAFETY: it takes nothing.
        assert_eq!(unsafe { exported::polvihe_in_block_length() }, BLOCK);
    }

    #[test]
    fn a_stored_block_goes_on() {
        let (mut endpoint, memory) = (endpoint(), GuestMemory::default());
        let mut log = [0; LOG];
        endpoint.submit(0x1000, Trb::Isoch, true, &memory, &mut log).unwrap();
        let mut restored = InEndpoint::from_block(*endpoint.block());
        let completed = restored.complete(None, &[], &mut log).unwrap();
        assert_eq!((completed.outcome, completed.records().count()), (crate::Outcome::TrbError, 1));
        let mut zeros = InEndpoint::from_block([0; BLOCK]);
        assert_eq!(zeros.complete(None, &[], &mut log).unwrap_err(), Refusal::UnsoundBlock);
    }

    #[test]
    fn a_frame_is_carried_out_whole_or_not_at_all() {
        let mut endpoint = InEndpoint::create(EndpointId(3), SlotId(2), Mode::Strict).unwrap();
        let mut log = [0xaa; InEndpoint::LOG_LENGTH];
        let mut bytes = [0x55; 64];
        let memory = GuestMemory::one(0x8000, &mut bytes);
        for (address, pointer) in [(0x1000, 0x8000), (0x1010, 0x8020)] {
            let chain = address == 0x1000;
            let read = Trb::Normal(crate::Normal { pointer, length: 32, chain, ..Default::default() });
            endpoint.submit(address, read, true, &memory, &mut log).unwrap();
            if chain {
                endpoint.complete(None, &[], &mut log).unwrap();
            }
        }
        // The second Normal's bytes have no place in the shorter memory: none of the first's is written either.
        let (before, log_before) = (endpoint.block, log);
        let success = Some(DeviceResult::Success);
        let mut shorter = GuestMemory::one(0x8000, &mut bytes[..63]);
        let refused = endpoint.complete_and_carry_out(success, &[7; 64], &mut shorter, &mut log);
        assert_eq!(refused.unwrap_err(), Refusal::WriteOutOfRange);
        assert_eq!((endpoint.block, log, bytes), (before, log_before, [0x55; 64]));
        // Regions that share an address: 13 ahead of 3.
        let (mut one, mut other) = ([0; 8], [0; 8]);
        let mut shared = GuestMemory::two(crate::Region::new(0, &mut one), crate::Region::new(7, &mut other));
        let refused = endpoint.complete_and_carry_out(None, &[], &mut shared, &mut log);
        assert_eq!(refused.unwrap_err(), Refusal::RegionsOverlap);
        let mut memory = GuestMemory::one(0x8000, &mut bytes);
        let completed = endpoint.complete_and_carry_out(success, &[7; 63], &mut memory, &mut log).unwrap();
        assert_eq!(completed.records().count(), 2);
        assert_eq!((bytes[..63] == [7; 63], bytes[63]), (true, 0x55));
    }
}
