//! The control endpoint: the stages of a transfer are submitted, the device's answer completes it.

use crate::exported::{self, accepted};
use crate::{Completed, DeviceResult, EndpointId, GuestMemory, Refusal, SlotId, Submitted, Trb};

/// Where a guest expects the event of a failed control transfer.
#[derive(Clone, Copy, Debug, Default, PartialEq, Eq)]
pub enum GuestRelease {
    /// At the Setup Stage TRB.
    #[default]
    Four = 4,
    /// At the stage: the first Data Stage TRB held, failing that the first Status Stage TRB, failing that the Setup Stage TRB.
    Five = 5,
}

const BLOCK: usize = ControlEndpoint::BLOCK_LENGTH;

/// Where in the block the number of bytes collected stands, in 64 bits.
const COLLECTED: usize = 32;

/// A control endpoint. It owns its block and nothing else: log, collect buffer, guest memory and data are lent for a call.
///
/// ```
/// use polvihe_hal::{ControlEndpoint, DataStage, DeviceResult, Effect, EndpointId, GuestMemory, GuestRelease, Refusal, SetupStage, SlotId, StatusStage, Trb};
///
/// let mut log = vec![0; ControlEndpoint::LOG_LENGTH];
/// let mut collect = vec![0; ControlEndpoint::COLLECT_LENGTH];
/// let mut bytes = [0u8; 64];
/// let mut memory = GuestMemory::one(0x8000, &mut bytes);
/// let mut endpoint = ControlEndpoint::create(EndpointId(1), SlotId(2), GuestRelease::Five)?;
///
/// // A device descriptor is asked for: the Status TRB logs the request.
/// let setup = Trb::SetupStage(SetupStage { setup: [0x80, 6, 0, 1, 0, 0, 18, 0], ..SetupStage::default() });
/// let data = Trb::DataStage(DataStage { pointer: 0x8000, length: 18, direction: true, ..DataStage::default() });
/// let status = Trb::StatusStage(StatusStage { interrupt_on_completion: true, ..StatusStage::default() });
/// for (address, trb) in [(0x1000, setup), (0x1010, data)] {
///     endpoint.submit(address, trb, true, &memory, &mut collect, &mut log)?;
///     endpoint.complete(None, &[], &mut log)?;
/// }
/// let submitted = endpoint.submit(0x1020, status, true, &memory, &mut collect, &mut log)?;
/// let request = submitted.records().next().unwrap();
/// assert_eq!(request.effect, Effect::Request { address: 0x1000, length: 18, setup: [0x80, 6, 0, 1, 0, 0] });
///
/// let descriptor = [18; 18];
/// let completed = endpoint.complete(Some(DeviceResult::Success), &descriptor, &mut log)?;
/// memory.carry_out(completed.log, &descriptor)?;
/// assert_eq!(bytes[..18], descriptor);
/// # Ok::<(), Refusal>(())
/// ```
#[derive(Clone)]
pub struct ControlEndpoint {
    block: [u8; BLOCK],
}

impl ControlEndpoint {
    /// Bytes of its block.
    pub const BLOCK_LENGTH: usize = 12_336;

    /// Bytes that a lent log must have, or a call is refused with 1.
    pub const LOG_LENGTH: usize = 32_768;

    /// Bytes that the collect buffer must have, or a submission is refused with 1.
    pub const COLLECT_LENGTH: usize = 65_535;

    /// A fresh endpoint: it expects a Setup Stage TRB. Refused with 12 where an id is out of range.
    pub fn create(endpoint_id: EndpointId, slot_id: SlotId, release: GuestRelease) -> Result<Self, Refusal> {
        // SAFETY: it takes nothing.
        debug_assert_eq!(unsafe { exported::polvihe_control_block_length() }, BLOCK);
        let mut block = [0; BLOCK];
        // SAFETY: the pointer stands with the length of its array, which is lent for the call alone.
        accepted(unsafe {
            exported::polvihe_control_create(block.as_mut_ptr(), BLOCK, endpoint_id.0, slot_id.0, release as u8)
        })?;
        Ok(Self { block })
    }

    /// The endpoint whose block was stored. Any bytes are a block (`docs/CALLS.md` has its layout): one that is not sound is refused with 2
    /// at the next call.
    pub fn from_block(block: [u8; Self::BLOCK_LENGTH]) -> Self {
        Self { block }
    }

    /// The block, all that there is of the endpoint, to be stored.
    pub fn block(&self) -> &[u8; Self::BLOCK_LENGTH] {
        &self.block
    }

    /// How many bytes of an OUT transfer stand in the collect buffer: where its request is logged, these are what goes to the device.
    pub fn collected(&self) -> usize {
        let number = self.block[COLLECTED..COLLECTED + 8].try_into().expect("8 bytes");
        u64::from_le_bytes(number) as usize
    }

    /// Submits a TRB that stands at `address` on the ring. The last TRB of a transfer logs its request to the device. The bytes of an OUT
    /// transfer are collected in `collect`, behind those collected already: lend the same buffer until the transfer is complete.
    #[inline]
    pub fn submit<'l>(
        &mut self,
        address: u64,
        trb: Trb,
        cycle: bool,
        memory: &GuestMemory<'_>,
        collect: &mut [u8],
        log: &'l mut [u8],
    ) -> Result<Submitted<'l>, Refusal> {
        let numbers = trb.numbers(cycle);
        // SAFETY: each pointer stands with the length of its slice, lent for the call alone; what is written to is borrowed as `&mut`.
        let answered = unsafe {
            exported::polvihe_control_submit(
                log.as_mut_ptr(),
                log.len(),
                collect.as_mut_ptr(),
                collect.len(),
                self.block.as_mut_ptr(),
                BLOCK,
                numbers.kind,
                numbers.flags,
                address,
                numbers.value,
                numbers.transfer_length,
                memory.low.start_addr,
                memory.low.bytes.as_ptr(),
                memory.low.bytes.len(),
                memory.high.start_addr,
                memory.high.bytes.as_ptr(),
                memory.high.bytes.len(),
            )
        };
        Ok(Submitted::of(answered.count()?, log))
    }

    /// Submits the TRB that 16 bytes of the ring, at `address`, are.
    #[inline]
    pub fn submit_raw<'l>(
        &mut self,
        address: u64,
        raw: &[u8; 16],
        memory: &GuestMemory<'_>,
        collect: &mut [u8],
        log: &'l mut [u8],
    ) -> Result<Submitted<'l>, Refusal> {
        // SAFETY: each pointer stands with the length of its slice, lent for the call alone; what is written to is borrowed as `&mut`.
        let answered = unsafe {
            exported::polvihe_control_submit_raw(
                log.as_mut_ptr(),
                log.len(),
                collect.as_mut_ptr(),
                collect.len(),
                self.block.as_mut_ptr(),
                BLOCK,
                raw,
                address,
                memory.low.start_addr,
                memory.low.bytes.as_ptr(),
                memory.low.bytes.len(),
                memory.high.start_addr,
                memory.high.bytes.as_ptr(),
                memory.high.bytes.len(),
            )
        };
        Ok(Submitted::of(answered.count()?, log))
    }

    /// Completes what was submitted. A device result is given exactly where the last submission logged a request; `data` is what the
    /// device sent. Carry the log out before its events are shown to the guest.
    #[inline]
    pub fn complete<'l>(
        &mut self,
        result: Option<DeviceResult>,
        data: &[u8],
        log: &'l mut [u8],
    ) -> Result<Completed<'l>, Refusal> {
        // SAFETY: log and block are lent with their lengths, for the call alone. Of the data only its length is passed.
        let answered = unsafe {
            exported::polvihe_control_complete(
                log.as_mut_ptr(),
                log.len(),
                self.block.as_mut_ptr(),
                BLOCK,
                DeviceResult::number(result),
                data.len(),
            )
        };
        Completed::of(answered, log)
    }

    /// Changes nothing: what was submitted stays, and the call that was due is due. To cancel the transfer at the device is left to the caller.
    pub fn cancel(&mut self) {
        // SAFETY: the pointer stands with the length of its array, which the library neither writes to nor keeps.
        let number = unsafe { exported::polvihe_control_cancel(self.block.as_ptr(), BLOCK) };
        accepted(number).expect("a whole block is never refused");
    }
}

impl core::fmt::Debug for ControlEndpoint {
    fn fmt(&self, f: &mut core::fmt::Formatter<'_>) -> core::fmt::Result {
        f.debug_struct("ControlEndpoint").finish_non_exhaustive()
    }
}

#[cfg(test)]
mod tests {
    use super::*;
    use crate::SetupStage;

    const LOG: usize = ControlEndpoint::LOG_LENGTH;
    const COLLECT: usize = ControlEndpoint::COLLECT_LENGTH;
    const SHORT: Option<Refusal> = Some(Refusal::BufferTooShort);

    fn endpoint() -> ControlEndpoint {
        ControlEndpoint::create(EndpointId(1), SlotId(2), GuestRelease::Five).unwrap()
    }

    fn setup(first: u8) -> Trb {
        Trb::SetupStage(SetupStage { setup: [first, 9, 1, 0, 0, 0, 0, 0], ..SetupStage::default() })
    }

    #[test]
    fn log_and_collect_buffer_are_just_long_enough() {
        let (mut endpoint, memory) = (endpoint(), GuestMemory::default());
        let (mut log, mut collect) = ([0; LOG], [0; COLLECT]);
        let mut submit = |log_length: usize, length: usize| {
            endpoint.submit(0, setup(0), true, &memory, &mut collect[..length], &mut log[..log_length]).err()
        };
        assert_eq!((submit(LOG - 1, COLLECT), submit(LOG, COLLECT - 1), submit(LOG, COLLECT)), (SHORT, SHORT, None));
        let mut complete = |length: usize| endpoint.complete(None, &[], &mut log[..length]).err();
        assert_eq!((complete(LOG - 1), complete(LOG)), (SHORT, None));
    }

    #[test]
    fn the_block_is_just_long_enough() {
        let mut block = *endpoint().block();
        let (mut log, mut collect, raw) = ([0; LOG], [0; COLLECT], setup(0).encode(true).unwrap());
        let (log, collect, block) = (log.as_mut_ptr(), collect.as_mut_ptr(), block.as_mut_ptr());
        let none = [].as_ptr();
        let numbers = |length: usize| {
            // SAFETY: log, collect buffer and block have at least the lengths that stand with them; the regions are empty.
            unsafe {
                let create = || accepted(exported::polvihe_control_create(block, length, 1, 2, 4)).err();
                let complete = || exported::polvihe_control_complete(log, LOG, block, length, 255, 0).outcome().err();
                let lent = (log, LOG, collect, COLLECT, block);
                let (a, b, c, d, e) = lent;
                [
                    create(),
                    exported::polvihe_control_submit(a, b, c, d, e, length, 2, 0, 0, 0, 0, 0, none, 0, 0, none, 0)
                        .count()
                        .err(),
                    complete(),
                    exported::polvihe_control_submit_raw(a, b, c, d, e, length, &raw, 0, 0, none, 0, 0, none, 0)
                        .count()
                        .err(),
                    complete(),
                    accepted(exported::polvihe_control_cancel(block, length)).err(),
                ]
            }
        };
        assert_eq!(numbers(BLOCK - 1), [SHORT; 6]);
        assert_eq!(numbers(BLOCK), [None; 6]);
        // SAFETY: it takes nothing.
        assert_eq!(unsafe { exported::polvihe_control_block_length() }, BLOCK);
    }

    #[test]
    fn what_was_collected() {
        let mut bytes = [7; 100];
        let memory = GuestMemory::one(0x8000, &mut bytes);
        let (mut endpoint, mut log, mut collect) = (endpoint(), [0; LOG], [0; COLLECT]);
        let data = crate::DataStage { pointer: 0x8000, length: 100, ..Default::default() };
        let stages = [setup(0), Trb::DataStage(data), Trb::StatusStage(Default::default())];
        for (stage, collected) in stages.into_iter().zip([0, 100, 100]) {
            endpoint.submit(0, stage, true, &memory, &mut collect, &mut log).unwrap();
            assert_eq!(endpoint.collected(), collected);
            let result = (endpoint.block()[5] == 2).then_some(DeviceResult::SuccessOut);
            endpoint.complete(result, &[], &mut log).unwrap();
        }
        assert_eq!(collect[..101], [&[7; 100][..], &[0]].concat());
    }

    #[test]
    fn a_stored_block_goes_on() {
        let (mut endpoint, memory) = (endpoint(), GuestMemory::default());
        let (mut log, mut collect) = ([0; LOG], [0; COLLECT]);
        endpoint.submit(0x1000, Trb::Isoch, true, &memory, &mut collect, &mut log).unwrap();
        let before = endpoint.block;
        endpoint.cancel();
        assert_eq!(endpoint.block, before);
        let completed = ControlEndpoint::from_block(*endpoint.block()).complete(None, &[], &mut log).unwrap().outcome;
        assert_eq!(completed, crate::Outcome::TrbError);
        let mut zeros = ControlEndpoint::from_block([0; BLOCK]);
        assert_eq!(zeros.complete(None, &[], &mut log).unwrap_err(), Refusal::UnsoundBlock);
    }
}
