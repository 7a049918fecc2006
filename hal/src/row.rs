//! A row of whole TDs on an IN endpoint: its TRBs, what the device gave for each TD, and what the call answers. The layouts are those of
//! `crates/row_bytes/specs/Layout.antt`.

use crate::exported::RowAnswered;
use crate::{DeviceResult, Outcome, Records, Refusal, Trb, RECORD_LENGTH};

/// A TRB of a row, with its address on the ring.
#[derive(Clone, Copy, Debug, PartialEq, Eq)]
#[repr(transparent)]
pub struct RowTrb([u8; RowTrb::LENGTH]);

impl RowTrb {
    pub(crate) const LENGTH: usize = 24;

    /// A TRB that stands at `address` on the ring.
    pub fn new(address: u64, trb: Trb, cycle: bool) -> Self {
        let numbers = trb.numbers(cycle);
        let mut bytes = [0; Self::LENGTH];
        bytes[..8].copy_from_slice(&address.to_le_bytes());
        bytes[8..16].copy_from_slice(&numbers.value.to_le_bytes());
        bytes[16..20].copy_from_slice(&numbers.transfer_length.to_le_bytes());
        bytes[20] = numbers.kind;
        bytes[21] = numbers.flags;
        Self(bytes)
    }

    /// The TRB that 16 bytes of the ring, at `address`, are.
    pub fn raw(address: u64, raw: &[u8; 16]) -> Self {
        let (trb, cycle) = Trb::decode(raw);
        Self::new(address, trb, cycle)
    }
}

/// What the device gave for a TD of a row: its answer, and so many bytes of the joined data.
#[derive(Clone, Copy, Debug, PartialEq, Eq)]
#[repr(transparent)]
pub struct TdResult([u8; TdResult::LENGTH]);

impl TdResult {
    pub(crate) const LENGTH: usize = 8;

    /// Of a TD without a Normal TRB, for which the device is not asked: any other result is refused with 15.
    pub const NOT_ASKED: Self = Self([0; Self::LENGTH]);

    /// What the device answered, and how many bytes it sent. `SuccessOut`, which no IN device answers, counts as a transaction error.
    pub fn new(result: DeviceResult, length: u32) -> Self {
        let mut bytes = [0; Self::LENGTH];
        bytes[0] = DeviceResult::number(Some(result));
        bytes[4..].copy_from_slice(&length.to_le_bytes());
        Self(bytes)
    }
}

/// An accepted row: the part of the lent log that it wrote, and how far it came.
#[derive(Clone, Copy, Debug)]
pub struct RowCompleted<'l> {
    /// The records' bytes: the logs of the TDs that were started, one behind the other.
    pub log: &'l [u8],
    /// How the TD that failed ended, else `Ok`.
    pub outcome: Outcome,
    /// TDs that were finished well. Those behind one that failed were not started.
    pub finished: usize,
}

impl<'l> RowCompleted<'l> {
    pub(crate) fn of(answered: RowAnswered, log: &'l [u8]) -> Result<Self, Refusal> {
        let (records, finished, outcome) = answered.outcome()?;
        Ok(Self { log: &log[..RECORD_LENGTH * records], outcome, finished })
    }

    /// The records that it logged.
    pub fn records(&self) -> Records<'l> {
        Records::of(self.log)
    }
}

#[cfg(all(test, feature = "std"))]
mod tests {
    use super::*;
    use crate::{EndpointId, EventData, GuestMemory, InEndpoint, Mode, NoOp, Normal, SlotId};
    use std::vec;
    use std::vec::Vec;

    /// Numbers from a seed.
    struct Numbers(u64);

    impl Numbers {
        fn below(&mut self, limit: u64) -> u64 {
            self.0 ^= self.0 << 13;
            self.0 ^= self.0 >> 7;
            self.0 ^= self.0 << 17;
            self.0 % limit
        }

        fn on(&mut self) -> bool {
            self.below(2) == 1
        }

        /// Now and then one that no call takes: outside guest memory, too long, with immediate data.
        fn normal(&mut self, chain: bool) -> Trb {
            Trb::Normal(Normal {
                pointer: if self.below(200) == 0 { 0x7fff } else { 0x8000 + self.below(64) },
                length: if self.below(200) == 0 { 131_072 } else { self.below(65) as u32 },
                chain,
                interrupt_on_completion: self.on(),
                interrupt_on_short: self.on(),
                immediate_data: self.below(200) == 0,
            })
        }

        fn trb(&mut self, chain: bool) -> Trb {
            match self.below(4) {
                0 => Trb::EventData(EventData { value: self.0, chain, interrupt_on_completion: self.on() }),
                1 => Trb::NoOp(NoOp { chain, interrupt_on_completion: self.on() }),
                _ => self.normal(chain),
            }
        }
    }

    /// A TD: its TRBs, each with its address and cycle bit, and what the device gives for it.
    struct Td {
        trbs: Vec<(u64, Trb, bool)>,
        given: Option<(DeviceResult, u32)>,
    }

    fn td(numbers: &mut Numbers) -> Td {
        let count = 1 + numbers.below(5);
        let trbs: Vec<_> =
            (0..count).map(|i| (0x1000 + 16 * numbers.below(64), numbers.trb(i + 1 < count), numbers.on())).collect();
        let asked = trbs.iter().any(|(_, trb, _)| matches!(trb, Trb::Normal(_)));
        let result = match numbers.below(24) {
            0 => DeviceResult::Stall,
            1 => DeviceResult::TransactionError,
            2 => DeviceResult::Disconnect,
            _ => DeviceResult::Success,
        };
        Td { trbs, given: asked.then(|| (result, numbers.below(300) as u32)) }
    }

    /// The records of a log with the starts of its writes moved.
    fn moved(log: &[u8], by: u32) -> Vec<u8> {
        let mut log = log.to_vec();
        for record in log.chunks_exact_mut(RECORD_LENGTH).filter(|record| record[0] == 1) {
            let start = u32::from_le_bytes(record[20..24].try_into().unwrap());
            record[20..24].copy_from_slice(&(start + by).to_le_bytes());
        }
        log
    }

    type Came = Result<(Vec<u8>, Outcome, usize), Refusal>;

    /// The row by single calls: each TRB is submitted and its completion asked for, until a TD does not end well.
    fn single_calls(endpoint: &mut InEndpoint, tds: &[Td], memory: &GuestMemory<'_>) -> Came {
        let (mut joined, mut start) = (Vec::new(), 0);
        let mut log = vec![0; InEndpoint::LOG_LENGTH];
        for (finished, td) in tds.iter().enumerate() {
            for (i, &(address, trb, cycle)) in td.trbs.iter().enumerate() {
                let submitted = endpoint.submit(address, trb, cycle, memory, &mut log)?;
                joined.extend(moved(submitted.log, start));
                let given = td.given.filter(|_| i + 1 == td.trbs.len());
                let data = vec![0; given.map_or(0, |(_, length)| length as usize)];
                let completed = endpoint.complete(given.map(|(result, _)| result), &data, &mut log)?;
                joined.extend(moved(completed.log, start));
                if completed.outcome != Outcome::Ok {
                    return Ok((joined, completed.outcome, finished));
                }
            }
            start += td.given.map_or(0, |(_, length)| length);
        }
        Ok((joined, Outcome::Ok, tds.len()))
    }

    fn row(endpoint: &InEndpoint, tds: &[Td], memory: &GuestMemory<'_>) -> Came {
        let trbs: Vec<_> =
            tds.iter().flat_map(|td| &td.trbs).map(|&(a, trb, cycle)| RowTrb::new(a, trb, cycle)).collect();
        let results: Vec<_> = tds
            .iter()
            .map(|td| td.given.map_or(TdResult::NOT_ASKED, |(result, length)| TdResult::new(result, length)))
            .collect();
        let data = vec![0; tds.iter().filter_map(|td| td.given).map(|(_, length)| length as usize).sum()];
        let mut log = vec![0; InEndpoint::ROW_LOG_LENGTH];
        let completed = endpoint.complete_row(&trbs, &results, &data, memory, &mut log)?;
        Ok((completed.log.to_vec(), completed.outcome, completed.finished))
    }

    #[test]
    fn a_row_is_its_single_calls() {
        let mut numbers = Numbers(0x9e37_79b9_7f4a_7c15);
        let mut bytes = [0; 128];
        let memory = GuestMemory::one(0x8000, &mut bytes);
        let (mut accepted, mut failed, mut refused) = (0, 0, 0);
        for _ in 0..4000 {
            let mode = if numbers.on() { Mode::Strict } else { Mode::AsPorted };
            let tds: Vec<_> = (0..numbers.below(13)).map(|_| td(&mut numbers)).collect();
            let mut endpoint = InEndpoint::create(EndpointId(3), SlotId(2), mode).unwrap();
            let whole = row(&endpoint, &tds, &memory);
            match &whole {
                // A row is asked whole: the device's answers do not keep a TRB from being looked at.
                Err(refusal) => {
                    let good: Vec<_> = tds
                        .into_iter()
                        .map(|td| Td { given: td.given.map(|(_, length)| (DeviceResult::Success, length)), ..td })
                        .collect();
                    assert_eq!(single_calls(&mut endpoint, &good, &memory), Err(*refusal));
                    refused += 1;
                }
                Ok((_, outcome, _)) => {
                    assert_eq!(single_calls(&mut endpoint, &tds, &memory), whole);
                    accepted += usize::from(*outcome == Outcome::Ok);
                    failed += usize::from(*outcome != Outcome::Ok);
                }
            }
        }
        assert!(accepted > 400 && failed > 400 && refused > 400, "{accepted} {failed} {refused}");
    }

    #[test]
    fn refused_rows() {
        let endpoint = InEndpoint::create(EndpointId(3), SlotId(2), Mode::AsPorted).unwrap();
        let mut log = vec![0xaa; InEndpoint::ROW_LOG_LENGTH];
        let no_op = |chain| RowTrb::new(0x1000, Trb::NoOp(NoOp { chain, interrupt_on_completion: false }), true);
        let memory = GuestMemory::default();
        let mut asked = |trbs: &[RowTrb], results: &[TdResult], room: usize| {
            endpoint.complete_row(trbs, results, &[], &memory, &mut log[..room]).map(|completed| completed.finished)
        };
        let all = InEndpoint::ROW_LOG_LENGTH;
        assert_eq!(asked(&[], &[], all), Ok(0));
        assert_eq!(asked(&[], &[], all - 1), Err(Refusal::BufferTooShort));
        assert_eq!(asked(&[no_op(false); 512], &[TdResult::NOT_ASKED; 512], all), Ok(512));
        assert_eq!(asked(&[no_op(false); 513], &[TdResult::NOT_ASKED; 513], all), Err(Refusal::MalformedRow));
        assert_eq!(asked(&[no_op(true)], &[TdResult::NOT_ASKED], all), Err(Refusal::MalformedRow));
        assert_eq!(asked(&[no_op(false)], &[], all), Err(Refusal::MalformedRow));
        assert_eq!(asked(&[no_op(false)], &[TdResult::new(DeviceResult::Stall, 0)], all), Err(Refusal::MalformedRow));
        assert_eq!(asked(&[RowTrb::new(0, Trb::Isoch, true)], &[TdResult::NOT_ASKED], all), Err(Refusal::MalformedRow));
        assert!(log.iter().all(|&byte| byte == 0xaa));
        // One byte more than a row can take, and just as many: the questions are asked of its length alone.
        let trbs = [RowTrb::new(0x1000, Trb::Normal(Normal::default()), true)];
        let data = vec![0; 67_108_353];
        let mut given = |length: usize| {
            let results = [TdResult::new(DeviceResult::Success, length as u32)];
            endpoint
                .complete_row(&trbs, &results, &data[..length], &memory, &mut log)
                .map(|completed| completed.finished)
        };
        assert_eq!((given(67_108_353), given(67_108_352)), (Err(Refusal::DataTooLong), Ok(1)));
    }
}
