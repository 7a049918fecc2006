//! The block in place, by hal, called TRB by TRB as a HAL calls it.

use polvihe_hal::{
    log, Completed, ControlEndpoint, DataStage, DeviceResult, EndpointId, GuestMemory, GuestRelease, InEndpoint, Mode,
    Normal, Outcome, Refusal, Region, RowTrb, SetupStage, SlotId, StatusStage, Submitted, TdResult, Trb,
};

use crate::product::Lent;
use crate::work::{InWork, RowWork, COLLECT_BYTES, CONTROL_TRBS};

/// The checksum that all sides answer.
const FAILED: u64 = 1 << 20;
const REFUSED: u64 = 1 << 40;
/// Where the first TRB lies, and how far apart they are.
const FIRST_TRB: u64 = 4096;
const TRB_BYTES: u64 = 16;

fn sum_of(submitted: Result<Submitted, Refusal>) -> u64 {
    submitted.map_or(REFUSED, |submitted| submitted.records().len() as u64)
}

fn sum_of_outcome(outcome: Outcome) -> u64 {
    if outcome == Outcome::Ok {
        0
    } else {
        FAILED
    }
}

fn sum_of_completion(completed: Result<Completed, Refusal>) -> u64 {
    completed.map_or(REFUSED, |completed| completed.records().len() as u64 + sum_of_outcome(completed.outcome))
}

fn address(i: u32) -> u64 {
    FIRST_TRB + TRB_BYTES * u64::from(i)
}

/// Number `i` of TDs whose buffers lie end to end: interrupt-on-short, and where it ends its TD interrupt-on-completion.
fn normal(i: u32, ends: bool, work: &InWork) -> Trb {
    Trb::Normal(Normal {
        pointer: u64::from(i) * u64::from(work.transfer_length),
        length: work.transfer_length,
        chain: !ends,
        interrupt_on_completion: ends,
        interrupt_on_short: true,
        immediate_data: false,
    })
}

fn result_of(work: &InWork) -> DeviceResult {
    if work.status == 0 {
        DeviceResult::Success
    } else {
        DeviceResult::Stall
    }
}

/// TDs of Normals: each TRB is submitted and its completion asked for; the last one has the device's result, or is cancelled.
fn in_tds(
    lent: &mut Lent,
    work: &InWork,
    completes: bool,
    repeats: u32,
    mut submit: impl FnMut(&mut InEndpoint, u32, Trb, &GuestMemory, &mut [u8]) -> u64,
) -> u64 {
    let mut endpoint = InEndpoint::create(EndpointId(3), SlotId(2), Mode::AsPorted).expect("ids in range");
    let Lent { log, memory } = lent;
    let memory = GuestMemory::one(0, &mut memory[..work.window.len()]);
    let result = result_of(work);
    let mut sum = 0;
    for _ in 0..repeats {
        for i in 0..work.trbs {
            let ends = i + 1 == work.trbs;
            sum += submit(&mut endpoint, i, normal(i, ends, work), &memory, log);
            if ends && !completes {
                endpoint.cancel();
            } else {
                let (result, data) = if ends { (Some(result), work.data) } else { (None, &[][..]) };
                sum += sum_of_completion(endpoint.complete(result, data, log));
            }
        }
    }
    sum
}

/// TRBs handed over decoded, as they are by value.
pub fn decoded(lent: &mut Lent, work: &InWork, completes: bool, repeats: u32) -> u64 {
    in_tds(lent, work, completes, repeats, |endpoint, i, trb, memory, log| {
        sum_of(endpoint.submit(address(i), trb, true, memory, log))
    })
}

/// TRBs handed over as their 16 bytes, as the Rust takes them.
pub fn raw(lent: &mut Lent, work: &InWork, completes: bool, repeats: u32) -> u64 {
    in_tds(lent, work, completes, repeats, |endpoint, i, trb, memory, log| {
        let Trb::Normal(Normal { pointer, length, chain, .. }) = trb else { unreachable!("Normals are timed") };
        let mut bytes = [0; 16];
        bytes[..8].copy_from_slice(&pointer.to_le_bytes());
        bytes[8..12].copy_from_slice(&length.to_le_bytes());
        // See xHCI 1.2, 6.4.1.1: cycle bit, interrupt-on-short, chain or interrupt-on-completion; type 1.
        bytes[12..14].copy_from_slice(&[if chain { 0x15 } else { 0x25 }, 1 << 2]);
        sum_of(endpoint.submit_raw(address(i), &bytes, memory, log))
    })
}

/// Rows of TDs, each completed in one call. Row, results and endpoint are made once.
pub struct Row {
    lent: Lent,
    endpoint: InEndpoint,
    row: Vec<RowTrb>,
    results: Vec<TdResult>,
    data: &'static [u8],
}

impl Row {
    pub fn new(work: &RowWork) -> Self {
        let RowWork { others, last, tds } = work;
        let trb = |i| RowTrb::new(address(i), normal(i, (i + 1) % last.trbs == 0, last), true);
        let given = |td: &InWork| TdResult::new(result_of(td), td.data.len() as u32);
        let results: Vec<_> = (1..*tds).map(|_| given(others)).chain([given(last)]).collect();
        // The bytes of a row lie one behind the other in the same memory.
        let data = &last.window[..others.data.len() * (*tds as usize - 1) + last.data.len()];
        let endpoint = InEndpoint::create(EndpointId(3), SlotId(2), Mode::AsPorted).expect("ids in range");
        Self { lent: Lent::new(), endpoint, row: (0..work.trbs()).map(trb).collect(), results, data }
    }

    pub fn run(&mut self, repeats: u32) -> u64 {
        let Self { lent: Lent { log, memory }, endpoint, row, results, data } = self;
        let memory = GuestMemory::one(0, memory);
        let mut sum = 0;
        for _ in 0..repeats {
            let completed = endpoint.complete_row(std::hint::black_box(row), results, data, &memory, log);
            sum += completed.map_or(REFUSED, |row| row.records().len() as u64 + sum_of_outcome(row.outcome));
        }
        sum
    }
}

/// Control transfers: Setup 80 06, Data IN, Status.
pub struct Control {
    lent: Lent,
    collect: Vec<u8>,
}

impl Control {
    pub fn new() -> Self {
        Self { lent: Lent::new(), collect: vec![0; COLLECT_BYTES] }
    }

    fn transfers(
        &mut self,
        data: &[u8],
        repeats: u32,
        mut submit: impl FnMut(&mut ControlEndpoint, u32, Trb, &GuestMemory, &mut [u8], &mut [u8]) -> u64,
    ) -> u64 {
        let Self { lent: Lent { log, memory }, collect } = self;
        let memory = GuestMemory::one(0, memory);
        let mut endpoint = ControlEndpoint::create(EndpointId(1), SlotId(2), GuestRelease::Four).expect("ids in range");
        let setup = SetupStage { setup: [0x80, 6, 0, 1, 0, 0, 64, 0], interrupt_on_completion: false };
        let length = data.len() as u32;
        let data_stage = DataStage { length, interrupt_on_short: true, direction: true, ..DataStage::default() };
        let status = StatusStage { interrupt_on_completion: true, ..StatusStage::default() };
        let stages = [Trb::SetupStage(setup), Trb::DataStage(data_stage), Trb::StatusStage(status)];
        let mut sum = 0;
        for _ in 0..repeats {
            for (i, &stage) in (0..CONTROL_TRBS).zip(std::hint::black_box(&stages)) {
                sum += submit(&mut endpoint, i, stage, &memory, collect, log);
                let (result, data) =
                    if i + 1 == CONTROL_TRBS { (Some(DeviceResult::Success), data) } else { (None, &[][..]) };
                sum += sum_of_completion(endpoint.complete(result, data, log));
            }
        }
        sum
    }

    pub fn decoded(&mut self, data: &[u8], repeats: u32) -> u64 {
        self.transfers(data, repeats, |endpoint, i, stage, memory, collect, log| {
            sum_of(endpoint.submit(address(i), stage, true, memory, collect, log))
        })
    }

    pub fn raw(&mut self, data: &[u8], repeats: u32) -> u64 {
        let length = data.len() as u8;
        self.transfers(data, repeats, |endpoint, i, _, memory, collect, log| {
            // See xHCI 1.2, 6.4.1.2.
            let bytes = match i {
                0 => [0x80, 6, 0, 1, 0, 0, 64, 0, 8, 0, 0, 0, 0x41, 2 << 2, 0, 0],
                1 => [0, 0, 0, 0, 0, 0, 0, 0, length, 0, 0, 0, 0x05, 3 << 2, 1, 0],
                _ => [0, 0, 0, 0, 0, 0, 0, 0, 0, 0, 0, 0, 0x21, 4 << 2, 0, 0],
            };
            sum_of(endpoint.submit_raw(address(i), &bytes, memory, collect, log))
        })
    }
}

/// The log of a whole TD, without its request: writes and events.
pub fn log_of(work: &InWork) -> Vec<u8> {
    let mut lent = Lent::new();
    let sum = decoded(&mut lent, work, true, 1);
    lent.log[..32 * (sum as usize % FAILED as usize - 1)].to_vec()
}

/// The low region starts at 0, the high one at `high_base`.
pub fn carry_out(log: &[u8], data: &[u8], low: &mut [u8], high_base: u64, high: &mut [u8], repeats: u32) -> u64 {
    let mut memory = GuestMemory::two(Region::new(0, low), Region::new(high_base, high));
    (0..repeats).map(|_| memory.carry_out(log, data).map_or(REFUSED, |()| 1)).sum()
}

/// Decodes a row of raw TRBs, 16 bytes each.
pub fn decode(trbs: &[u8], repeats: u32) -> u64 {
    let mut sum = 0u64;
    for _ in 0..repeats {
        for bytes in std::hint::black_box(trbs).chunks_exact(16) {
            let (trb, cycle) = Trb::decode(bytes.try_into().expect("a TRB has 16 bytes"));
            let number = match trb {
                Trb::SetupStage(t) => u64::from(u16::from_le_bytes([t.setup[6], t.setup[7]])),
                Trb::DataStage(t) => t.pointer.wrapping_add(t.length.into()),
                Trb::StatusStage(t) => u64::from(t.direction),
                Trb::Normal(t) => t.pointer.wrapping_add(t.length.into()),
                Trb::EventData(t) => t.value,
                Trb::NoOp(t) => u64::from(t.interrupt_on_completion),
                Trb::Isoch => 5,
                Trb::Unrecognized => 6,
            };
            sum = sum.wrapping_add(number).wrapping_add(u64::from(cycle));
        }
    }
    sum
}

/// Lays a log into a buffer of its length and compacts it there; answers the records kept.
pub fn compact(log: &[u8], buffer: &mut [u8], repeats: u32) -> u64 {
    let mut kept = 0;
    for _ in 0..repeats {
        buffer.copy_from_slice(std::hint::black_box(log));
        kept += log::compact(buffer).map_or(REFUSED, |kept| kept.len() as u64 / 32);
    }
    kept
}
