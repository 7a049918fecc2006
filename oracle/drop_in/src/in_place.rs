//! hal's endpoints behind the oracle's driver, in the place of the Rust: through the handles, with every lent byte watched.

use std::{
    future::Future,
    pin::pin,
    task::{Context, Poll, Waker},
};

use oracle::{
    call::{
        self, Captured, Kind, Status, CHAIN, CYCLE, DIRECTION, IMMEDIATE_DATA, INTERRUPT_ON_COMPLETION,
        INTERRUPT_ON_SHORT, MAX_COLLECT,
    },
    device::xhci::{
        endpoint_handle::{EndpointHandle, TrbProcessingResult},
        hotplug_endpoint_handle::BaseEndpointHandle,
        real_endpoint_handle::{ControlRequestProcessingResult, InTrbProcessingStatus},
        trb::RawTrb,
    },
    driver::Stop,
    effects::Effect,
    endpoint::weighted_sum,
    engine::{Connections, Engine, No, RowCompleted},
    questions::{Buffers, MAX_TRB_LENGTH},
    record::{records, Record, Surroundings},
    row::Row,
    scripted_device::{self, ScriptedDevice},
};
use polvihe_hal::{
    log, ControlEndpoint, DataStage, DeviceResult, EventData, GuestRelease, InEndpoint, Mode, NoOp, Normal, Refusal,
    RowTrb, SetupStage, StatusStage, TdResult, Trb,
};

use crate::handles::{self, with_memory, ControlHandle, Failed, HalEndpoint, InHandle, Submission};

enum Handle {
    In(InHandle<ScriptedDevice>),
    Control(ControlHandle<ScriptedDevice>),
}

/// An endpoint of hal, and what its calls logged since the driver last asked.
pub struct InPlace {
    handle: Handle,
    to: Connections,
    logged: Vec<Record>,
    /// The collect buffer whole, of which the script lends a part.
    collect: Vec<u8>,
}

/// The handle's call, whichever it is.
macro_rules! on {
    ($handle:expr, $name:ident => $call:expr) => {
        match $handle {
            Handle::In($name) => $call,
            Handle::Control($name) => $call,
        }
    };
}

/// What the collect buffer has at first, and before each call every byte of the log, so that a byte behind the records that changes is seen.
const UNTOUCHED: u8 = 0x5a;

/// Where the places of a block start, and the bytes of one (docs/CALLS.md).
const IN_PLACES: usize = 16;
const CONTROL_PLACES: usize = 48;
const PLACE: usize = 24;

fn completed<T>(future: impl Future<Output = anyhow::Result<T>>) -> anyhow::Result<T> {
    match pin!(future).poll(&mut Context::from_waker(Waker::noop())) {
        Poll::Ready(answer) => answer,
        Poll::Pending => unreachable!("the scripted device answers at once"),
    }
}

/// The number of a refusal that came as an error, `refused N: WHY`.
fn refused(error: anyhow::Error) -> No {
    let number = error.0.strip_prefix("refused ").and_then(|rest| rest.split(':').next()?.parse().ok());
    No::Refused(number.unwrap_or_else(|| panic!("no refusal: {}", error.0)))
}

fn number_of(refusal: Refusal) -> u8 {
    refusal.number() as u8
}

fn failed(failed: Failed) -> No {
    match failed {
        Failed::Refused(refusal) => No::Refused(number_of(refusal)),
        Failed::Surroundings(error) => panic!("the driver's surroundings take everything: {}", error.0),
    }
}

/// A script's TRB as hal has it, and its cycle bit.
fn trb_of(trb: &call::Trb) -> (Trb, bool) {
    let (chain, interrupt_on_completion) = (trb.has(CHAIN), trb.has(INTERRUPT_ON_COMPLETION));
    let (interrupt_on_short, immediate_data) = (trb.has(INTERRUPT_ON_SHORT), trb.has(IMMEDIATE_DATA));
    let (pointer, length, direction) = (trb.a, trb.length, trb.has(DIRECTION));
    let decoded = match trb.kind {
        Kind::Normal => {
            Trb::Normal(Normal { pointer, length, chain, interrupt_on_completion, interrupt_on_short, immediate_data })
        }
        Kind::SetupStage => Trb::SetupStage(SetupStage { setup: trb.a.to_le_bytes(), interrupt_on_completion }),
        Kind::DataStage => Trb::DataStage(DataStage {
            pointer,
            length,
            chain,
            interrupt_on_completion,
            interrupt_on_short,
            immediate_data,
            direction,
        }),
        Kind::StatusStage => Trb::StatusStage(StatusStage { chain, interrupt_on_completion, direction }),
        Kind::EventData => Trb::EventData(EventData { value: trb.a, chain, interrupt_on_completion }),
        Kind::NoOp => Trb::NoOp(NoOp { chain, interrupt_on_completion }),
        Kind::Isoch => Trb::Isoch,
        Kind::Unrecognized => Trb::Unrecognized,
    };
    (decoded, trb.has(CYCLE))
}

fn hal_result(result: &scripted_device::DeviceResult) -> DeviceResult {
    use scripted_device::DeviceResult::{Control, In};
    match result {
        In(result) => match result.status {
            InTrbProcessingStatus::Success => DeviceResult::Success,
            InTrbProcessingStatus::Stall => DeviceResult::Stall,
            InTrbProcessingStatus::TransactionError => DeviceResult::TransactionError,
            InTrbProcessingStatus::Disconnect => DeviceResult::Disconnect,
        },
        Control(result) => match result {
            ControlRequestProcessingResult::SuccessfulControlIn(_) => DeviceResult::Success,
            ControlRequestProcessingResult::SuccessfulControlOut => DeviceResult::SuccessOut,
            ControlRequestProcessingResult::Stall => DeviceResult::Stall,
            ControlRequestProcessingResult::TransactionError => DeviceResult::TransactionError,
            ControlRequestProcessingResult::Disconnect => DeviceResult::Disconnect,
        },
    }
}

/// What a script gives a TD of a row.
fn result_in_row(status: Status) -> DeviceResult {
    match status {
        Status::Success => DeviceResult::Success,
        Status::Stall => DeviceResult::Stall,
        Status::TransactionError => DeviceResult::TransactionError,
        Status::Disconnect => DeviceResult::Disconnect,
        Status::SuccessfulControlOut => DeviceResult::SuccessOut,
    }
}

fn number(block: &[u8], at: usize, width: usize) -> u64 {
    block[at..at + width].iter().rev().fold(0, |number, byte| number << 8 | u64::from(*byte))
}

impl InPlace {
    fn block(&self) -> &[u8] {
        on!(&self.handle, handle => HalEndpoint::block(&handle.endpoint))
    }

    fn make_up(&mut self, change: impl FnOnce(&mut [u8])) {
        on!(&mut self.handle, handle => handle.make_up(change));
    }

    fn collected(&self) -> usize {
        match &self.handle {
            Handle::In(_) => 0,
            Handle::Control(handle) => handle.endpoint.collected(),
        }
    }

    /// Makes a call with so much of the buffers lent. Whatever the documents say stays as it is has to: all of it after a no, the log
    /// behind the records, and the collect buffer but for the bytes just behind those collected.
    fn watched<T>(&mut self, lent: Buffers, call: impl FnOnce(&mut Self) -> Result<T, No>) -> Result<T, No> {
        let (block, collected) = (self.block().to_vec(), self.collected());
        let collect = self.collect[..lent.collect as usize].to_vec();
        on!(&mut self.handle, handle => {
            handle.log.clear();
            handle.log.resize(lent.log as usize, UNTOUCHED);
            handle.collect.clone_from(&collect);
            handle.logged = 0;
        });
        let answer = call(self);
        let collected_after = self.collected();
        let is_refused = answer.is_err();
        assert!(!is_refused || self.block() == block, "a refused call changed the block");
        on!(&mut self.handle, handle => {
            let written = if is_refused { 0 } else { handle.logged };
            assert!(handle.log[written..].iter().all(|byte| *byte == UNTOUCHED), "a byte behind the records changed");
            let kept = if is_refused { collect.len() } else { collected.min(collect.len()) };
            assert!(handle.collect[..kept] == collect[..kept], "a byte that was collected changed");
            let behind = if is_refused { 0 } else { collected_after.min(collect.len()) };
            assert!(handle.collect[behind..] == collect[behind..], "a byte behind those collected changed");
            self.collect[..collect.len()].copy_from_slice(&handle.collect);
            if !is_refused {
                let records = handle.log[..written].chunks_exact(32).map(|bytes| Record::of(bytes.try_into().expect("32 bytes")));
                self.logged.extend(records);
            }
        });
        answer
    }
}

impl Engine for InPlace {
    fn new_in(endpoint: u8, slot: u8, mode: u8, _: Captured, to: Connections) -> Result<(Self, Option<u8>), Stop> {
        let mode = if mode == 0 { Mode::AsPorted } else { Mode::Strict };
        Ok(created(Handle::In, endpoint, slot, mode, to))
    }

    fn new_control(
        endpoint: u8,
        slot: u8,
        release: u8,
        _: Captured,
        to: Connections,
    ) -> Result<(Self, Option<u8>), Stop> {
        let release = if release == 4 { GuestRelease::Four } else { GuestRelease::Five };
        Ok(created(Handle::Control, endpoint, slot, release, to))
    }

    fn is_control(&self) -> bool {
        matches!(self.handle, Handle::Control(_))
    }

    fn submit(&mut self, trb: &call::Trb, lent: Buffers) -> Result<(), No> {
        let (decoded, cycle) = trb_of(trb);
        self.watched(lent, |this| {
            let submission = Submission::Decoded(trb.address, decoded, cycle);
            on!(&mut this.handle, handle => handle.submit(submission)).map_err(failed)
        })
    }

    fn submit_raw(&mut self, raw: RawTrb, lent: Buffers) -> Result<(), No> {
        self.watched(lent, |this| on!(&mut this.handle, handle => handle.submit_trb(raw)).map_err(refused))
    }

    /// By the device's answer, as the Rust does it, where a result is given just where one is awaited; otherwise by hal's own call.
    fn complete(
        &mut self,
        result: Option<scripted_device::DeviceResult>,
        data: &[u8],
        lent: Buffers,
    ) -> Result<TrbProcessingResult, No> {
        self.watched(lent, |this| {
            let awaits = on!(&this.handle, handle => handle.awaits_device);
            if result.is_some() != awaits {
                let result = result.as_ref().map(hal_result);
                return on!(&mut this.handle, handle => handle.complete(result, data)).map_err(failed);
            }
            if let Some(result) = result {
                this.to.device.script(result);
            }
            on!(&mut this.handle, handle => completed(handle.next_completion())).map_err(refused)
        })
    }

    fn cancel(&mut self) {
        on!(&mut self.handle, handle => completed(handle.cancel())).expect("the scripted device takes it");
    }

    fn complete_row(&mut self, row: &Row, data: &[u8], lent: Buffers) -> Option<Result<RowCompleted, No>> {
        let row_trb = |trb: &call::Trb| {
            let (decoded, cycle) = trb_of(trb);
            RowTrb::new(trb.address, decoded, cycle)
        };
        let trbs: Vec<RowTrb> = row.trbs.iter().map(row_trb).collect();
        let results: Vec<TdResult> =
            row.results.iter().map(|(status, length)| TdResult::new(result_in_row(*status), *length)).collect();
        let block = self.block().to_vec();
        let answer = self.watched(lent, |this| match &mut this.handle {
            Handle::In(handle) => {
                handle.complete_row(&trbs, &results, data).map_err(|refusal| No::Refused(number_of(refusal)))
            }
            Handle::Control(_) => Err(Stop::BadLine.into()),
        });
        assert!(self.block() == block, "a row changed the block");
        let records = std::mem::take(&mut self.logged);
        Some(answer.map(|(result, finished)| RowCompleted { records, result, finished }))
    }

    fn held(&mut self) -> usize {
        let (at, width) = if self.is_control() { (44, 4) } else { (4, 2) };
        number(self.block(), at, width) as usize
    }

    /// A place has room for the kinds that its endpoint holds, and for 17 bits of a length.
    fn hold(&mut self, trb: &call::Trb) -> Result<(), Stop> {
        let is_supported = match trb.kind {
            Kind::Normal | Kind::EventData => true,
            Kind::NoOp => !self.is_control(),
            Kind::SetupStage | Kind::DataStage | Kind::StatusStage => self.is_control(),
            Kind::Isoch | Kind::Unrecognized => false,
        };
        if !is_supported || trb.length > MAX_TRB_LENGTH {
            return Err(Stop::Unasked("the block's layout cannot say this TRB".to_string()));
        }
        let held = self.held();
        let (at, width, places) = if self.is_control() { (44, 4, CONTROL_PLACES) } else { (4, 2, IN_PLACES) };
        self.make_up(|block| {
            block[at..at + width].copy_from_slice(&(held as u32 + 1).to_le_bytes()[..width]);
            let place = &mut block[places + PLACE * held..][..PLACE];
            place[..8].copy_from_slice(&trb.address.to_le_bytes());
            place[8..16].copy_from_slice(&trb.a.to_le_bytes());
            place[16..20].copy_from_slice(&trb.length.to_le_bytes());
            place[20..].copy_from_slice(&[trb.kind.number(), trb.flags, 0, 0]);
        });
        Ok(())
    }

    fn make_up_in(&mut self, state: u8) {
        self.make_up(|block| block[6] = state);
    }

    fn make_up_control(&mut self, phase: u8, state: u8, direction: bool, length: u32) {
        self.make_up(|block| {
            block[4..7].copy_from_slice(&[phase, state, u8::from(direction)]);
            block[40..44].copy_from_slice(&length.to_le_bytes());
        });
    }

    fn is_sound(&mut self) -> bool {
        let (held, block) = (self.held(), self.block());
        let holds_normal = || (0..held).any(|i| block[IN_PLACES + PLACE * i + 20] == Kind::Normal.number());
        block[1] != 0 && (self.is_control() || block[6] != 2 || holds_normal())
    }

    fn submission_is_due(&self) -> bool {
        self.block()[if self.is_control() { ControlEndpoint::STATE } else { InEndpoint::STATE }] == 0
    }

    /// The log's records; the effects that the handle made of them are the same records once more.
    fn records(&mut self, effects: &[Effect], data: &[u8]) -> Vec<Record> {
        let logged = std::mem::take(&mut self.logged);
        let (endpoint, slot) = (self.block()[1], self.block()[2]);
        let first_address =
            logged.first().map(|record| u64::from_le_bytes(record.bytes()[8..16].try_into().expect("8 bytes")));
        let by_effects = records(effects, &Surroundings { endpoint, slot, first_address, data });
        assert_eq!(by_effects, logged, "the handle's effects are not those of the log");
        let log: Vec<u8> = logged.iter().flat_map(Record::bytes).collect();
        let lines: String = logged.iter().map(|record| format!("{record}\n")).collect();
        assert_eq!(log::text(&log).expect("kinds 1 to 3"), lines);
        logged
    }

    fn carry_out(&self, records: &[Record], data: &[u8]) -> u8 {
        let log: Vec<u8> = records.iter().flat_map(Record::bytes).collect();
        let carried_out = with_memory(&self.to.memory, |memory| memory.carry_out(&log, data));
        carried_out.err().map_or(0, |refusal| refusal.number() as u8)
    }

    fn state_line(&mut self) -> String {
        let held = self.held();
        let block = self.block();
        let named = |names: &[&str], number: u8, at: usize, last: &str| match names.get(usize::from(number)) {
            Some(name) => name.to_string(),
            None => format!("{last}:{:x}", self::number(block, at, 8)),
        };
        match &self.handle {
            Handle::In(_) => format!(
                "st in {} {held}",
                named(&["submit", "collecting", "real", "local"], block[6], 8, "unsupported")
            ),
            Handle::Control(handle) => {
                let phase = ["setup", "maybe", "more", "status", "final"][usize::from(block[4])];
                let last = if block[5] == 3 { "parser" } else { "unexpected" };
                let state = named(&["submit", "collecting", "request"], block[5], 8, last);
                let direction = if block[6] == 1 { "in" } else { "out" };
                let collected = handle.endpoint.collected();
                let request: String = block[24..30].iter().map(|byte| format!("{byte:02x}")).collect();
                format!(
                    "st control {phase} {state} {held} {direction} {} {collected} {:x} {:x} {request}",
                    number(block, 40, 4),
                    weighted_sum(&self.collect[..collected]),
                    number(block, 16, 8),
                )
            }
        }
    }
}

/// Where creation is refused, hal has no endpoint, and the block that the engine hands back has ids 0.
fn created<E: HalEndpoint>(
    of: fn(handles::Handle<E, ScriptedDevice>) -> Handle,
    endpoint: u8,
    slot: u8,
    chosen: E::Chosen,
    to: Connections,
) -> (InPlace, Option<u8>) {
    let handle = |endpoint, slot| {
        handles::Handle::new(slot, endpoint, chosen, to.device.clone(), to.memory.clone(), to.events.clone())
    };
    let (handle, no) = match handle(endpoint, slot) {
        Ok(handle) => (handle, None),
        Err(refusal) => (handle(1, 1).expect("ids in range"), Some(number_of(refusal))),
    };
    let collect = vec![UNTOUCHED; MAX_COLLECT as usize];
    let mut made = InPlace { handle: of(handle), to, logged: vec![], collect };
    if no.is_some() {
        made.make_up(|block| block[1..3].fill(0));
    }
    (made, no)
}
