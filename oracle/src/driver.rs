//! Makes a script's calls on the Rust, or on an engine in its place, and gives the answers that docs/CALLS.md defines.

use std::sync::Arc;

use crate::{
    asked_rust::{asked, AskedRust},
    call::{parse, Call, Captured, Kind, Region, Status, Trb, FIRST_CAPTURED, FIRST_REGION, MAX_LOG},
    device::xhci::{
        endpoint_handle::TrbProcessingResult,
        interrupter::EventSender,
        real_endpoint_handle::{ControlRequestProcessingResult, InTrbProcessingResult, InTrbProcessingStatus},
        trb::RawTrb,
    },
    effects::EffectLog,
    endpoint::ResultFields,
    engine::{Connections, Engine, No, RowCompleted},
    filling::Filling,
    guest_memory::GuestMemory,
    questions::{self, Buffers, MAX_HELD, MAX_ROW},
    record::Record,
    row::Row,
    scripted_device::{DeviceResult, ScriptedDevice},
};

/// An answer's lines, each with its line feed, and the script's line that it answers, counted from 1.
#[derive(Debug, Clone, PartialEq, Eq)]
pub struct Answer {
    pub line: usize,
    pub text: String,
}

/// Why a run ends before the script does.
#[derive(Debug, Clone, PartialEq, Eq)]
pub enum Stop {
    BadLine,
    /// The engine cannot be asked this: of the Rust, document 01 refuses the call, or it has no place for what is made up.
    Unasked(String),
}

#[derive(Debug, Default)]
pub struct Run {
    pub answers: Vec<Answer>,
    /// The line at which the run ended early, and why.
    pub stopped: Option<(usize, Stop)>,
}

impl Run {
    pub fn last_line(&self) -> Option<String> {
        self.stopped.as_ref().map(|(line, stop)| match stop {
            Stop::BadLine => format!("bad line {line}\n"),
            Stop::Unasked(reason) => format!("unasked line {line}: {reason}\n"),
        })
    }
}

/// A line's call, without its line feed; None where it is bad.
pub fn call_of(line: &[u8]) -> Option<Call> {
    line.strip_suffix(b"\n").and_then(|line| std::str::from_utf8(line).ok()).and_then(parse)
}

/// Runs a whole script on the Rust.
pub fn run(script: &[u8]) -> Run {
    run_on::<AskedRust>(script)
}

pub fn run_on<E: Engine>(script: &[u8]) -> Run {
    let mut driver = Driver::<E>::over(Filling::OfScripts);
    let mut run = Run::default();
    for (line, bytes) in (1..).zip(script.split_inclusive(|byte| *byte == b'\n')) {
        match call_of(bytes).ok_or(Stop::BadLine).and_then(|call| driver.call(call)) {
            Ok(None) => {}
            Ok(Some(text)) => run.answers.push(Answer { line, text }),
            Err(stop) => {
                run.stopped = Some((line, stop));
                break;
            }
        }
    }
    run
}

pub(crate) struct Driver<E> {
    effects: EffectLog,
    connections: Connections,
    filling: Filling,
    buffers: Buffers,
    captured: Captured,
    endpoint: Option<E>,
    row: Row,
    /// In a row, a TD fails with any status but Success: document 02's strict mode, as far as it decides which TDs are started.
    pub(crate) is_strict: bool,
}

const FIRST_BUFFERS: Buffers = Buffers { log: MAX_LOG, collect: 0xffff };

fn in_result(status: Status, data: Vec<u8>) -> Option<DeviceResult> {
    let status = match status {
        Status::Success => InTrbProcessingStatus::Success,
        Status::Stall => InTrbProcessingStatus::Stall,
        Status::TransactionError => InTrbProcessingStatus::TransactionError,
        Status::Disconnect => InTrbProcessingStatus::Disconnect,
        Status::SuccessfulControlOut => return None,
    };
    Some(DeviceResult::In(InTrbProcessingResult { status, data }))
}

fn control_result(status: Status, data: Vec<u8>) -> DeviceResult {
    DeviceResult::Control(match status {
        Status::Success => ControlRequestProcessingResult::SuccessfulControlIn(data),
        Status::Stall => ControlRequestProcessingResult::Stall,
        Status::TransactionError => ControlRequestProcessingResult::TransactionError,
        Status::Disconnect => ControlRequestProcessingResult::Disconnect,
        Status::SuccessfulControlOut => ControlRequestProcessingResult::SuccessfulControlOut,
    })
}

/// A row has one TRB, or one result, more than the most that is accepted.
fn append<T>(to: &mut Vec<T>, one: T) -> Result<(), Stop> {
    if to.len() > MAX_ROW {
        return Err(Stop::BadLine);
    }
    to.push(one);
    Ok(())
}

impl<E: Engine> Driver<E> {
    pub(crate) fn over(filling: Filling) -> Self {
        let effects = EffectLog::default();
        Self {
            connections: Connections {
                device: ScriptedDevice::new(effects.clone()),
                memory: Arc::new(GuestMemory::new(FIRST_REGION, Region::NONE, filling, effects.clone())),
                events: EventSender::new(effects.clone()),
            },
            effects,
            filling,
            buffers: FIRST_BUFFERS,
            captured: FIRST_CAPTURED,
            endpoint: None,
            row: Row::default(),
            is_strict: false,
        }
    }

    fn endpoint(&mut self) -> Result<&mut E, Stop> {
        self.endpoint.as_mut().ok_or(Stop::BadLine)
    }

    /// The endpoint, if it is of this kind.
    fn endpoint_of(&mut self, is_control: bool) -> Result<&mut E, Stop> {
        self.endpoint.as_mut().filter(|endpoint| endpoint.is_control() == is_control).ok_or(Stop::BadLine)
    }

    /// Makes the call; its answer, if it is one that prints.
    pub(crate) fn call(&mut self, call: Call) -> Result<Option<String>, Stop> {
        match self.accepted(call) {
            Ok(answer) => Ok(answer),
            Err(No::Refused(number)) => Ok(Some(format!("no {number}\n{}\n", self.endpoint()?.state_line()))),
            Err(No::Stopped(stop)) => Err(stop),
        }
    }

    fn accepted(&mut self, call: Call) -> Result<Option<String>, No> {
        let lent = self.buffers;
        match call {
            Call::Window { low, high } => self.connections.memory.fill_anew(low, high.unwrap_or(Region::NONE)),
            Call::Buffers { log, collect } => self.buffers = Buffers { log, collect },
            Call::Time { .. } => {}
            Call::Captured(captured) => {
                self.captured = captured;
                if let Some(endpoint) = &mut self.endpoint {
                    endpoint.capture_as(captured);
                }
            }
            Call::Hold(trb) => {
                let endpoint = self.endpoint()?;
                if endpoint.held() == MAX_HELD {
                    return Err(Stop::BadLine.into());
                }
                endpoint.hold(&trb)?;
            }
            Call::MakeUpIn { state } => self.endpoint_of(false)?.make_up_in(state),
            Call::MakeUpControl { phase, state, direction, length } => {
                self.endpoint_of(true)?.make_up_control(phase, state, direction, length);
            }
            Call::CreateIn { endpoint, slot, mode } => {
                let made = E::new_in(endpoint, slot, mode.unwrap_or(0), self.captured, self.connections.clone())?;
                return self.created(made).map(Some);
            }
            Call::CreateControl { endpoint, slot, release } => {
                let made =
                    E::new_control(endpoint, slot, release.unwrap_or(4), self.captured, self.connections.clone())?;
                return self.created(made).map(Some);
            }
            Call::Cancel => {
                self.endpoint()?.cancel();
                return self.answer("- - -", &[], false).map(Some);
            }
            Call::Submit(trb) => {
                self.endpoint()?.submit(&trb, lent)?;
                return self.answer("- - -", &[], false).map(Some);
            }
            Call::SubmitRaw { address, bytes } => {
                self.endpoint()?.submit_raw(RawTrb { address, buffer: bytes }, lent)?;
                return self.answer("- - -", &[], false).map(Some);
            }
            Call::CompleteWithResult { status, length } => return self.complete(Some(status), length).map(Some),
            Call::CompleteWithout { length } => return self.complete(None, length).map(Some),
            Call::AppendTrb(trb) => append(&mut self.row_of_in()?.trbs, trb)?,
            Call::AppendResult { status, length } => append(&mut self.row_of_in()?.results, (status, length))?,
            Call::CompleteRow { length } => return self.complete_row(length).map(Some),
        }
        Ok(None)
    }

    fn created(&mut self, (endpoint, refused): (E, Option<u8>)) -> Result<String, No> {
        self.row = Row::default();
        self.endpoint = Some(endpoint);
        match refused {
            Some(number) => Err(No::Refused(number)),
            None => self.answer("- - -", &[], false),
        }
    }

    fn complete(&mut self, status: Option<Status>, length: u64) -> Result<String, No> {
        let (lent, data) = (self.buffers, self.filling.of_device(length));
        let endpoint = self.endpoint()?;
        let result = match status {
            None => None,
            Some(status) if endpoint.is_control() => Some(control_result(status, data.clone())),
            Some(status) => Some(in_result(status, data.clone()).ok_or(Stop::BadLine)?),
        };
        let fields = ResultFields(endpoint.complete(result, &data, lent)?);
        self.answer(&fields.to_string(), &data, true)
    }

    /// The row that is being written down, on an IN endpoint.
    fn row_of_in(&mut self) -> Result<&mut Row, Stop> {
        self.endpoint_of(false)?;
        Ok(&mut self.row)
    }

    /// A row by the engine's own call, if it has one, and by single calls, as the Rust has no rows: both come to the same, and the call is
    /// refused where document 02 refuses the row.
    fn complete_row(&mut self, length: u64) -> Result<String, No> {
        let row = std::mem::take(self.row_of_in()?);
        let (lent, memory) = (self.buffers, self.connections.memory.clone());
        let data = self.filling.of_device(length);
        let endpoint = self.endpoint()?;
        let question = questions::of_row(endpoint, &row, length, lent, &memory);
        let in_one_call = endpoint.complete_row(&row, &data, lent).transpose();
        match &in_one_call {
            Ok(None) => asked(question)?,
            Ok(Some(_)) => assert_eq!(None, question, "a row is accepted that document 02 refuses"),
            Err(No::Refused(number)) => assert_eq!(Some(*number), question, "not the number of document 02"),
            Err(No::Stopped(_)) => {}
        }
        let in_one_call = in_one_call?;
        let completed = self.single_calls(&row, &data)?;
        if let Some(in_one_call) = in_one_call {
            assert_eq!(in_one_call, completed, "a row in one call is not its single calls");
        }
        let RowCompleted { records, result, finished } = completed;
        let (result, endpoint) = (ResultFields(result), self.endpoint()?);
        let carried_out = endpoint.carry_out(&records, &data);
        let state = endpoint.state_line();
        Ok(format!("ok {} {result} {finished}\n{}out {carried_out}\n{state}\n", records.len(), lines_of(&records)))
    }

    /// Each TD is submitted TRB by TRB and completed, until one fails. What they did is joined.
    fn single_calls(&mut self, row: &Row, data: &[u8]) -> Result<RowCompleted, No> {
        let mut joined = RowCompleted { records: vec![], result: TrbProcessingResult::Ok, finished: 0 };
        let mut start = 0;
        for (trbs, (status, given)) in row.tds().into_iter().zip(&row.results) {
            let own = &data[start..start + *given as usize];
            let (result, own_records) = self.complete_td(trbs, *status, own)?;
            joined.records.extend(own_records.into_iter().map(|record| record.moved_by(start)));
            start += own.len();
            joined.result = result;
            if result != TrbProcessingResult::Ok || (self.is_strict && *status != Status::Success) {
                break;
            }
            joined.finished += 1;
        }
        Ok(joined)
    }

    /// One TD by single calls, which are accepted where the row is.
    fn complete_td(
        &mut self,
        trbs: &[Trb],
        status: Status,
        data: &[u8],
    ) -> Result<(TrbProcessingResult, Vec<Record>), No> {
        let (lent, effects) = (self.buffers, self.effects.clone());
        let endpoint = self.endpoint()?;
        let (last, chained) = trbs.split_last().ok_or(Stop::BadLine)?;
        for trb in chained {
            endpoint.submit(trb, lent)?;
            endpoint.complete(None, &[], lent)?;
        }
        endpoint.submit(last, lent)?;
        let is_asked = trbs.iter().any(|trb| trb.kind == Kind::Normal);
        let result = in_result(status, data.to_vec()).filter(|_| is_asked);
        // Before the completion: the Rust names a TD by the first TRB that it holds.
        let mut records = endpoint.records(&effects.take(), data);
        let result = endpoint.complete(result, data, lent)?;
        records.extend(endpoint.records(&effects.take(), data));
        Ok((result, records))
    }

    /// The answer of an accepted call; a completion is carried out.
    fn answer(&mut self, result: &str, data: &[u8], is_completion: bool) -> Result<String, No> {
        let effects = self.effects.take();
        let endpoint = self.endpoint()?;
        let records = endpoint.records(&effects, data);
        let out = if is_completion { format!("out {}\n", endpoint.carry_out(&records, data)) } else { String::new() };
        Ok(format!("ok {} {result}\n{}{out}{}\n", records.len(), lines_of(&records), endpoint.state_line()))
    }
}

fn lines_of(records: &[Record]) -> String {
    records.iter().map(|record| format!("{record}\n")).collect()
}
