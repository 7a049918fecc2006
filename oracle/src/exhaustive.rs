//! Scripts that leave nothing out: every control chain of up to five TRBs, every IN TD of up to three, and the
//! request length past 2^32.

use crate::{
    call::{Call, Kind, Region, Status, Trb, CHAIN, CYCLE, INTERRUPT_ON_COMPLETION, INTERRUPT_ON_SHORT, MAX_WINDOW},
    model::{Due, Script},
    questions::{MAX_HELD, MAX_TRB_LENGTH},
};

/// A family of scripts, split into parts.
pub struct Family {
    pub name: &'static str,
    pub parts: usize,
    pub script: fn(usize) -> String,
}

pub const FAMILIES: [Family; 3] = [
    Family { name: "exhaustive-control", parts: CONTROL_SYMBOLS.len() * CONTROL_SYMBOLS.len(), script: control_part },
    Family { name: "exhaustive-in", parts: IN_SYMBOLS.len(), script: in_part },
    Family { name: "wrap", parts: 1, script: wrap },
];

pub fn family(name: &str) -> Option<&'static Family> {
    const LIST: &[Family] = &FAMILIES;
    LIST.iter().find(|family| family.name == name)
}

const ENDPOINT: u8 = 3;
const SLOT: u8 = 2;
const FIRST_TRB: u64 = 0x1000;
const FIRST_BYTE: u64 = 0x8000;

/// A TRB without its addresses. On SetupStage `a` gives the direction.
#[derive(Clone, Copy)]
struct Symbol {
    kind: Kind,
    flags: u8,
    a: u64,
    length: u32,
}

impl Symbol {
    /// As the TRB at a position, with the data of each position at a place of its own.
    fn at(self, position: usize) -> Trb {
        let Self { kind, flags, a, length } = self;
        let pointer = if kind.has_length() { FIRST_BYTE + 0x100 * position as u64 } else { 0 };
        Trb { kind, address: FIRST_TRB + 16 * position as u64, flags, a: a + pointer, length }
    }
}

const fn symbol(kind: Kind, flags: u8, a: u64, length: u32) -> Symbol {
    Symbol { kind, flags, a, length }
}

const LONGEST_CHAIN: usize = 5;
const ALWAYS: u8 = INTERRUPT_ON_COMPLETION;
const CONTROL_SYMBOLS: [Symbol; 14] = [
    symbol(Kind::SetupStage, ALWAYS, 0x80, 0),
    symbol(Kind::SetupStage, ALWAYS, 0, 0),
    symbol(Kind::DataStage, ALWAYS, 0, 9),
    symbol(Kind::DataStage, ALWAYS | CHAIN, 0, 9),
    symbol(Kind::Normal, ALWAYS, 0, 3),
    symbol(Kind::Normal, ALWAYS | CHAIN, 0, 3),
    symbol(Kind::EventData, ALWAYS, 0xe, 0),
    symbol(Kind::EventData, ALWAYS | CHAIN, 0xe, 0),
    symbol(Kind::StatusStage, ALWAYS, 0, 0),
    symbol(Kind::StatusStage, ALWAYS | CHAIN, 0, 0),
    symbol(Kind::NoOp, ALWAYS, 0, 0),
    symbol(Kind::NoOp, ALWAYS | CHAIN, 0, 0),
    symbol(Kind::Isoch, 0, 0, 0),
    symbol(Kind::Unrecognized, 0, 0, 0),
];

/// All rows of `length` symbols that start with `start`.
fn rows<T: Copy>(start: &[T], symbols: &[T], length: usize) -> Vec<Vec<T>> {
    let mut rows = vec![start.to_vec()];
    for _ in start.len()..length {
        rows = rows.iter().flat_map(|row| symbols.iter().map(move |symbol| [&row[..], &[*symbol]].concat())).collect();
    }
    rows
}

fn due(script: &Script) -> Due {
    script.model.as_ref().expect("an endpoint is created first").due
}

/// Submits a row of TRBs, each but the last one completed. A request on the way gets all it asks for.
fn submit_row(script: &mut Script, trbs: &[Trb]) {
    for (position, trb) in trbs.iter().enumerate() {
        script.call(Call::Submit(*trb));
        if position + 1 < trbs.len() {
            let length = requested(script);
            script.call(match due(script) {
                Due::Device => Call::CompleteWithResult { status: Status::Success, length },
                _ => Call::CompleteWithout { length: 0 },
            });
        }
    }
}

/// The sum of the lengths held.
fn requested(script: &Script) -> u64 {
    let held = &script.model.as_ref().expect("an endpoint is created first").held;
    held.iter().flatten().map(|length| u64::from(*length)).sum()
}

/// A row on a fresh endpoint; then its last completion, if a request is due in every way that `ways` gives.
fn row_with_every_end(script: &mut Script, create: Call, trbs: &[Trb], ways: fn(u64) -> Vec<(Status, u64)>) {
    script.call(create);
    submit_row(script, trbs);
    if due(script) != Due::Device {
        return script.call(Call::CompleteWithout { length: 0 });
    }
    let ways = ways(requested(script));
    for (number, (status, length)) in ways.into_iter().enumerate() {
        if number > 0 {
            script.call(create);
            submit_row(script, trbs);
        }
        script.call(Call::CompleteWithResult { status, length });
    }
}

fn control_ends(requested: u64) -> Vec<(Status, u64)> {
    let mut ends: Vec<_> = [requested, requested.saturating_sub(1), requested / 2, 0, requested + 1]
        .into_iter()
        .map(|length| (Status::Success, length))
        .collect();
    ends.dedup();
    ends.extend(Status::ALL[1..].iter().map(|status| (*status, requested)));
    ends
}

/// The chains that start with two given symbols. A chain of less than five TRBs stands in a longer one, unless it
/// ends with a request, whose other ends are to be seen.
fn control_part(part: usize) -> String {
    let first = CONTROL_SYMBOLS[part / CONTROL_SYMBOLS.len()];
    let second = CONTROL_SYMBOLS[part % CONTROL_SYMBOLS.len()];
    let create = Call::CreateControl { endpoint: ENDPOINT, slot: SLOT, release: None };
    let mut script = Script::default();
    for length in 2..=LONGEST_CHAIN {
        for row in rows(&[first, second], &CONTROL_SYMBOLS, length) {
            let trbs: Vec<Trb> = row.iter().enumerate().map(|(position, symbol)| symbol.at(position)).collect();
            if length == LONGEST_CHAIN || ends_with_request(create, &trbs) {
                row_with_every_end(&mut script, create, &trbs, control_ends);
            }
        }
    }
    script.text
}

fn ends_with_request(create: Call, trbs: &[Trb]) -> bool {
    let mut trial = Script::default();
    trial.call(create);
    submit_row(&mut trial, trbs);
    due(&trial) == Due::Device
}

const LONGEST_TD: usize = 3;
const IOC: u8 = INTERRUPT_ON_COMPLETION;
const ISP: u8 = INTERRUPT_ON_SHORT;
const IN_SYMBOLS: [Symbol; 21] = [
    symbol(Kind::Normal, 0, 0, 0),
    symbol(Kind::Normal, IOC, 0, 0),
    symbol(Kind::Normal, ISP, 0, 0),
    symbol(Kind::Normal, IOC | ISP, 0, 0),
    symbol(Kind::Normal, 0, 0, 1),
    symbol(Kind::Normal, IOC, 0, 1),
    symbol(Kind::Normal, ISP, 0, 1),
    symbol(Kind::Normal, IOC | ISP, 0, 1),
    symbol(Kind::Normal, 0, 0, 3),
    symbol(Kind::Normal, IOC, 0, 3),
    symbol(Kind::Normal, ISP, 0, 3),
    symbol(Kind::Normal, IOC | ISP, 0, 3),
    symbol(Kind::EventData, 0, 0xe, 0),
    symbol(Kind::EventData, IOC, 0xe, 0),
    symbol(Kind::NoOp, 0, 0, 0),
    symbol(Kind::NoOp, IOC, 0, 0),
    symbol(Kind::SetupStage, IOC, 0x80, 0),
    symbol(Kind::DataStage, IOC, 0, 3),
    symbol(Kind::StatusStage, IOC, 0, 0),
    symbol(Kind::Isoch, 0, 0, 0),
    symbol(Kind::Unrecognized, 0, 0, 0),
];

/// Every status at every length from 0 to one more than was requested.
fn in_ends(requested: u64) -> Vec<(Status, u64)> {
    let statuses = [Status::Success, Status::Stall, Status::TransactionError, Status::Disconnect];
    statuses.into_iter().flat_map(|status| (0..=requested + 1).map(move |length| (status, length))).collect()
}

/// The TDs that start with a given symbol: all but the last TRB are chained, and the cycle bits alternate.
fn in_part(part: usize) -> String {
    let create = Call::CreateIn { endpoint: ENDPOINT, slot: SLOT, mode: None };
    let mut script = Script::default();
    for length in 1..=LONGEST_TD {
        for row in rows(&[IN_SYMBOLS[part]], &IN_SYMBOLS, length) {
            let place = |(position, symbol): (usize, &Symbol)| {
                let chain = if position + 1 < length { CHAIN } else { 0 };
                let cycle = if position % 2 == 1 { CYCLE } else { 0 };
                let mut trb = symbol.at(position);
                trb.flags = (trb.flags | chain | cycle) & trb.kind.flags();
                trb
            };
            let trbs: Vec<Trb> = row.iter().enumerate().map(place).collect();
            row_with_every_end(&mut script, create, &trbs, in_ends);
        }
    }
    script.text
}

/// Setup and Data IN of the longest length, chained; then Normals of that length, with an Unrecognized TRB whenever
/// no place is left, which lets them go and keeps phase and length, until the length has passed 2^32.
fn wrap(_part: usize) -> String {
    let mut script = Script::default();
    let mut length = u64::from(MAX_TRB_LENGTH);
    let mut position = 2;
    script.call(Call::Window { low: Region { base: FIRST_BYTE, length: MAX_WINDOW }, high: None });
    script.call(Call::CreateControl { endpoint: ENDPOINT, slot: SLOT, release: None });
    let long = |kind, position: usize| Trb { a: FIRST_BYTE, ..symbol(kind, CHAIN, 0, MAX_TRB_LENGTH).at(position) };
    let start = [symbol(Kind::SetupStage, 0, 0x80, 0).at(0), long(Kind::DataStage, 1)];
    let submit = |script: &mut Script, trb: Trb| {
        script.call(Call::Submit(trb));
        script.call(Call::CompleteWithout { length: 0 });
    };
    start.into_iter().for_each(|trb| submit(&mut script, trb));
    while length < 1 << 32 {
        let is_full = script.model.as_ref().is_some_and(|model| model.held.len() == MAX_HELD);
        let trb = if is_full { symbol(Kind::Unrecognized, 0, 0, 0).at(position) } else { long(Kind::Normal, position) };
        length += u64::from(trb.length);
        position += 1;
        submit(&mut script, trb);
    }
    let mut last_data = long(Kind::Normal, position);
    last_data.flags = 0;
    submit(&mut script, last_data);
    script.call(Call::Submit(symbol(Kind::StatusStage, IOC, 0, 0).at(position + 1)));
    script.call(Call::CompleteWithResult { status: Status::Success, length: u64::from(MAX_TRB_LENGTH) });
    script.text
}
