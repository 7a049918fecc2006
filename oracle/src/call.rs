//! The lines of a call script: reading and writing them. docs/CALLS.md decides their form.

use std::fmt::{self, Display, Formatter};

use crate::questions::MIN_ROW_LOG;

#[derive(Debug, Clone, Copy, PartialEq, Eq)]
pub enum Kind {
    Unrecognized,
    Normal,
    SetupStage,
    DataStage,
    StatusStage,
    Isoch,
    EventData,
    NoOp,
}

pub const CYCLE: u8 = 1;
pub const CHAIN: u8 = 2;
pub const INTERRUPT_ON_COMPLETION: u8 = 4;
pub const INTERRUPT_ON_SHORT: u8 = 8;
pub const IMMEDIATE_DATA: u8 = 16;
pub const DIRECTION: u8 = 32;

impl Kind {
    pub const ALL: [Self; 8] = [
        Self::Unrecognized,
        Self::Normal,
        Self::SetupStage,
        Self::DataStage,
        Self::StatusStage,
        Self::Isoch,
        Self::EventData,
        Self::NoOp,
    ];

    /// Its number in a script; a known kind's is its TRB type in xHCI 1.2, table 6-91.
    pub const fn number(self) -> u8 {
        match self {
            Self::Unrecognized => 0,
            Self::Normal => 1,
            Self::SetupStage => 2,
            Self::DataStage => 3,
            Self::StatusStage => 4,
            Self::Isoch => 5,
            Self::EventData => 7,
            Self::NoOp => 8,
        }
    }

    fn of_number(number: u64) -> Option<Self> {
        Self::ALL.into_iter().find(|kind| u64::from(kind.number()) == number)
    }

    /// The flags that the kind has.
    pub const fn flags(self) -> u8 {
        match self {
            Self::Normal => CYCLE | CHAIN | INTERRUPT_ON_COMPLETION | INTERRUPT_ON_SHORT | IMMEDIATE_DATA,
            Self::SetupStage => CYCLE | INTERRUPT_ON_COMPLETION,
            Self::DataStage => {
                CYCLE | CHAIN | INTERRUPT_ON_COMPLETION | INTERRUPT_ON_SHORT | IMMEDIATE_DATA | DIRECTION
            }
            Self::StatusStage => CYCLE | CHAIN | INTERRUPT_ON_COMPLETION | DIRECTION,
            Self::EventData | Self::NoOp => CYCLE | CHAIN | INTERRUPT_ON_COMPLETION,
            Self::Isoch | Self::Unrecognized => CYCLE,
        }
    }

    /// Does it have a data pointer, event data or setup bytes?
    pub const fn has_a(self) -> bool {
        matches!(self, Self::Normal | Self::SetupStage | Self::DataStage | Self::EventData)
    }

    /// Does it have a transfer length?
    pub const fn has_length(self) -> bool {
        matches!(self, Self::Normal | Self::DataStage)
    }
}

/// A decoded TRB. `a` is the data pointer, the event data or the setup bytes.
#[derive(Debug, Clone, Copy, PartialEq, Eq)]
pub struct Trb {
    pub kind: Kind,
    pub address: u64,
    pub flags: u8,
    pub a: u64,
    pub length: u32,
}

impl Trb {
    pub const fn has(&self, flag: u8) -> bool {
        self.flags & flag != 0
    }
}

impl Display for Trb {
    fn fmt(&self, f: &mut Formatter<'_>) -> fmt::Result {
        let Self { kind, address, flags, a, length } = self;
        write!(f, "{:x} {address:x} {flags:x} {a:x} {length:x}", kind.number())
    }
}

#[derive(Debug, Clone, Copy, PartialEq, Eq)]
pub enum Status {
    Success,
    Stall,
    TransactionError,
    Disconnect,
    SuccessfulControlOut,
}

impl Status {
    pub const ALL: [Self; 5] =
        [Self::Success, Self::Stall, Self::TransactionError, Self::Disconnect, Self::SuccessfulControlOut];
}

/// `length` bytes of guest memory from `base`. Addresses are whole numbers: a region may reach past 2^64.
#[derive(Debug, Clone, Copy, PartialEq, Eq)]
pub struct Region {
    pub base: u64,
    pub length: u64,
}

impl Region {
    pub const NONE: Self = Self { base: 0, length: 0 };

    pub fn end(self) -> u128 {
        u128::from(self.base) + u128::from(self.length)
    }

    /// Is there an address in both?
    pub fn shares_an_address(self, other: Self) -> bool {
        u128::from(self.base.max(other.base)) < self.end().min(other.end())
    }
}

impl Display for Region {
    fn fmt(&self, f: &mut Formatter<'_>) -> fmt::Result {
        write!(f, "{:x} {:x}", self.base, self.length)
    }
}

#[derive(Debug, Clone, Copy, PartialEq, Eq)]
pub enum Call {
    /// Where one region is named, the other is empty.
    Window {
        low: Region,
        high: Option<Region>,
    },
    Buffers {
        log: u64,
        collect: u64,
    },
    /// In the mode named; where none is, as ported.
    CreateIn {
        endpoint: u8,
        slot: u8,
        mode: Option<u8>,
    },
    /// For guests of the release named; where none is, of release 4.
    CreateControl {
        endpoint: u8,
        slot: u8,
        release: Option<u8>,
    },
    Submit(Trb),
    SubmitRaw {
        address: u64,
        bytes: [u8; 16],
    },
    CompleteWithResult {
        status: Status,
        length: u64,
    },
    CompleteWithout {
        length: u64,
    },
    Cancel,
    Hold(Trb),
    MakeUpIn {
        state: u8,
    },
    MakeUpControl {
        phase: u8,
        state: u8,
        direction: bool,
        length: u32,
    },
    /// To the end of the row that is being written down.
    AppendTrb(Trb),
    /// What the next TD of that row is given.
    AppendResult {
        status: Status,
        length: u32,
    },
    CompleteRow {
        length: u64,
    },
    /// The time of what follows, in captures; the Rust looks at its own clock.
    Time {
        seconds: u32,
        microseconds: u32,
    },
    /// What captures say of the endpoint.
    Captured(Captured),
}

/// `is_interrupt`, else bulk, is of IN endpoints alone.
#[derive(Debug, Clone, Copy, PartialEq, Eq)]
pub struct Captured {
    pub bus: u16,
    pub device: u8,
    pub is_interrupt: bool,
}

impl Call {
    /// `w`, `b`, `t`, `m` and creations may stand before an endpoint.
    pub const fn is_on_endpoint(&self) -> bool {
        !matches!(
            self,
            Self::Window { .. }
                | Self::Buffers { .. }
                | Self::Time { .. }
                | Self::Captured(_)
                | Self::CreateIn { .. }
                | Self::CreateControl { .. }
        )
    }

    /// `w`, `b`, `h`, `p`, `q`, `e`, `t` and `m` print nothing.
    pub const fn is_answered(&self) -> bool {
        !matches!(
            self,
            Self::Window { .. }
                | Self::Buffers { .. }
                | Self::Hold(_)
                | Self::MakeUpIn { .. }
                | Self::MakeUpControl { .. }
                | Self::AppendTrb(_)
                | Self::AppendResult { .. }
                | Self::Time { .. }
                | Self::Captured(_)
        )
    }
}

impl Display for Call {
    fn fmt(&self, f: &mut Formatter<'_>) -> fmt::Result {
        match self {
            Self::Window { low, high: None } => write!(f, "w {low}"),
            Self::Window { low, high: Some(high) } => write!(f, "w {low} {high}"),
            Self::Buffers { log, collect } => write!(f, "b {log:x} {collect:x}"),
            Self::CreateIn { endpoint, slot, mode: None } => write!(f, "i {endpoint:x} {slot:x}"),
            Self::CreateIn { endpoint, slot, mode: Some(mode) } => write!(f, "i {endpoint:x} {slot:x} {mode:x}"),
            Self::CreateControl { endpoint, slot, release: None } => write!(f, "c {endpoint:x} {slot:x}"),
            Self::CreateControl { endpoint, slot, release: Some(release) } => {
                write!(f, "c {endpoint:x} {slot:x} {release:x}")
            }
            Self::Submit(trb) => write!(f, "s {trb}"),
            Self::SubmitRaw { address, bytes } => write!(f, "u {address:x} {}", digits_of(bytes)),
            Self::CompleteWithResult { status, length } => write!(f, "d {:x} {length:x}", *status as u8),
            Self::CompleteWithout { length } => write!(f, "l {length:x}"),
            Self::Cancel => write!(f, "x"),
            Self::Hold(trb) => write!(f, "h {trb}"),
            Self::MakeUpIn { state } => write!(f, "p {state:x}"),
            Self::MakeUpControl { phase, state, direction, length } => {
                write!(f, "p {phase:x} {state:x} {:x} {length:x}", u8::from(*direction))
            }
            Self::AppendTrb(trb) => write!(f, "q {trb}"),
            Self::AppendResult { status, length } => write!(f, "e {:x} {length:x}", *status as u8),
            Self::CompleteRow { length } => write!(f, "r {length:x}"),
            Self::Time { seconds, microseconds } => write!(f, "t {seconds:x} {microseconds:x}"),
            Self::Captured(Captured { bus, device, is_interrupt }) => {
                write!(f, "m {bus:x} {device:x} {}", if *is_interrupt { 1 } else { 3 })
            }
        }
    }
}

/// Of both regions together.
pub const MAX_WINDOW: u64 = 0x140000;
pub const FIRST_REGION: Region = Region { base: 0x8000, length: 0x40000 };
pub const MAX_LOG: u64 = MIN_ROW_LOG;
pub const MAX_COLLECT: u64 = 0x10000;
pub const MAX_DATA: u64 = MAX_WINDOW;
pub const FIRST_CAPTURED: Captured = Captured { bus: 1, device: 1, is_interrupt: false };

/// A number in lower-case hex with no leading zeros, at most `limit`.
fn number(field: &str, limit: u64) -> Option<u64> {
    let digits = field.bytes().all(|digit| matches!(digit, b'0'..=b'9' | b'a'..=b'f'));
    if !digits || (field.starts_with('0') && field != "0") {
        return None;
    }
    u64::from_str_radix(field, 16).ok().filter(|number| *number <= limit)
}

/// The bytes of a raw TRB: 32 digits in lower-case hex.
pub fn raw_bytes(field: &str) -> Option<[u8; 16]> {
    let digits = field.bytes().all(|digit| matches!(digit, b'0'..=b'9' | b'a'..=b'f'));
    if !digits || field.len() != 32 {
        return None;
    }
    u128::from_str_radix(field, 16).ok().map(u128::to_be_bytes)
}

pub fn digits_of(bytes: &[u8]) -> String {
    bytes.iter().map(|byte| format!("{byte:02x}")).collect()
}

fn trb(fields: &[&str]) -> Option<Trb> {
    let [kind, address, flags, a, length] = fields else {
        return None;
    };
    let kind = Kind::of_number(number(kind, u64::MAX)?)?;
    let trb = Trb {
        kind,
        address: number(address, u64::MAX)?,
        flags: number(flags, 0xff)? as u8,
        a: number(a, u64::MAX)?,
        length: number(length, u32::MAX.into())? as u32,
    };
    let has_only_its_own =
        trb.flags & !kind.flags() == 0 && (kind.has_a() || trb.a == 0) && (kind.has_length() || trb.length == 0);
    has_only_its_own.then_some(trb)
}

fn region(base: &str, length: &str) -> Option<Region> {
    Some(Region { base: number(base, u64::MAX)?, length: number(length, MAX_WINDOW)? })
}

fn ids(endpoint: &str, slot: &str) -> Option<(u8, u8)> {
    Some((number(endpoint, 0xff)? as u8, number(slot, 0xff)? as u8))
}

/// Reads a line, without its line feed; None if it is bad. Whether the endpoint can take the call is not asked here.
pub fn parse(line: &str) -> Option<Call> {
    let fields: Vec<&str> = line.split(' ').collect();
    let call = match fields[..] {
        ["w", base, length] => Call::Window { low: region(base, length)?, high: None },
        ["w", low_base, low_length, high_base, high_length] => {
            let (low, high) = (region(low_base, low_length)?, region(high_base, high_length)?);
            if low.length + high.length > MAX_WINDOW {
                return None;
            }
            Call::Window { low, high: Some(high) }
        }
        ["b", log, collect] => Call::Buffers { log: number(log, MAX_LOG)?, collect: number(collect, MAX_COLLECT)? },
        ["i", endpoint, slot] => {
            let (endpoint, slot) = ids(endpoint, slot)?;
            Call::CreateIn { endpoint, slot, mode: None }
        }
        ["i", endpoint, slot, mode @ ("0" | "1")] => {
            let (endpoint, slot) = ids(endpoint, slot)?;
            Call::CreateIn { endpoint, slot, mode: mode.parse().ok() }
        }
        ["c", endpoint, slot] => {
            let (endpoint, slot) = ids(endpoint, slot)?;
            Call::CreateControl { endpoint, slot, release: None }
        }
        ["c", endpoint, slot, release @ ("4" | "5")] => {
            let (endpoint, slot) = ids(endpoint, slot)?;
            Call::CreateControl { endpoint, slot, release: release.parse().ok() }
        }
        ["s", ..] => Call::Submit(trb(&fields[1..])?),
        ["u", address, raw] => Call::SubmitRaw { address: number(address, u64::MAX)?, bytes: raw_bytes(raw)? },
        ["d", status, length] => Call::CompleteWithResult {
            status: *Status::ALL.get(number(status, 4)? as usize)?,
            length: number(length, MAX_DATA)?,
        },
        ["l", length] => Call::CompleteWithout { length: number(length, MAX_DATA)? },
        ["x"] => Call::Cancel,
        ["h", ..] => Call::Hold(trb(&fields[1..])?),
        ["p", state] => Call::MakeUpIn { state: number(state, 3)? as u8 },
        ["p", phase, state, direction, length] => Call::MakeUpControl {
            phase: number(phase, 4)? as u8,
            state: number(state, 2)? as u8,
            direction: number(direction, 1)? == 1,
            length: number(length, u32::MAX.into())? as u32,
        },
        ["q", ..] => Call::AppendTrb(trb(&fields[1..])?),
        ["e", status, length] => Call::AppendResult {
            status: *Status::ALL.get(number(status, 3)? as usize)?,
            length: number(length, u32::MAX.into())? as u32,
        },
        ["r", length] => Call::CompleteRow { length: number(length, MAX_DATA)? },
        ["t", seconds, microseconds] => Call::Time {
            seconds: number(seconds, u32::MAX.into())? as u32,
            microseconds: number(microseconds, u32::MAX.into())? as u32,
        },
        ["m", bus, device, transfer_type @ ("1" | "3")] => Call::Captured(Captured {
            bus: number(bus, 0xffff)? as u16,
            device: number(device, 0xff)? as u8,
            is_interrupt: transfer_type == "1",
        }),
        _ => return None,
    };
    Some(call)
}
