//! Transfer TRBs, decoded, and their 16 bytes on the ring.

use crate::exported::{self, accepted, TrbNumbers};
use crate::Refusal;

/// A transfer TRB, decoded.
///
/// ```
/// use polvihe_hal::{Normal, Refusal, Trb};
///
/// let trb = Trb::Normal(Normal { pointer: 0x8000, length: 512, chain: true, ..Normal::default() });
/// let raw = trb.encode(true)?;
/// assert_eq!(raw[..2], [0x00, 0x80]);
/// assert_eq!(Trb::decode(&raw), (trb, true));
/// assert_eq!(Trb::Unrecognized.encode(true), Err(Refusal::NotEncodable));
/// # Ok::<(), Refusal>(())
/// ```
#[derive(Clone, Copy, Debug, PartialEq, Eq)]
pub enum Trb {
    /// A Normal TRB.
    Normal(Normal),
    /// A Setup Stage TRB.
    SetupStage(SetupStage),
    /// A Data Stage TRB.
    DataStage(DataStage),
    /// A Status Stage TRB.
    StatusStage(StatusStage),
    /// An Event Data TRB.
    EventData(EventData),
    /// A No Op TRB.
    NoOp(NoOp),
    /// An Isoch TRB, of which nothing is kept.
    Isoch,
    /// Any other TRB, and one with a reserved bit on.
    Unrecognized,
}

/// The fields of a Normal TRB.
#[derive(Clone, Copy, Debug, Default, PartialEq, Eq)]
pub struct Normal {
    /// Where in guest memory the data goes.
    pub pointer: u64,
    /// How many bytes.
    pub length: u32,
    /// The TD goes on with the next TRB.
    pub chain: bool,
    /// An event once it is complete.
    pub interrupt_on_completion: bool,
    /// An event where fewer bytes come.
    pub interrupt_on_short: bool,
    /// The pointer field has the bytes themselves. For sending only: question 21.
    pub immediate_data: bool,
}

/// The fields of a Setup Stage TRB.
#[derive(Clone, Copy, Debug, Default, PartialEq, Eq)]
pub struct SetupStage {
    /// The eight bytes of the setup packet.
    pub setup: [u8; 8],
    /// An event once it is complete.
    pub interrupt_on_completion: bool,
}

/// The fields of a Data Stage TRB.
#[derive(Clone, Copy, Debug, Default, PartialEq, Eq)]
pub struct DataStage {
    /// Where in guest memory the data lies or goes.
    pub pointer: u64,
    /// How many bytes.
    pub length: u32,
    /// The data stage goes on with the next TRB.
    pub chain: bool,
    /// An event once it is complete.
    pub interrupt_on_completion: bool,
    /// An event where fewer bytes come.
    pub interrupt_on_short: bool,
    /// The pointer field has the bytes themselves.
    pub immediate_data: bool,
    /// The direction bit, on for IN. The engine goes by the setup packet.
    pub direction: bool,
}

/// The fields of a Status Stage TRB.
#[derive(Clone, Copy, Debug, Default, PartialEq, Eq)]
pub struct StatusStage {
    /// An Event Data TRB follows.
    pub chain: bool,
    /// An event once it is complete.
    pub interrupt_on_completion: bool,
    /// The direction bit.
    pub direction: bool,
}

/// The fields of an Event Data TRB.
#[derive(Clone, Copy, Debug, Default, PartialEq, Eq)]
pub struct EventData {
    /// The value that its event carries.
    pub value: u64,
    /// The TD goes on with the next TRB.
    pub chain: bool,
    /// Whether there is an event.
    pub interrupt_on_completion: bool,
}

/// The fields of a No Op TRB.
#[derive(Clone, Copy, Debug, Default, PartialEq, Eq)]
pub struct NoOp {
    /// The TD goes on with the next TRB.
    pub chain: bool,
    /// An event once it is reached.
    pub interrupt_on_completion: bool,
}

/// Flags by weight.
const CYCLE: u8 = 1;
const CHAIN: u8 = 2;
const COMPLETION: u8 = 4;
const SHORT: u8 = 8;
const IMMEDIATE: u8 = 16;
const DIRECTION: u8 = 32;

fn flag(on: bool, weight: u8) -> u8 {
    if on {
        weight
    } else {
        0
    }
}

impl Trb {
    /// The TRB that the 16 bytes of the ring are, and its cycle bit.
    pub fn decode(raw: &[u8; 16]) -> (Self, bool) {
        // SAFETY: the library neither writes to the 16 bytes nor keeps them.
        let numbers = unsafe { exported::polvihe_decode_trb(raw) };
        (Self::of(numbers), numbers.flags & CYCLE != 0)
    }

    /// The 16 bytes of the ring, with zeros in what the decoded form does not hold. Refused with 23 for Isoch and Unrecognized, with 4
    /// where the length has more than 17 bits.
    pub fn encode(self, cycle: bool) -> Result<[u8; 16], Refusal> {
        let TrbNumbers { kind, flags, value, transfer_length } = self.numbers(cycle);
        let mut raw = [0; 16];
        // SAFETY: the pointer stands with the length of its array, which is lent for the call alone.
        let number =
            unsafe { exported::polvihe_encode_trb(kind, flags, value, transfer_length, raw.as_mut_ptr(), raw.len()) };
        accepted(number.into())?;
        Ok(raw)
    }

    /// The TRB by numbers, as the exported functions take it.
    pub(crate) fn numbers(self, cycle: bool) -> TrbNumbers {
        let (kind, flags, value, transfer_length) = match self {
            Self::Normal(t) => {
                let flags = flag(t.chain, CHAIN)
                    | flag(t.interrupt_on_completion, COMPLETION)
                    | flag(t.interrupt_on_short, SHORT)
                    | flag(t.immediate_data, IMMEDIATE);
                (1, flags, t.pointer, t.length)
            }
            Self::SetupStage(t) => (2, flag(t.interrupt_on_completion, COMPLETION), u64::from_le_bytes(t.setup), 0),
            Self::DataStage(t) => {
                let flags = flag(t.chain, CHAIN)
                    | flag(t.interrupt_on_completion, COMPLETION)
                    | flag(t.interrupt_on_short, SHORT)
                    | flag(t.immediate_data, IMMEDIATE)
                    | flag(t.direction, DIRECTION);
                (3, flags, t.pointer, t.length)
            }
            Self::StatusStage(t) => {
                let flags =
                    flag(t.chain, CHAIN) | flag(t.interrupt_on_completion, COMPLETION) | flag(t.direction, DIRECTION);
                (4, flags, 0, 0)
            }
            Self::Isoch => (5, 0, 0, 0),
            Self::EventData(t) => (7, flag(t.chain, CHAIN) | flag(t.interrupt_on_completion, COMPLETION), t.value, 0),
            Self::NoOp(t) => (8, flag(t.chain, CHAIN) | flag(t.interrupt_on_completion, COMPLETION), 0, 0),
            Self::Unrecognized => (0, 0, 0, 0),
        };
        TrbNumbers { kind, flags: flags | flag(cycle, CYCLE), value, transfer_length }
    }

    fn of(numbers: TrbNumbers) -> Self {
        let on = |weight: u8| numbers.flags & weight != 0;
        let (chain, interrupt_on_completion) = (on(CHAIN), on(COMPLETION));
        match numbers.kind {
            1 => Self::Normal(Normal {
                pointer: numbers.value,
                length: numbers.transfer_length,
                chain,
                interrupt_on_completion,
                interrupt_on_short: on(SHORT),
                immediate_data: on(IMMEDIATE),
            }),
            2 => Self::SetupStage(SetupStage { setup: numbers.value.to_le_bytes(), interrupt_on_completion }),
            3 => Self::DataStage(DataStage {
                pointer: numbers.value,
                length: numbers.transfer_length,
                chain,
                interrupt_on_completion,
                interrupt_on_short: on(SHORT),
                immediate_data: on(IMMEDIATE),
                direction: on(DIRECTION),
            }),
            4 => Self::StatusStage(StatusStage { chain, interrupt_on_completion, direction: on(DIRECTION) }),
            5 => Self::Isoch,
            7 => Self::EventData(EventData { value: numbers.value, chain, interrupt_on_completion }),
            8 => Self::NoOp(NoOp { chain, interrupt_on_completion }),
            _ => Self::Unrecognized,
        }
    }
}
