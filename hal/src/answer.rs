//! What the calls of an endpoint answer, and what the device answered.

use crate::exported::CompletionAnswered;
use crate::{Records, Refusal, RECORD_LENGTH};

/// An accepted submission: the part of the lent log that it wrote.
#[derive(Clone, Copy, Debug)]
pub struct Submitted<'l> {
    /// The records' bytes.
    pub log: &'l [u8],
}

impl<'l> Submitted<'l> {
    pub(crate) fn of(records: usize, log: &'l [u8]) -> Self {
        Self { log: &log[..RECORD_LENGTH * records] }
    }

    /// The records that it logged.
    pub fn records(&self) -> Records<'l> {
        Records::of(self.log)
    }
}

/// An accepted completion: the part of the lent log that it wrote, and how the transfer ended.
#[derive(Clone, Copy, Debug)]
pub struct Completed<'l> {
    /// The records' bytes.
    pub log: &'l [u8],
    /// How the transfer ended.
    pub outcome: Outcome,
}

impl<'l> Completed<'l> {
    pub(crate) fn of(answered: CompletionAnswered, log: &'l [u8]) -> Result<Self, Refusal> {
        let (records, outcome) = answered.outcome()?;
        Ok(Self { log: &log[..RECORD_LENGTH * records], outcome })
    }

    /// The records that it logged.
    pub fn records(&self) -> Records<'l> {
        Records::of(self.log)
    }
}

/// How a transfer ended. On IN a stall and a transaction error name the TRB at which the endpoint halts.
#[derive(Clone, Copy, Debug, PartialEq, Eq)]
pub enum Outcome {
    /// Well, or there was nothing to end yet.
    Ok,
    /// The device stalled.
    Stall(Option<At>),
    /// A transaction failed.
    TransactionError(Option<At>),
    /// The device is gone.
    Disconnect,
    /// A TRB had no place where it stood.
    TrbError,
}

/// A TRB by its address and its cycle bit.
#[derive(Clone, Copy, Debug, PartialEq, Eq)]
pub struct At {
    /// The TRB's address.
    pub address: u64,
    /// Its cycle bit.
    pub cycle: bool,
}

/// How the device answered a request.
#[derive(Clone, Copy, Debug, PartialEq, Eq)]
pub enum DeviceResult {
    /// It sent its data, or fewer bytes than were asked for; on control, the data of an IN transfer.
    Success,
    /// It stalled.
    Stall,
    /// A transaction failed.
    TransactionError,
    /// It is gone.
    Disconnect,
    /// On control: it took the data of an OUT transfer. On IN no device answers so; there it counts as no result.
    SuccessOut,
}

impl DeviceResult {
    /// The number by which the library knows a result, or that there is none.
    pub(crate) fn number(result: Option<Self>) -> u8 {
        match result {
            Some(Self::Success) => 0,
            Some(Self::Stall) => 1,
            Some(Self::TransactionError) => 2,
            Some(Self::Disconnect) => 3,
            Some(Self::SuccessOut) => 4,
            None => 255,
        }
    }
}
