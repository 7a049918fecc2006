//! The proved functions of Polvihe, for Rust: declared once, with safe wrappers over lent buffers.
//!
//! What a function answers and every byte that it leaves are proved against definitions (`crates/polvihe`, and the crates below
//! it). This crate adds pointers and lengths, and nothing else. It keeps no state, allocates only with its default feature `std`,
//! and has no `unsafe` in its interface.
//!
//! ```
//! use polvihe_hal::{log, Refusal};
//!
//! let mut stored = [0u8; 64];
//! stored[0] = 1; // a write of 0 bytes
//! stored[32] = 2; // an event
//! let kept = log::compact(&mut stored)?;
//! assert_eq!(log::text(kept)?, "2 0 0 0 0 0 0 0 0000000000000000\n");
//! # Ok::<(), Refusal>(())
//! ```

#![no_std]
#![deny(missing_docs, unsafe_op_in_unsafe_fn)]

#[cfg(feature = "std")]
extern crate std;

mod answer;
pub mod capture;
mod control_endpoint;
mod exported;
mod ids;
mod in_endpoint;
pub mod log;
mod log_record;
mod memory;
pub mod record;
mod refusal;
mod row;
mod trb;

pub use answer::{At, Completed, DeviceResult, Outcome, Submitted};
pub use control_endpoint::{ControlEndpoint, GuestRelease};
pub use ids::{EndpointId, SlotId};
pub use in_endpoint::{InEndpoint, Mode};
pub use log_record::{Effect, EventAbout, Record, Records, RECORD_LENGTH};
pub use memory::{GuestMemory, Region};
pub use refusal::Refusal;
pub use row::{RowCompleted, RowTrb, TdResult};
pub use trb::{DataStage, EventData, NoOp, Normal, SetupStage, StatusStage, Trb};
