//! The control and IN endpoints of usbvfiod, unchanged, behind a driver for call scripts.

pub mod asked_rust;
pub mod call;
pub mod captured;
pub mod compare;
#[allow(dead_code, unused_imports, clippy::all)]
pub mod device;
pub mod driver;
pub mod effects;
pub mod endpoint;
pub mod engine;
pub mod exhaustive;
pub mod filling;
pub mod generate;
pub mod guest_memory;
pub mod lists;
pub mod model;
pub mod questions;
pub mod random;
pub mod raw_trb;
pub mod record;
pub mod row;
pub mod scripted_device;
pub mod two_fillings;
