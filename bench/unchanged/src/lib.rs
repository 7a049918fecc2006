//! The endpoints of usbvfiod, unchanged, and the work that bench/ times on them.

pub mod calls;
#[allow(dead_code, unused_imports, clippy::all)]
pub mod device;
pub mod surroundings;
