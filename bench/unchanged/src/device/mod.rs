//! The module tree that the unchanged files expect. Files below `usbvfiod/` are carried over; the others stand in.

#[rustfmt::skip]
#[path = "../../usbvfiod/src/device/bus.rs"]
pub mod bus;
#[path = "../../../../oracle/src/device/interval.rs"]
pub mod interval;
#[rustfmt::skip]
#[path = "../../usbvfiod/src/device/pcap/mod.rs"]
pub mod pcap;
pub mod pci;
pub mod xhci;
